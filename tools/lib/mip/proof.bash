# shellcheck shell=bash
# Part of ./mip: which program is proved from the sources that stand here, and how one is proved and built.
# It reads `top`, `program`, `past`, `kept`, `stamp`, `log` and `installed` of ./mip.
# shellcheck disable=SC2154

need_rt() {
    command -v rt >/dev/null || fail 'the command rt is not found. It is part of the Rattle kit, which proves and builds the program: put its bin/ on PATH'
}

# Each file that a proof of the program can depend on, with a zero behind it.
source_files() {
    printf '%s\0' crates.txt HANDLES
    find crates -path '*/out' -prune -o -type f \( -name '*.rt' -o -name '*.antt' \) -print0 | LC_ALL=C sort -z
}

# The kit and every file that a proof of the program can depend on, as one number. Files are summed up only where one of them has another name,
# size or time than the last time: the time at which a file's status changed cannot be set by hand.
sources() {
    local version state last number
    cd "$top" || return 1
    version=$(rt version) || return 1
    state=$({ echo "$version"; source_files | xargs -0 stat -c '%n %s %i %y %z'; } | sha256sum | cut -d ' ' -f 1) || return 1
    read -r last number 2>/dev/null <"$seen" || last=''
    if [ "$last" != "$state" ]; then
        number=$({ echo "$version"; source_files | xargs -0 sha256sum; } | sha256sum | cut -d ' ' -f 1) || return 1
        # what was read may have changed meanwhile; where nothing can be kept, nothing is
        { mkdir -p "$kept" && echo "$state $number" >"$seen.$$" && mv "$seen.$$" "$seen"; } 2>/dev/null || true
    fi
    echo "$number"
}

# Whether the program that stands here was proved from the sources with this number.
is_proved() {
    [ -x "$program" ] && [ -f "$stamp" ] && [ "$(cat "$stamp")" = "$1 $(sha256sum <"$program")" ]
}

# Whether the program is the one that was proved when it was installed.
is_installed() {
    [ -n "$installed" ] && [ -x "$program" ] && [ -f "$stamp" ] && [ "$(cut -d ' ' -f 2- "$stamp")" = "$(sha256sum <"$program")" ]
}

# Where the program stands that was proved from these sources, or was installed. It proves nothing.
show_program() {
    if [ -n "$installed" ]; then
        is_installed || fail 'the program that stands here is not the one that was installed'
    else
        need_rt
        is_proved "$(sources)" || fail 'no program is proved from these sources. ./mip replay < SCHEDULE proves and builds it, once; --unproved runs without a proof'
    fi
    echo "$program"
}

# Shows how far the proof is: on a terminal in one line that is kept up to date, else line by line.
tell() {
    if [ -t 2 ]; then printf '\r\033[K%s' "$*" >&2; else printf '%s\n' "$*" >&2; fi
}

# Reads what rt says, and tells which crate is proved, how far that is, and what was refused.
progress() {
    local line crate='' crates far
    crates=$(grep -c '^[a-z]' "$top/crates.txt")
    while IFS= read -r line; do
        printf '%s\n' "$line" >>"$log"
        case $line in
        'rt: chose '*' for '*)
            crate=${line##* for }
            tell "mip: $((SECONDS / 60)) min: $crate begins (one of $crates crates)" ;;
        'so far: '*' functions checked'*)
            far=${line#so far: }
            tell "mip: $((SECONDS / 60)) min: $crate: ${far%% functions*} functions" ;;
        'logic=proved '*)
            tell "mip: $((SECONDS / 60)) min: $crate is proved" ;;
        *': error'* | *': not proved')
            if [ -t 2 ]; then echo >&2; fi
            printf 'mip: %s: %s\n' "$crate" "${line:0:160}" >&2 ;;
        esac
    done
    if [ -t 2 ]; then echo >&2; fi
}

# Proves and builds the program, again where a source changed meanwhile. It was removed before, so one that stands there afterwards is new.
prove() {
    local before after
    before=$(sources) || fail 'the sources cannot be read, or rt version failed'
    if is_proved "$before"; then return; fi
    echo 'mip: no program is proved from these sources yet. The proof takes some 40 minutes on four processors where nothing is kept, and less' >&2
    echo 'mip: after an edit. Where .ci/run has passed in this clone, the program stands already. ./mip --unproved runs without a proof' >&2
    while :; do
        rm -f "$program" "$stamp" "$log"
        (cd "$top/crates/mip_prog" && rt run --) </dev/null 2>&1 >/dev/null | progress || true
        [ -x "$program" ] || fail "the sources are not proved, so there is no program. All that rt said is in $log"
        after=$(sources) || fail 'the sources cannot be read, or rt version failed'
        if [ "$after" = "$before" ]; then break; fi
        echo 'mip: a source changed while the proof ran, so it begins again' >&2
        before=$after
    done
    keep "$before"
}

# Keeps that the program that stands here was proved from the sources with this number.
keep() {
    echo "$1 $(sha256sum <"$program")" >"$stamp.new"
    mv "$stamp.new" "$stamp"
}

# The gate has proved and built the program from the sources with this number: that is kept where they still stand so.
keep_of_gate() {
    [ -x "$program" ] || fail 'there is no program of the gate'
    [ "$(sources)" = "$1" ] || fail 'a source has changed since the gate began'
    mkdir -p "$kept"
    keep "$1"
    # the second program of the gate, which tools/past runs
    if [ -x "$past" ]; then echo "$1 $(sha256sum <"$past")" >"$kept/past.proved"; fi
}
