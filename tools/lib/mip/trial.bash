# shellcheck shell=bash
# Part of ./mip: a run of the sources as they stand, without a proof.
# It reads `top`, `kept`, `tried` and `files` of ./mip.
# shellcheck disable=SC2154

# How long it took here, so far and the last time, until the run has ended.
count_seconds() {
    local begun=$SECONDS last
    while sleep 1; do
        last=''
        if [ -r "$tried" ]; then last=" of some $(<"$tried")"; fi
        tell "mip: it is built, $((SECONDS - begun)) s$last"
    done
}

# What rt try says where it has no answer of the program.
no_answer() {
    grep -v -e '^| ' -e '^interpreter:' "$1" | cut -c1-300 | tail -n 20 >&2
    fail 'rt try gave no answer of the program, for the cause above'
}

# Runs the sources by `rt try`, on the files where some are given, and ends with the program's own status: with several, the first that is not 0.
run_unproved() {
    local said status how=() file number=0 answered=0 begun=$SECONDS
    if [ -r "$tried" ]; then echo "mip: nothing is proved of this run. It took $(<"$tried") s here the last time" >&2
    else echo 'mip: nothing is proved of this run. It is built first, which takes some four minutes of processor time and up to 9 GB of memory, each time' >&2; fi
    echo 'mip: the run may take 60 seconds and write 1 MiB; for more ./mip needs the proof, once. Several files in one call are built for once' >&2
    work=$(mktemp -d)
    trap 'rm -rf "$work"' EXIT
    said=$work/said
    if [ -t 2 ]; then count_seconds & counter=$!; trap 'kill "$counter" 2>/dev/null || true; rm -rf "$work"' EXIT; fi
    if [ ${#files[@]} -gt 1 ]; then
        mkdir "$work/cases"
        for file in "${files[@]}"; do
            number=$((number + 1))
            cat -- "$file" >"$work/cases/$number"
        done
        how=(--cases "$work/cases")
        (cd "$top/crates/mip_prog" && rt try "${how[@]}" -- "$@") 2>"$said" >"$work/out" || answered=$?
    elif [ ${#files[@]} = 1 ]; then (cd "$top/crates/mip_prog" && rt try -- "$@") 2>"$said" <"${files[0]}" || true
    else (cd "$top/crates/mip_prog" && rt try -- "$@") 2>"$said" || true; fi
    if [ -t 2 ]; then kill "$counter" 2>/dev/null || true; tell ''; fi
    if [ ${#files[@]} -gt 1 ]; then
        # the head of each output has the name of its file in place of its number
        while IFS= read -r file; do
            if [[ $file =~ ^'== '([1-9][0-9]*)$ ]]; then file="== ${files[BASH_REMATCH[1] - 1]}"; fi
            printf '%s\n' "$file"
        done <"$work/out"
        # rt ends with 0 where each of them ended, whatever its own status
        [ $answered = 0 ] || no_answer "$said"
        status=$(sed -n 's/^case=.*status=\([0-9][0-9]*\).*/\1/p' "$said" | grep -vx 0 | head -n 1 || true)
        status=${status:-0}
    else
        status=$(sed -n 's/^run=ended status=\([0-9][0-9]*\) .*/\1/p' "$said")
        [ -n "$status" ] || no_answer "$said"
    fi
    # what it took is kept where this folder can be written
    { mkdir -p "$kept" && echo $((SECONDS - begun)) >"$tried"; } 2>/dev/null || true
    exit "$status"
}
