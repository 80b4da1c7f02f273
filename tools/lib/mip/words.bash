# shellcheck shell=bash
# Part of ./mip: the words of the command line, judged by the list of commands before anything is built; help and version.
# It reads `commands`, `me`, `installed`, `stamp` and `program` of ./mip, and leaves what is wrong in `why` and the forms of the command in `rows`.
# shellcheck disable=SC2154

# What stands in the list of commands under this word, for this command, or for all where it is none.
listed() {
    local word rest current=''
    rows=()
    while read -r word rest; do
        case $word in form) current=${rest%% *} ;; esac
        if [ "$word" = "$1" ] && [ "${2-$current}" = "$current" ]; then rows+=("$rest"); fi
    done <"$commands"
}

# An example or a form as it is typed here, and what is said of a tool.
typed() { named "${1//mip /$me }"; }
named() { if [ -n "$installed" ]; then printf '%s' "${1//tools\//mip-}"; else printf '%s' "$1"; fi; }

show_help() {
    local word rest form=''
    while read -r word rest; do
        case $word in
        title) printf '%s\n\n' "$rest" ;;
        form)
            # a command's forms stand one below the other, and what it does beside the last
            if [ -n "$form" ]; then printf '  %s\n' "$form"; fi
            form="$me $rest" ;;
        does)
            printf '  %-35s%s\n' "$form" "$rest"
            form='' ;;
        example) printf '      %s\n' "$(typed "$rest")" ;;
        esac
    done <"$commands"
    if [ -z "$installed" ]; then
        printf '  %-35s%s\n      %s\n' "$me --unproved WORDS" 'the same without a proof of anything; of replay and decode also on files' \
            "$me --unproved replay examples/honest.schedule examples/outsider.schedule"
    fi
    printf '  %-35s%s\n' "$me help COMMAND" 'tells more of a command' "$me --version" 'tells which program runs'
    if [ -n "$installed" ]; then
        printf '\n%s\n%s\n%s\n' 'Beside the program stand mip-why, which names the fault of a schedule, mip-brief, which lists a trace on a terminal, mip-trace2html, which draws' \
            'it as a page, mip-conform, which tells which rules of RFC 6275 another implementation breaks, mip-lab, mip-sweep and others;' \
            'each has --help, and man mip has them all. man mip-schedule has the formats.'
        return
    fi
    cat <<HELP

Schedules, traces, listings, configurations and exit statuses are described in docs/FORMATS.md. Beside the program stand tools/why, which names the fault of a
schedule or a configuration, tools/brief, which lists a trace on a terminal, tools/trace2html, which draws it as a page, tools/tracediff, which tells two traces apart,
tools/conform, which tells which rules of RFC 6275 another implementation breaks, tools/lab, which puts nodes behind Linux hosts, tools/sweep, which runs many seeds, and
tools/addr, capture2inject, decode, hostile, spread, trace2chart, trace2csv, trace2pcap and trace2pcapng; each has --help. A proved program is installed by tools/install.
HELP
}

# What there is to say of one command.
show_command() {
    local row
    listed form "$1"
    for row in "${rows[@]}"; do echo "$me $row"; done
    listed does "$1"
    echo "    ${rows[*]}"
    listed says "$1"
    for row in "${rows[@]}"; do echo "    $(named "$row")"; done
    listed example "$1"
    for row in "${rows[@]}"; do echo "For example: $(typed "$row")"; done
}

show_version() {
    listed version ''
    echo "mip: ${rows[*]}, not released yet"
    if [ -n "$installed" ]; then
        echo "proved from the sources $(cut -d ' ' -f 1 "$stamp"), and installed"
    elif ! command -v rt >/dev/null; then
        echo 'the command rt is not found, so no program is proved here'
    else
        local now
        now=$(sources)
        if is_proved "$now"; then echo "proved from the sources $now"; else echo "not proved yet from the sources $now"; fi
    fi
}

# Whether a number without leading zeros is from 1 to this one.
is_from_1() { [[ $1 =~ ^[1-9][0-9]{0,6}$ ]] && [ "$1" -le "$2" ]; }

# Sets `why` where a field of this kind is not what stands there.
judge_field() {
    local LC_ALL=C digits maker
    case $1 in
    SEED | ADDRESS)
        digits=64 maker="\$(printf %064x 7) makes them"
        if [ "$1" = ADDRESS ]; then digits=32 maker="$(named tools/addr) writes them"; fi
        if [[ $1:$2 == ADDRESS:*:* ]]; then why="$1 is written with colons, and has $digits digits here: $maker"
        elif [[ $2 =~ ^[0-9a-fA-F]+$ && $2 =~ [A-F] ]]; then why="$1 has capital letters, and digits are 0 to 9 and a to f"
        elif ! [[ $2 =~ ^[0-9a-f]*$ ]]; then why="$1 has other characters than the digits 0 to 9 and a to f"
        elif [ ${#2} != $digits ]; then why="$1 has $digits digits, and not ${#2}: $maker"
        fi ;;
    COUNT) is_from_1 "$2" 20000 || why="COUNT is a number from 1 to 20000 without leading zeros, and \`$2\` is none" ;;
    TURNS) is_from_1 "$2" 1000000 || why="TURNS is a number from 1 to 1000000 without leading zeros, and \`$2\` is none" ;;
    *) why="the list of commands has a field $1, of which nothing is known" ;;
    esac
}

# Sets `near` to the one of the words given whose front this is, or that has a letter more, less or another one, or two in another order.
nearest() {
    local word i more=$((${#1} + 1)) less=$((${#1} - 1))
    near=''
    for word in "${@:2}"; do
        if [[ -n $1 && $word == "$1"* || $1 == "$word"? ]]; then near=$word; return; fi
        for ((i = 0; i < ${#word}; i++)); do
            if [ "${1:0:i}" != "${word:0:i}" ]; then break; fi
            case ${#word} in
            "$more") [ "${1:i}" != "${word:i+1}" ] || near=$word ;;
            "$less") [ "${1:i+1}" != "${word:i}" ] || near=$word ;;
            "${#1}") [ "${1:i+1}" != "${word:i+1}" ] && [ "${1:i+1:1}${1:i:1}${1:i+2}" != "${word:i}" ] || near=$word ;;
            esac
            if [ -n "$near" ]; then return; fi
        done
    done
}

# Sets `why` to what is wrong with the words, or to nothing.
judge() {
    local form fields i all
    why=''
    listed form
    all=("${rows[@]}")
    listed form "${1-}"
    if [ -z "${1-}" ]; then rows=(); fi
    if [ ${#rows[@]} = 0 ]; then
        names=()
        for form in "${all[@]}"; do [[ " ${names[*]-} " == *" ${form%% *} "* ]] || names+=("${form%% *}"); done
        why='no command is given'
        if [ $# = 0 ]; then return; fi
        nearest "$1" "${names[@]}"
        why="\`${1:0:60}\` is no command${near:+; \`$near\` is one}"
        if [ -z "$near" ]; then why="$why: they are ${names[*]}"; fi
        return
    fi
    for form in "${rows[@]}"; do
        read -ra fields <<<"${form%%< *}"
        if [ ${#fields[@]} = $# ]; then
            why=''
            for ((i = 1; i < $#; i++)); do
                if [ -z "$why" ]; then judge_field "${fields[i]}" "${*:i+1:1}"; fi
            done
            if [ -z "$why" ]; then return; fi
        fi
    done
    # a file where standard input is read
    for form in "${rows[@]}"; do
        read -ra fields <<<"${form%%< *}"
        if [[ $form == *'< '* ]] && [ $((${#fields[@]} + 1)) = $# ] && [ -f "${!#}" ]; then
            why="$1 reads standard input: write $me ${*:1:$#-1} < $(printf %q "${!#}")"
            return
        fi
    done
    if [ -n "$why" ]; then return; fi
    why="the words behind $1 are none of its forms"
    if [ ${#rows[@]} = 1 ]; then
        why="$1 takes $((${#fields[@]} - 1)) words behind it, and here stand $(($# - 1))"
        case ${#fields[@]} in
        1) why="$1 takes no words and reads standard input: write < FILE" ;;
        2) why=${why/1 words/one word} ;;
        esac
    fi
}

# What is wrong with the words, then the program's answer to them, or the line that it would write where there is none yet.
refuse_words() {
    local row
    if [ -z "$*" ]; then show_help >&2; fi
    echo "mip: $why" >&2
    for row in "${rows[@]}"; do echo "mip: it is called so: $me $row" >&2; done
    if [ -f "$stamp" ] && { is_installed || { [ -z "$installed" ] && command -v rt >/dev/null && is_proved "$(sources)"; }; }; then exec "$program" "$@"; fi
    echo 'usage: mip COMMAND'
    exit 1
}
