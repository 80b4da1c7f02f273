# shellcheck shell=bash
# Part of ./mip: a node or a hub says nothing where it ends, so a sentence stands behind it on standard error.
# It reads `program` of ./mip.
# shellcheck disable=SC2154

# What a status of a node or a hub means. 0 needs no word.
say_ending() {
    case $2 in
    0) ;;
    2) echo "mip: the configuration is refused: the line \`bad LINE REASON\` has the line and the cause, and tools/why FILE says it in a sentence" >&2 ;;
    3) echo 'mip: the configuration could not be read from standard input' >&2 ;;
    4) echo "mip: standard output took no more, so the $1 has ended" >&2 ;;
    5) echo "mip: memory ran out, so the $1 has ended" >&2 ;;
    6) echo 'mip: the configuration is longer than 16,777,216 bytes' >&2 ;;
    7) echo "mip: the link of the $1 failed: most often its port is in use, by another that still runs" >&2 ;;
    *) echo "mip: the $1 ended with status $2" >&2 ;;
    esac
}

# Runs a node or a hub. A signal to this script goes on to it, and ends this script as it ends the program.
run_and_tell() {
    local status=0 child signal
    "$program" "$@" <&0 &
    child=$!
    for signal in INT TERM HUP; do
        # shellcheck disable=SC2064
        trap "kill -s $signal $child 2>/dev/null || true" "$signal"
    done
    while :; do
        status=0
        wait "$child" || status=$?
        kill -0 "$child" 2>/dev/null || break
    done
    if [ "$status" -le 128 ]; then say_ending "$1" "$status"; fi
    exit "$status"
}
