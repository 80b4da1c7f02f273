# shellcheck shell=bash
# `chosen_program TOP` writes the path of the program that a tool runs, perhaps many times: that of MIP, or the one that is proved beside the tools, of which ./mip
# judges the sources once and no more. Where there is none it writes why, and returns 1: a tool begins no proof unasked.
chosen_program() {
    local said
    if [ -n "${MIP-}" ]; then
        command -v "$MIP" || { echo "MIP names no program: $MIP"; return 1; }
    elif said=$("$1/mip" --program 2>&1); then
        readlink -f "$said"
    else
        echo "${said#mip: }"
        return 1
    fi
}

# The same, and where none is proved, ./mip proves one.
proved_program() {
    if [ -z "${MIP-}" ]; then "$1/mip" decode </dev/null >/dev/null || true; fi
    chosen_program "$1"
}

# The same, and nothing where there is none.
found_program() {
    local found
    if found=$(chosen_program "$1"); then echo "$found"; fi
}
