#!/bin/sh
# Which line of a schedule wrote which line of its trace, for a tool that has read its words by words.sh.

# find_events TOOLS PROGRAM SCHEDULE WORK: writes to WORK/events the number of the line of the file SCHEDULE for each line of WORK/given, which is to be its trace, and to
# WORK/schedule its text. TOOLS is the folder of the tools, and PROGRAM is empty where none stands.
find_events() {
    if [ ! -r "$3" ] || [ -d "$3" ]; then stop "the file cannot be read: $3"; fi
    [ -n "$2" ] || stop '--schedule wants a program: ./mip proves one, and MIP names another'
    cat -- "$3" >"$4/schedule"
    "$1/addr" <"$4/schedule" >"$4/plain" 2>"$4/fault" || stop "$3: $(sed 's/^addr: //' "$4/fault")"
    "$1/addr" --lines <"$4/schedule" >"$4/numbers"
    LC_ALL=C awk -v part=marked -f "$1/lib/events.awk" "$4/plain" >"$4/marked" 2>"$4/fault" || stop "$3: $(sed 's/^events: //' "$4/fault")"
    "$2" replay <"$4/marked" >"$4/marked.trace" || stop "$3: this is no schedule; tools/why names its fault"
    LC_ALL=C awk -f "$1/lib/events.awk" "$4/plain" "$4/marked.trace" >"$4/split"
    differs=$({ cut -d ' ' -f 2- "$4/split"; echo .; } | cmp - "$4/given" 2>&1 || true)
    [ -z "$differs" ] || stop "the trace is not that of $3:$(echo "$differs" | sed -n 's/.*\(line [0-9]*\).*/ \1/p') differs"
    awk 'NR == FNR { number[NR] = $1; next } { print number[$1] }' "$4/numbers" "$4/split" >"$4/events"
}
