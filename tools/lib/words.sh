#!/bin/sh
# The words of a tool that reads a trace, and the trace: a FILE and the moment START, which are empty where they are not given.
tool=${0##*/} file='' start=''
tool=${tool#mip-}

stop() { echo "$tool: $1; see --help" >&2; exit 2; }

# A word is the moment before the first `at` where it has digits alone, and a file with the trace where it has not.
takes() {
    case $1 in
    *[!0-9]*)
        [ -z "$file" ] || stop 'one file at most'
        if [ ! -r "$1" ] || [ -d "$1" ]; then stop "this is no file that can be read, and no moment in milliseconds: $1"; fi
        file=$1 ;;
    '') stop 'a word is empty, and is no file and no moment in milliseconds' ;;
    *)
        [ -z "$start" ] || stop 'one moment at most'
        start=$1 ;;
    esac
}

# What the tool's lines are read from: the file, else standard input. A line `.` stands behind it, so that a missing end of the last line is seen.
given() {
    if [ -n "$file" ]; then exec <"$file"; fi
    LC_ALL=C tr '\000' '!'
    echo .
}

# The name of the file without its end, or `trace`.
named() {
    name=${file##*/} name=${name%.*}
    echo "${name:-trace}"
}

# The moment before the first `at`.
since() { echo "${start:-0}"; }
