# A tool writes all of its output or none. Its input comes with a line `.` added, so that a missing end of the last line is seen.
# A tool has a function `line(n)`, which is called for each line as $0, and calls `emit` for what it writes and `refuse` for what it refuses.

function emit(text) { kept_lines[++emitted] = text }

function refuse(n, why) {
    if (refused) return
    refused = 1
    printf "%s: line %d: %s\n", tool, n, why | "cat >&2"
    close("cat >&2")
}

NR > 1 && !refused { ahead = $0; $0 = held; line(NR - 1); $0 = ahead }
{ held = $0 }

END {
    if (!refused && held != ".") refuse(NR, "it has no end of line")
    if (refused) exit 2
    finish()
    for (i = 1; i <= emitted; i++) print kept_lines[i]
}
