# mip.h as a man page of section 3: each part under its heading, each declaration as it stands, and below it what its comment says.
function plain(s) {
    gsub(/\\/, "\\e", s)
    gsub(/-/, "\\-", s)
    gsub(/\047/, "\\(aq", s)
    gsub(/`/, "", s)
    return s ~ /^[.]/ ? "\\&" s : s
}
# What stands before the declaration that follows, without the marks of a comment.
function keep(s) {
    sub(/^ *\/\* ?/, "", s)
    is_inside = s !~ /\*\/ *$/
    sub(/ *\*\/ *$/, "", s)
    gsub(/^ +/, "", s)
    if (s ~ /^- /) said = said ".br\n"
    if (s == "") said = said ".PP\n"
    else said = said plain(s) "\n"
}
function shown() {
    print ".PP\n.nf"
    printf "%s", text
    print ".fi"
    if (said != "") printf ".RS 4\n%s.RE\n", said
    text = said = ""
}

BEGIN {
    print ".TH MIP 3\n.SH NAME\nmip \\- Mobile IPv6 (RFC 6275) from C and Python: packets, messages, return routability, a correspondent node, a home agent"
    print ".SH SYNOPSIS\n.nf\n#include <mip.h>\n\ncc program.c $(pkg\\-config \\-\\-cflags \\-\\-libs mip)\n.fi\n.SH DESCRIPTION"
}
FNR == 1 { sub(/mip\.h: /, "") }
!is_begun && /^#ifndef/ { printf "%s", said; said = ""; is_begun = 1 }
is_inside { if (depth) text = text plain($0) "\n"; keep($0); if (depth) said = before; next }
/^\/\* ---- / { sub(/^\/\* ---- /, ""); sub(/\.? ---- \*\/$/, ""); print ".SH " plain(toupper($0)); said = ""; next }
/^#/ || /^$/ || /^extern "C"/ { next }
!depth && !is_body && /^\/\*/ { keep($0); next }
# a function that is written out: its first line is all that is shown
is_body { if (/^}/) is_body = 0; next }
/^static inline/ {
    is_body = $0 !~ /}$/
    sub(/^static inline /, "")
    sub(/ *\{.*$/, "")
    text = plain($0) ";\n"
    shown()
    next
}
/^}$/ { next }
{
    text = text plain($0) "\n"
    if (/\{$/) { depth = 1; before = said }
    if (depth && /\/\*/ && !/\*\//) { is_inside = 1 }
    if (/^};/ || (!depth && /;$/)) { depth = 0; shown() }
}
END { print ".SH SEE ALSO\nmip(1), mip\\-schedule(5)" }
