# docs/FORMATS.md as a man page of section 5: headings, paragraphs, and what stands in columns or in blocks as it is.
function plain(s) {
    gsub(/\\/, "\\e", s)
    gsub(/-/, "\\-", s)
    gsub(/\047/, "\\(aq", s)
    gsub(/\]\([^)]*\)/, "", s)
    gsub(/[`[]|\*\*/, "", s)
    return s ~ /^[.]/ ? "\\&" s : s
}
function as_it_is(on) {
    if (on && !shut) print ".nf"
    if (!on && shut) print ".fi"
    shut = on
}
function row(s) {
    gsub(/^[|] *| *[|]$/, "", s)
    gsub(/ *[|] */, "    ", s)
    return "    " s
}

BEGIN { print ".TH MIP\\-SCHEDULE 5\n.SH NAME\nmip\\-schedule \\- schedules, traces, listings, configurations and packets of mip" }
/^<!--/ || /^[|][-|]+$/ { next }
/^```/ { block = !block; as_it_is(block); next }
block { print plain($0); next }
/^[|]/ { as_it_is(1); print plain(row($0)); next }
{ as_it_is(0) }
/^# / { next }
/^## / { print ".SH " toupper(plain(substr($0, 4))); next }
/^###* / { sub(/^#+ /, ""); print ".SS " plain($0); next }
/^$/ { print ".PP"; next }
{ print plain($0) }
