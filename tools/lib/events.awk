# Which line of a schedule wrote which line of its trace. A schedule is run with a line `settle X X` behind each event, which changes nothing and writes one line:
# with `part=marked` a schedule is written so. Else the trace of that is read behind the schedule, and written without those lines, each behind the number
# of the line that wrote it: for what stands before the first event that of a declaration.
NR == FNR { text[FNR] = $0; lines = FNR; look(FNR); next }
FNR == 1 { begin() }
{ read_line() }
END { if (part == "marked") write_marked() }

function look(n) {
    if (running) events++
    if ($1 == "run") running = n
    if (!running && $1 ~ /^(agent|correspondent|mobile)$/) declared_in[$2] = n
    if (!running && $1 ~ /^(correspondent|mobile)$/ && host == "") host = $2
}

function write_marked(    n) {
    if (host == "") { print "events: without a correspondent and a mobile nothing tells the events apart" | "cat >&2"; exit 3 }
    if (events > 9999) { print "events: at most 9,999 events are told apart, and here stand " events | "cat >&2"; exit 3 }
    for (n = 1; n <= lines; n++) { print text[n]; if (n >= running) print "settle " host " " host }
}

function begin() { at = running; marker = "settled " host " " host " no" }

# The event itself may be such a line: then the first of the two is its own.
function read_line() {
    if ($0 == marker && !(text[at] == "settle " host " " host && !own)) { at++; own = 0; return }
    own = 1
    print (at == running && ($2 in declared_in) ? declared_in[$2] : at), $0
}
