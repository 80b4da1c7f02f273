# What the correspondents and home agents of a run were called with and answered: `awk -v answers=FILE -f nodes.awk SCHEDULE TRACE`. Calls are written to standard output, for
# nodes.c and nodes.py, and what the trace says that was answered to FILE, in the same order.
function hex(digits,    i, out) { for (i = 1; i <= length(digits); i++) out = 16 * out + index("0123456789abcdef", substr(digits, i, 1)) - 1; return out + 0 }
function open(name) {
    if (name in serves) print "agent", name, own[name], preference[name], room[name], (serves[name] == "" ? "-" : serves[name])
    else print "open", name, own[name], seed, place[name], life[name], room[name], numbers[name]
}
function tell(text) { print text >answers }
# the packet's fields of data and refresh requests that a node sends by itself
function sent_by_itself(name, digits,    next_header, at, to) {
    next_header = hex(substr(digits, 13, 2))
    at = 81
    to = substr(digits, 49, 32)
    if (next_header == 43) {
        to = substr(digits, at + 16, 32)
        next_header = hex(substr(digits, at, 2))
        at += 48
    }
    if (next_header == 135) print "refresh", name, now, to
    else print "send", name, now, to, next_header, (at > length(digits) ? "-" : substr(digits, at))
}
# a packet as it comes to an agent, whose hop limit is one less where it was posted on another link; who holds addresses but the agent; the shield
function hand(name, packet,    digits, others, address) {
    digits = bytes[packet]
    if (posted_on[packet] != link[name]) digits = substr(digits, 1, 14) sprintf("%02x", hex(substr(digits, 15, 2)) - 1) substr(digits, 17)
    for (address in holder) if (holder[address] != name) others = others address
    print "hand", name, now, packet, (is_shielded[packet] ? own[sender[packet]] own[name] : "-"), (others == "" ? "-" : others), digits
}
FNR == 1 { file++; busy = "" }
file == 1 && $1 == "mip" { version = $2 }
file == 1 && $1 == "seed" { seed = $2 }
file == 1 && $1 == "start" { now = $2 }
file == 1 && $1 ~ /^(agent|mobile|correspondent)$/ {
    place[$2] = nodes++
    link[$2] = $3
    own[$2] = $4
    named[$4] = $2
    if ($1 == "correspondent") { room[$2] = $5; life[$2] = 0; numbers[$2] = version == 2 ? 8 : 1; open($2) }
    if ($1 == "agent") { preference[$2] = $5; lasts[$2] = $6; room[$2] = $7; serves[$2] = "" }
}
file == 1 && $1 == "serve" { serves[$2] = serves[$2] own[$3] }
file == 1 && $1 == "run" { for (name in serves) open(name) }
file == 1 && $1 == "plan" { plan[$2, ++plans[$2]] = $3 " " $4 }
file == 1 || $1 == "heard" { next }
$1 == "at" { now = $2 }
$1 == "moved" { link[$2] = $3 }
$1 == "claimed" { holder[$4] = $2 }
$1 == "released" { delete holder[$4] }
$1 == "sent" { bytes[$2] = $6; sender[$2] = $3; posted_on[$2] = link[$3]; is_shielded[$2] = $4 == "+" }
$1 == "injected" { bytes[$2] = $6; posted_on[$2] = $4 }
$1 == "handed" {
    busy = $3
    if (busy in serves) hand(busy, $2)
    else if (busy in room) print "take", busy, now, $2, bytes[$2]
    next
}
# an agent: what it sends unasked is what a plan has it send, and what it gives up unasked is over
$1 == "advertised" && $2 in serves { print "heard", $2, now, $4, preference[named[$4]], lasts[named[$4]] }
$1 == "sent" && $3 in serves {
    if (busy != $3) print "plan", $3, now, plan[$3, ++planned[$3]]
    busy = $3
    tell("sent " $3 " " $4 " " $6)
    next
}
$1 == "released" && $2 in serves && busy != "restart of " $2 {
    if (busy != $2) print "tick", $2, now
    busy = $2
    tell("released " $2 " " $4)
    next
}
$1 == "claimed" && $2 in serves && busy == $2 { tell("claimed " $2 " " $4); next }
$1 ~ /^(claimed|released)$/ { next }
$1 == "home" { tell($0); next }
$1 == "row" && $2 in serves { if (busy != "rows of " $2) print "rows", $2, now; busy = "rows of " $2; tell("row " $2 " " $3 " " $5 " " $6 " " $7); next }
# a correspondent
$1 == "sent" && $3 in room {
    # no packet is answered by data or by a refresh request
    if (busy != $3 || $5 == "data" || $5 == "brr") sent_by_itself($3, $6)
    tell("sent " $3 " " $4 " " $6)
    next
}
$1 ~ /^(accepted|denied|dropped|up)$/ && $2 in room { tell($0); next }
$1 == "row" && $2 in room { if (busy != "rows of " $2) print "rows", $2, now; busy = "rows of " $2; tell($0); next }
$1 == "restarted" && $2 in room { print "close", $2; life[$2]++; open($2); busy = "restart of " $2; next }
$1 !~ /^(origin|forged)$/ { busy = "" }
