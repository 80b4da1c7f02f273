# Makes the input named `what`: a schedule as text, or a packet as digits.
BEGIN {
    peer = "20010db8000200000000000000000002"
    careof = "20010db8000300000000000000000099"
    if (what == "mixed") mixed(events)
    else if (what == "injected") { head(); for (i = 0; i < events; i++) print "inject o n2 " packet("3b", bytes_of("00", size - 40)) }
    else if (what == "carried") {
        head()
        for (i = 0; i < 9000; i++) print "inject o n2 " packet("3b", "")
        for (i = 0; i < 200; i++) print "carry 1000"
    }
    else if (what == "listeners") listeners(events)
    else if (what == "roaming") roaming(events)
    else if (what == "whole") whole(deliveries)
    else if (what == "data") { head(); for (i = 0; i < events / 2; i++) { print "data c " home(i) " 253 " bytes_of("5a", 500); print "deliver " i } }
    else if (what == "lost") { head(); for (i = 0; i < events / 2; i++) { print "data c " home(i) " 253 68656c6c6f"; print "lose " i } }
    else if (what == "spaces") printf "mip 1\nseed %s\n", bytes_of(" ", 16777200)
    else if (what == "options") print packet("3c", "3bff" bytes_of("00", 2046))
    else if (what == "message") print packet("87", with_sum(135, "3bff0000" "0000" "0000" bytes_of("00", 2040), 4))
    else if (what == "advertisement") print packet("3a", with_sum(58, "8600000040200708" "0000000000000000" bytes_of("0501000000000000", (size - 16) / 8), 2))
}

function bytes_of(text, count,    out) {
    while (count) {
        if (count % 2) out = out text
        text = text text
        count = int(count / 2)
    }
    return out
}

function hex(n, width,    out) {
    while (width--) {
        out = substr("0123456789abcdef", n % 16 + 1, 1) out
        n = int(n / 16)
    }
    return out
}

function value(digits,    n, i) {
    for (i = 1; i <= length(digits); i++) n = n * 16 + index("0123456789abcdef", substr(digits, i, 1)) - 1
    return n
}

# A packet with this next header and body, from the home address to the peer.
function packet(proto, body) { return "60000000" hex(length(body) / 2, 4) proto "40" "20010db8000100000000000000000077" peer body }

# A body with its checksum at this place, which was zero (RFC 8200 section 8.1).
function with_sum(proto, body, at,    text, sum, i) {
    text = "20010db8000100000000000000000077" peer hex(length(body) / 2, 8) hex(proto, 8) body
    for (i = 1; i <= length(text); i += 4) sum += value(substr(text, i, 4))
    while (sum > 65535) sum = sum % 65536 + int(sum / 65536)
    return substr(body, 1, 2 * at) hex(65535 - sum, 4) substr(body, 2 * at + 5)
}

function home(i) { return "20010db80001000000000000000001" hex(i % 64, 2) }

# Three links, or more, and an outsider, or more.
function head(links, outsiders,    i) {
    print "mip 1"
    print "seed 000102030405060708090a0b0c0d0e0f101112131415161718191a1b1c1d1e1f"
    print "start 0"
    for (i = 1; i <= 3 || i <= links; i++) print "link n" i " 20010db8000" i "0000"
    print "correspondent c n2 " peer " 64"
    print "outsider o"
    for (i = 1; i < outsiders; i++) print "outsider o" i
    print "run"
}

# Eight outsiders listen on eight links each, and hear test inits and their tests.
function listeners(events,    i, j) {
    head(8, 8)
    for (i = 0; i < 8; i++) for (j = 1; j <= 8; j++) print "listen o" (i ? i : "") " n" j
    for (i = 0; i < (events - 64) / 2; i++) {
        print "probe o n1 home " home(i) " " peer " 0102030405060708"
        print "deliver " 2 * i
    }
}

# Rounds of ten events: two test inits and their tests, an update that is accepted, data, a loss, deliveries, a wait.
function mixed(events,    round, k, own) {
    head()
    for (round = 0; round < events / 10; round++) {
        k = 7 * round
        own = home(round)
        print "probe o n1 home " own " " peer " 0102030405060708"
        print "probe o n3 careof " careof " " peer " 1112131415161718"
        print "deliver " k
        print "deliver " k + 1
        print "bind o n3 " careof " " peer " " own " " careof " " int(round / 64) + 1 " 105 " k + 2 " " k + 3
        print "deliver " k + 4
        print "data c " own " 253 68656c6c6f"
        print "lose " k + 2
        print "carry 3"
        print "wait 4000"
    }
}

# Eight mobiles in turn move to another link, register, get data, and make a binding; then both sides send straight.
function roaming(events,    round, i, m, link) {
    print "mip 1"
    print "seed 000102030405060708090a0b0c0d0e0f101112131415161718191a1b1c1d1e1f"
    print "start 0"
    for (i = 1; i <= 4; i++) print "link n" i " 20010db8000" i "0000"
    print "agent g n1 20010db8000100000000000000000001 10 1800 16"
    print "correspondent c n2 " peer " 64"
    for (i = 0; i < 8; i++) print "mobile m" i " n1 " home(i) " g"
    for (i = 0; i < 8; i++) print "serve g m" i
    print "run"
    for (round = 0; round < events / 10; round++) {
        m = round % 8
        link = "n" 3 + int(round / 8) % 2
        print "move m" m " " link
        print "advertise " link
        print "carry 4"
        print "data c " home(m) " 253 68656c6c6f"
        print "carry 20"
        print "data m" m " " peer " 253 68656c6c6f"
        print "carry 4"
        print "data c " home(m) " 253 68656c6c6f"
        print "carry 4"
        print "wait 4000"
    }
}

# A mobile with sixteen peers moves each second, and makes a binding with each: 130 packets. A stranger, for whom it has no row, sends it nine packets of
# 650 bytes, which its agent tunnels. Packets are carried to the last, and there are so many of them.
function whole(left,    round, i, stranger) {
    stranger = "20010db80002000000000000000000ff"
    print "mip 1"
    print "seed 000102030405060708090a0b0c0d0e0f101112131415161718191a1b1c1d1e1f"
    print "start 0"
    for (i = 1; i <= 4; i++) print "link n" i " 20010db8000" i "0000"
    print "agent g n1 20010db8000100000000000000000001 10 1800 16"
    for (i = 0; i < 16; i++) print "correspondent c" i " n2 20010db8000200000000000000000" hex(16 + i, 3) " 64"
    print "mobile m n1 " home(0) " g"
    print "serve g m"
    print "outsider o"
    print "run"
    print "move m n3"
    print "advertise n3"
    left = carried_of(left, 2)
    for (i = 0; i < 16; i++) print "data c" i " " home(0) " 253 5a"
    left = carried_of(left, 160)
    while (left) {
        print "wait 1000"
        print "move m n" 4 - round % 2
        print "advertise n" 4 - round % 2
        round++
        left = carried_of(left, 130)
        for (i = 0; left && i < 9; i++) print "inject o n2 600000000262fd40" stranger home(0) bytes_of("5a", 610)
        left = carried_of(left, 18)
    }
}

# So many packets are carried, or those that are left to be; and how many are left then.
function carried_of(left, count) {
    if (count > left) count = left
    if (count) print "carry " count
    return left - count
}
