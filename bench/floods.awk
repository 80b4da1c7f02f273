# A schedule in which so many hostile packets come: `awk -v flood=KIND -v count=N -f bench/floods.awk`. In each, something that is kept stands
# before, and is listed or used behind. A count of 10,000 is within the length of a schedule, and within its packets.
BEGIN {
    agent = "20010db8000100000000000000000001"
    anycast = "20010db800010000fdfffffffffffffe"
    own = "20010db8000100000000000000000077"
    careof = "20010db8000300000000000000000077"
    peer = "20010db8000200000000000000000002"
    stranger = "20010db8000200000000000000000bad"
    head()
    if (flood == "forged_updates") forged_updates()
    else if (flood == "full_cache") full_cache()
    else if (flood == "test_inits") test_inits()
    else if (flood == "home_options") home_options()
    else if (flood == "bare_registrations") at_the_agent(packet(60, careof, agent, "870201020000c910" own "3b0305006da00001c00003840100031020010db8000300000000000000000077"))
    else if (flood == "requests") at_the_agent(summed(58, careof, anycast, "9000000000010000", 2))
    else if (flood == "strange_tunnels") at_the_agent(packet(41, stranger, agent, packet(59, own, peer, "")))
    else if (flood == "binding_errors") at_the_mobile(summed(135, stranger, careof, "3b02070000000100" own, 4))
    else if (flood == "strange_tests") at_the_mobile(summed(135, peer, careof, "3b0204000000000001020304050607081112131415161718", 4))
    else if (flood == "acknowledgements") acknowledgements()
    else if (flood == "strange_peers") strange_peers()
    else if (flood == "nested") nested()
    else { print "floods.awk: no such flood: " flood >"/dev/stderr"; exit 1 }
}

function hex(n, width,    out) {
    while (width--) {
        out = substr("0123456789abcdef", n % 16 + 1, 1) out
        n = int(n / 16)
    }
    return out
}

function words(digits,    sum, i, j, n) {
    for (i = 1; i <= length(digits); i += 4) {
        for (n = j = 0; j < 4; j++) n = n * 16 + index("0123456789abcdef", substr(digits, i + j, 1)) - 1
        sum += n
    }
    return sum
}

# An IPv6 packet in digits.
function packet(proto, from, to, body) { return "60000000" hex(length(body) / 2, 4) hex(proto, 2) "40" from to body }

# One whose body has its checksum at this place, which was zero (RFC 8200 section 8.1).
function summed(proto, from, to, body, at,    sum) {
    sum = words(from to body) + length(body) / 2 + proto
    while (sum > 65535) sum = sum % 65536 + int(sum / 65536)
    return packet(proto, from, to, substr(body, 1, 2 * at) hex(65535 - sum, 4) substr(body, 2 * at + 5))
}

# A correspondent with room for 64 homes, an agent, its mobile and an outsider.
function head() {
    print "mip 1"
    print "seed 000102030405060708090a0b0c0d0e0f101112131415161718191a1b1c1d1e1f"
    print "start 0"
    print "link n1 20010db800010000"
    print "link n2 20010db800020000"
    print "link n3 20010db800030000"
    print "agent g n1 " agent " 10 1800 16"
    print "correspondent c n2 " peer " 64"
    print "mobile m n1 " own " g"
    print "serve g m"
    print "outsider o"
    print "run"
}

function carry(packets) { for (; packets > 0; packets -= 1000) print "carry " (packets < 1000 ? packets : 1000) }

function times(text,    i) { for (i = 0; i < count; i++) print text }

# The mobile registers at another link.
function registers() { print "move m n3\nadvertise n3\ncarry 10" }

# It is bound to the correspondent, after data from it.
function binds() {
    registers()
    print "data c " own " 253 aa\ncarry 10"
}

# So many homes get their tests, and 64 of them are bound honestly.
function bind_homes(homes,    i) {
    print "listen o n2"
    for (i = 0; i < homes; i++) print "probe o n2 home " home(i) " " peer " 0102030405060708"
    print "probe o n2 careof " other() " " peer " 0102030405060708"
    carry(2 * homes + 2)
    for (i = 0; i < 64; i++) bind(i, homes + 1 + i, 2 * homes + 1, 1)
    carry(128)
    print "show c"
}

# Updates come for bound homes, each with the token of another home.
function forged_updates(    i) {
    bind_homes(64)
    for (i = 0; i < count; i++) bind(i % 64, 65 + (i + 1) % 64, 129, 2)
    carry(count)
    print "show c"
}

# Updates come for one home more than the cache has room for, with its own tokens.
function full_cache(    i) {
    bind_homes(65)
    for (i = 0; i < count; i++) bind(64, 130, 131, 1)
    carry(2 * count)
    print "show c"
}

function home(i) { return "20010db80001000000000000000100" hex(i, 2) }

function other() { return "20010db8000200000000000000000099" }

function bind(i, home_test, careof_test, sequence) { print "bind o n2 " other() " " peer " " home(i) " " other() " " sequence " 105 " home_test " " careof_test }

# Test inits come from as many addresses, one half of each kind. The tests go to nobody.
function test_inits(    i) {
    binds()
    print "show c"
    for (i = 0; i < count; i++) print "probe o n2 " (i % 2 ? "home" : "careof") " 20010db80001000000000000000f" hex(i, 4) " " peer " 0102030405060708"
    carry(2 * count)
    print "show c"
}

# Data comes from a home that is bound, by an address that it is not bound to. A Binding Error goes to that address.
function home_options() {
    binds()
    print "show c"
    times("inject o n2 " packet(60, stranger, peer, "fd0201020000c910" own "bb"))
    carry(2 * count)
    print "show c"
}

# Packets come to the agent with which the mobile is registered. Where it answers, the answer goes to the mobile.
function at_the_agent(one) {
    registers()
    print "show g"
    times("inject o n3 " one)
    carry(2 * count)
    print "show g"
}

# Packets come to the mobile that is bound. Its data goes straight behind them.
function at_the_mobile(one) {
    binds()
    times("inject o n2 " one)
    carry(count)
    print "data m " peer " 253 bb\ncarry 1"
}

# The mobile's update is lost. Then come acknowledgements of it, with an authenticator that is none, and of its registration, under no shield.
# The update is made again in its time, and is acknowledged.
function acknowledgements(    i, accepted, registered) {
    registers()
    print "data c " own " 253 aa\ncarry 8\nlose 10"
    accepted = summed(135, peer, careof, "3b030600000000000001006901040000" "0000050c" "0102030405060708090a0b0c", 4)
    registered = summed(135, agent, careof, "3b010600000082000001000001020000", 4)
    for (i = 0; i < count; i++) print "inject o n2 " (i % 2 ? registered : accepted)
    carry(count)
    print "wait 999\ncarry 1\nwait 1\ncarry 2"
}

# Data comes to the home of the mobile from as many addresses, through its agent, so that it begins return routability with them.
function strange_peers(    i) {
    registers()
    print "show g"
    for (i = 0; i < count; i++) print "inject o n2 " packet(253, "20010db8000200000000000000f0" hex(i, 4), own, "aa")
    carry(2 * count + 48)
    print "show g"
}

# A tunnel within tunnels, as many as an injected packet has room for, comes to the mobile again and again, from its agent's address. One comes
# to the correspondent too, and to the agent one out of the mobile's tunnel.
function nested(    one, i) {
    one = packet(59, agent, careof, "")
    for (i = 1; i < 51; i++) one = packet(41, agent, careof, one)
    binds()
    print "inject o n1 " one
    print "inject o n1 " substr(one, 1, 48) peer substr(one, 81)
    print "inject o n3 " packet(41, careof, agent, packet(41, own, agent, substr(one, 161)))
    times("repeat 12")
    print "lose 12\ncarry 2\ndata m " peer " 253 bb\ncarry 1"
}
