# The next events of a hostile schedule, drawn from a seed and from the trace so far: `awk -v seed=DIGITS -v round=N -v events=COUNT -f hostile.awk TRACE`.
# Outsiders listen, take addresses, ask for tests, bind with tests that they heard or never heard, tell tests again, and send changed packets.
BEGIN {
    FS = "[ ]"
    correspondent = "20010db8000200000000000000000002"
    home[0] = "20010db8000100000000000000000077"
    home[1] = "20010db8000100000000000000000078"
    begin_draws()
}

# Draws: two generators of L'Ecuyer (1988), whose products stay below 2 to the 53.
function begin_draws(    i) {
    low = 1
    high = 1
    for (i = 1; i <= length(seed); i++) {
        low = (low * 40014 + index("0123456789abcdef", substr(seed, i, 1)) + round) % 2147483563
        high = (high * 40692 + index("0123456789abcdef", substr(seed, i, 1)) + 1) % 2147483399
    }
    if (!low) low = 1
    if (!high) high = 1
    for (i = 0; i < 20; i++) draw(2)
}
function draw(below,    z) {
    low = low * 40014 % 2147483563
    high = high * 40692 % 2147483399
    z = (low - high + 2147483562) % 2147483562
    return z % below
}
function one_of(text,    list) { return list[1 + draw(split(text, list, " "))] }

# What the trace tells: how many packets were posted, tests with their addresses, updates, and the last sequence number of a home.
$1 == "sent" || $1 == "injected" {
    posted = $2 + 1
    bytes = $NF
    if ($(NF - 1) ~ /^(hot|cot)$/ && substr(bytes, 13, 2) == "87") keep_test($2, $(NF - 1))
    if ($(NF - 1) == "bu") update[updates++] = $2
    if (length(bytes) <= 4096) recent[kept++ % 16] = bytes
}
$1 == "accepted" { sequence[$4] = $7 }

function keep_test(number, kind,    i) {
    i = tests[kind]++
    test[kind, i] = number
    from[kind, i] = substr(bytes, 17, 32)
    target[kind, i] = substr(bytes, 49, 32)
}

END { for (event = 0; event < events; event++) print drawn() }

function link() { return "n" (1 + draw(3)) }
function link_of(address) { return substr(address, 1, 12) == "20010db80001" ? "n1" : substr(address, 1, 12) == "20010db80003" ? "n3" : "n2" }
function outsider() { return one_of("o p") }
function mobile() { return one_of("m m2") }
function home_of_some() { return home[draw(2)] }
function four_bytes() { return sprintf("%08x", draw(2147483562)) }
# An address at which a mobile may be, or a stranger's.
function some_address(    prefix) {
    prefix = "20010db8000" (1 + draw(3)) "0000"
    return prefix one_of("0000000000000077 0000000000000078 0000000000000099")
}
function some_packet() { return posted ? posted - 1 - draw(posted < 24 ? posted : 24) : 0 }
# A line of these words; each was drawn before, one after the other.
function line(a, b, c, d) { return a " " b (c == "" ? "" : " " c) (d == "" ? "" : " " d) }

function drawn(    x, a, b) {
    x = draw(100)
    if (x < 7) { a = mobile(); return line("move", a, link()) }
    if (x < 15) return line("advertise", link())
    if (x < 21) { a = home_of_some(); return line("data c", a, 253, four_bytes()) }
    if (x < 24) return line("data", mobile(), correspondent, "253 aa")
    if (x < 27) return line("data m2", home[0], "253 bb")
    if (x < 48) return line("carry", 1 + draw(8))
    if (x < 53) return line("wait", draw(4) ? 1 + draw(1800) : 30000 + draw(120000))
    if (x < 56) { a = one_of("lose repeat"); return line(a, some_packet()) }
    if (x < 59) return updates ? line("repeat", update[draw(updates)]) : line("carry", 4)
    if (x < 63) { a = one_of("listen listen deaf"); b = outsider(); return line(a, b, link()) }
    if (x < 67) { a = one_of("squat squat yield"); b = outsider(); return line(a, b, some_address()) }
    if (x < 78) return probed()
    if (x < 94) return bound()
    if (x < 96) { a = outsider() " " link(); b = some_packet(); return line("tell", a, b, some_packet()) }
    if (x < 98) return changed()
    return draw(4) ? "show c" : line("restart", one_of("c c m g"))
}

# A test init in the name of an address, which may be the outsider's own.
function probed(    who, kind, source) {
    who = outsider()
    kind = one_of("home careof")
    source = some_address()
    if (kind == "home" && draw(2)) source = home_of_some()
    kind = kind " " source " " correspondent
    source = link_of(source)
    return line("probe " who, source, kind, "00000000" four_bytes())
}

# One of the last tests of a kind.
function late(kind) { return tests[kind] - 1 - draw(tests[kind] < 6 ? tests[kind] : 6) }

# An update with a home test and a care-of test of late, for their addresses or for others.
function bound(    h, c, who, owner, careof, number, life, second) {
    if (!tests["hot"] || !tests["cot"]) return probed()
    h = late("hot")
    c = late("cot")
    who = outsider()
    owner = draw(12) ? target["hot", h] : home_of_some()
    careof = draw(12) ? target["cot", c] : some_address()
    number = draw(6) ? (sequence[owner] + 1) % 65536 : draw(65536)
    life = draw(8) ? 105 : draw(3)
    second = life == 0 || careof == owner ? "-" : test["cot", c]
    sequence[owner] = number
    return "bind " who " " link_of(careof) " " careof " " from["hot", h] " " owner " " careof " " number " " life " " test["hot", h] " " second
}

# A packet of late with one digit behind its addresses changed, or as it was.
function changed(    it, at, who) {
    if (!kept) return "carry 4"
    it = recent[draw(kept < 16 ? kept : 16)]
    if (substr(it, 1, 1) != "6" || length(it) < 80) return "carry 4"
    at = 81 + draw(length(it) - 79)
    if (draw(3) && at <= length(it)) it = substr(it, 1, at - 1) sprintf("%x", draw(16)) substr(it, at + 1)
    who = outsider()
    return line("inject", who, link(), it)
}
