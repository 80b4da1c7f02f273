# A capture in the classic pcap format, as digits: magic number, version 2.4, no zone, no accuracy, 262,144 bytes a packet, link type 229 (raw IPv6).
BEGIN {
    emit("a1b2c3d4" "0002" "0004" "00000000" "00000000" "00040000" "000000e5")
    micro = -1
}

# The moment in microseconds, and one more than that of the packet before where it would not come later.
function next_micro() {
    micro = moment * 1000 > micro ? moment * 1000 : micro + 1
    return micro
}

# Packets are those that are posted, and the neighbour messages of the claims of a run.
function digits_in(word) {
    if (sort == "claims") return word == "advert" ? $4 : word == "solicit" || word == "answer" ? $3 : ""
    return sort != "hub" && (word == "sent" || word == "injected") ? $6 : ""
}

function entry(n, word,    at, size, i, digits) {
    if (word == "at") moment = $2
    digits = digits_in(word)
    if (digits == "") return
    if (digits == "-") { refuse(n, "a packet of no bytes"); return }
    at = next_micro()
    if (at >= 4294967296000000) { refuse(n, "a capture has no moment so late"); return }
    size = length(digits) / 2
    emit(word32(int(at / 1000000)) word32(at % 1000000) word32(size) word32(size))
    for (i = 1; i <= length(digits); i += 60) emit(substr(digits, i, 60))
}

function finish() {}
