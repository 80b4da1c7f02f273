# What the digits of a packet say beyond the trace: the kind of the packet in a tunnel.

# The value of hexadecimal digits.
function value_of(digits,    i, out) {
    for (i = 1; i <= length(digits); i++) out = 16 * out + index("0123456789abcdef", substr(digits, i, 1)) - 1
    return out + 0
}

# Where the body of a packet begins, counted in digits from 1, behind a routing header and destination options; `body_proto` is its protocol.
function body_at(digits,    at) {
    at = 81
    body_proto = value_of(substr(digits, 13, 2))
    while ((body_proto == 43 || body_proto == 60) && at + 16 <= length(digits) + 1) {
        body_proto = value_of(substr(digits, at, 2))
        at += 16 + 16 * value_of(substr(digits, at + 2, 2))
    }
    return at
}

# The kind of the packet with these digits, as a trace names it, without a look at its checksum.
function kind_of_digits(digits,    at, word) {
    if (substr(digits, 1, 1) != "6" || length(digits) < 80) return "bad"
    at = body_at(digits)
    if (body_proto == 58) return "icmp"
    if (body_proto == 41) return "tunnel" in_brackets("tunnel", digits)
    if (body_proto == 59) return "none"
    if (body_proto != 135) return "data"
    split("brr hoti coti hot cot bu ba be", word, " ")
    at = value_of(substr(digits, at + 4, 2)) + 1
    return at in word ? word[at] : "bad"
}

# For a tunnel the kind of the packet in it, in brackets with a space before.
function in_brackets(kind, digits) { return kind == "tunnel" ? " (" kind_of_digits(substr(digits, body_at(digits))) ")" : "" }
