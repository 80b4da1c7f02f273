# The packets of a trace for listings.sh: the number, and the bytes of the packet and of those in its tunnels, as octal numbers behind backslashes.
BEGIN { for (i = 0; i < 256; i++) octal[sprintf("%02x", i)] = sprintf("\\%03o", i) }

function octets(digits,    i, out) {
    for (i = 1; i < length(digits); i += 2) out = out octal[substr(digits, i, 2)]
    return out
}

($1 == "sent" || $1 == "injected") && $6 ~ /^([0-9a-f][0-9a-f])+$/ {
    text = $2 " " octets($6)
    at = body_at($6)
    for (inner = $6; body_proto == 41 && length(inner) >= at + 79; at = body_at(inner)) {
        inner = substr(inner, at)
        text = text " " octets(inner)
    }
    print text
}
