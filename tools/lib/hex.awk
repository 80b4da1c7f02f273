# Bytes as digits.
BEGIN {
    for (i = 32; i < 127; i++) code_of[sprintf("%c", i)] = i
    hex = "0123456789abcdef"
}

# A number below 2^32 as 8 digits.
function word32(n,    out, i) {
    for (i = 1; i <= 8; i++) {
        out = substr(hex, n % 16 + 1, 1) out
        n = int(n / 16)
    }
    return out
}

function word16(n) { return substr(word32(n), 5) }

# The bytes of a text.
function bytes_of(text,    out, i, code) {
    for (i = 1; i <= length(text); i++) {
        code = code_of[substr(text, i, 1)]
        out = out substr(hex, int(code / 16) + 1, 1) substr(hex, code % 16 + 1, 1)
    }
    return out
}

# Digits filled up with zeros to whole words of 32 bits.
function filled(digits) { return digits substr("000000", 1, (8 - length(digits) % 8) % 8) }
