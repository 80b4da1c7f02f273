# Addresses: 32 digits, and the familiar form of RFC 5952.

function is_digits(s, count) { return length(s) == count && s ~ /^[0-9a-f]+$/ }

# A group of four digits without its leading zeros.
function short_group(group) {
    sub(/^0+/, "", group)
    return group == "" ? "0" : group
}

# 32 digits (or 16, a prefix of 64 bits) as an address with colons. The longest run of two zero groups or more is `::`, the first of equal ones.
function familiar(digits,    i, n, group, run, best, at, out) {
    n = length(digits) / 4
    best = 1
    for (i = 1; i <= n; i++) {
        group[i] = short_group(substr(digits, 4 * i - 3, 4))
        run[i] = group[i] == "0" ? run[i - 1] + 1 : 0
        if (run[i] > best) { best = run[i]; at = i - best + 1 }
    }
    for (i = 1; i <= n; i++) {
        if (i == at) { out = out "::"; i += best - 1; continue }
        out = out (out == "" || out ~ /:$/ ? "" : ":") group[i]
    }
    return out
}

function familiar_prefix(digits) { return familiar(digits "0000000000000000") "/64" }

# Groups between colons as digits, or "" where one is none.
function groups_in_full(text,    part, n, i, out) {
    if (text == "") return ""
    n = split(text, part, ":")
    for (i = 1; i <= n; i++) {
        if (part[i] !~ /^[0-9a-fA-F]+$/ || length(part[i]) > 4) return "x"
        out = out substr("0000", 1, 4 - length(part[i])) tolower(part[i])
    }
    return out
}

# The 32 digits of an address with colons, or "" where it is none.
function in_full(text,    at, front, back, out) {
    at = index(text, "::")
    if (at == 0) {
        out = groups_in_full(text)
        return is_digits(out, 32) ? out : ""
    }
    front = groups_in_full(substr(text, 1, at - 1))
    back = groups_in_full(substr(text, at + 2))
    if (front ~ /x/ || back ~ /x/ || length(front back) > 28) return ""
    return front substr("00000000000000000000000000000000", 1, 32 - length(front back)) back
}

# The 16 digits of a prefix of 64 bits such as 2001:db8:1::/64, or "" where it is none.
function prefix_in_full(text,    out) {
    if (text !~ /\/64$/) return ""
    out = in_full(substr(text, 1, length(text) - 3))
    return substr(out, 17) == "0000000000000000" ? substr(out, 1, 16) : ""
}
