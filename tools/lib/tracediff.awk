# Two traces side by side: the entries of both, as differ.awk writes them, and the pairs of their lines, as pairs.awk does.
BEGIN { FS = "\t" }
FILENAME == file_a { note("a", FNR); count_a = FNR; next }
FILENAME == file_b { note("b", FNR); count_b = FNR; next }
{
    split($0, pair, " ")
    pairs++
    at_a[pairs] = pair[1]
    at_b[pairs] = pair[2]
}

function note(side, n) { shape[side, n] = $1; moment[side, n] = $2; words[side, n] = $3; names[side, n] = $4; values[side, n] = $5 }

# How a pair differs: "" where both lines are alike but for numbers of packets and what is drawn from the seed, else `|`, `<` or `>`, or `~` where fields of one word do.
function how(i) {
    if (!at_a[i]) return ">"
    if (!at_b[i]) return "<"
    if (shape["a", at_a[i]] != shape["b", at_b[i]]) return "|"
    if (moment["a", at_a[i]] != moment["b", at_b[i]] && values["a", at_a[i]] !~ /^at /) return "~"
    return differing(at_a[i], at_b[i], 1) == "" ? "" : "~"
}

# The names of the fields in which two lines of one word differ; `known_only` leaves numbers of packets, tokens and bytes out.
function differing(a, b, known_only,    name, left, right, count, i, out) {
    count = split(names["a", a], name, " ")
    split(values["a", a], left, " ")
    split(values["b", b], right, " ")
    for (i = 1; i <= count; i++)
        if (left[i] != right[i] && !(known_only && name[i] ~ /^(packet|bytes|home_test|careof_test|home_token|careof_token)$/)) out = out " " i
    return out
}

function is_same(i) { return at_a[i] && at_b[i] && values["a", at_a[i]] == values["b", at_b[i]] && moment["a", at_a[i]] == moment["b", at_b[i]] }

# The first pair whose lines differ at all, 0 where none do.
function parting(    i) {
    for (i = 1; i <= pairs; i++) if (!is_same(i)) return i
    return 0
}

function cut(text, room) { return length(text) > room ? substr(text, 1, room - 2) ".." : text }
function padded(text, room) { return sprintf("%-" room "s", cut(text, room)) }
function paint(text, mark) {
    if (!colour || mark == "") return text
    return sprintf("%c[%dm%s%c[0m", 27, mark == "<" ? 31 : mark == ">" ? 32 : 33, text, 27)
}

function shortened(value) { return value ~ /^[0-9a-f]+$/ && length(value) == 32 ? familiar(value) : value }

# Bytes near the first that differs.
function from_difference(value, other,    i) {
    if (length(value) <= 40 && length(other) <= 40) return value
    for (i = 1; i <= length(value) && substr(value, i, 1) == substr(other, i, 1); i++) ;
    i -= (i + 1) % 2
    return (i > 9 ? ".." substr(value, i - 8, 8) : substr(value, 1, i - 1)) cut(substr(value, i), 26) " (byte " int(i / 2) ")"
}

# Where the traces part: the lines, their words, and the fields that differ.
function tell_parting(i,    a, b) {
    a = at_a[i]
    b = at_b[i]
    print "They part at " where(a, b) ":"
    print "  a  " (a ? moment["a", a] " ms, " words["a", a] : "has no such line")
    print "  b  " (b ? moment["b", b] " ms, " words["b", b] : "has no such line")
    if (a && b) tell_fields(a, b)
}

function where(a, b) {
    if (!a) return "line " b " of b, which a lacks"
    if (!b) return "line " a " of a, which b lacks"
    return "line " a " of a and line " b " of b"
}

function tell_fields(a, b,    name, left, right, which, count, i) {
    if (moment["a", a] != moment["b", b]) print "  moment: " moment["a", a] " and " moment["b", b]
    if (names["a", a] != names["b", b]) { print "  entry: " first_word(values["a", a]) " and " first_word(values["b", b]); return }
    split(names["a", a], name, " ")
    split(values["a", a], left, " ")
    split(values["b", b], right, " ")
    count = split(differing(a, b, 0), which, " ")
    for (i = 1; i <= count; i++)
        print "  " name[which[i]] ": " from_difference(shortened(left[which[i]]), shortened(right[which[i]])) " and " from_difference(shortened(right[which[i]]), shortened(left[which[i]]))
}

function first_word(text) { sub(/ .*/, "", text); return text }

# A row: line and moment, and what both say.
function row(i, mark,    half, left, right) {
    half = int((width - 3) / 2)
    left = at_a[i] ? sprintf("%" digits "d %" moments "s  %s", at_a[i], moment["a", at_a[i]], words["a", at_a[i]]) : ""
    right = at_b[i] ? sprintf("%" digits "d %" moments "s  %s", at_b[i], moment["b", at_b[i]], words["b", at_b[i]]) : ""
    left = padded(left, half) " " (mark == "" ? " " : mark) " " cut(right, half)
    sub(/ +$/, "", left)
    print paint(left, mark)
}

# Which pairs are shown: those that differ, and so many on both sides of them.
function choose_shown(    i, j) {
    for (i = 1; i <= pairs; i++) {
        marks[i] = how(i)
        counted[marks[i]]++
        if (marks[i] == "" && i != parted && !all) continue
        for (j = i - context; j <= i + context; j++) is_shown[j] = 1
    }
}

function longest_moment(    n, most) {
    for (n = 1; n <= count_a; n++) if (length(moment["a", n]) > most) most = length(moment["a", n])
    for (n = 1; n <= count_b; n++) if (length(moment["b", n]) > most) most = length(moment["b", n])
    return most < 2 ? 2 : most
}

function tell_rows(    i, hidden) {
    digits = length(count_a > count_b ? count_a : count_b)
    moments = longest_moment()
    for (i = 1; i <= pairs; i++) {
        if (is_shown[i]) {
            if (hidden) print alike(hidden)
            hidden = 0
            row(i, marks[i])
        } else hidden++
    }
    if (hidden) print alike(hidden)
}

function alike(count) { return sprintf("%" digits "s .. %d %s alike", "", count, count == 1 ? "line" : "lines") }

function sums() {
    return counted[""] + 0 " alike, " counted["~"] + counted["|"] + 0 " changed, " counted["<"] + 0 " in a alone, " counted[">"] + 0 " in b alone"
}

END {
    parted = parting()
    choose_shown()
    if (html) tell_html()
    else {
        print "a  " name_a ", " count_a + 0 " lines\nb  " name_b ", " count_b + 0 " lines"
        if (!parted) print "They are the same."
        else {
            tell_parting(parted)
            print ""
            tell_rows()
            print sums()
        }
    }
    exit parted ? 1 : 0
}
