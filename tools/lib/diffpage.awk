# The page of two traces side by side, in the place of the rows on a terminal.
function safe(text) { gsub(/&/, "\\&amp;", text); gsub(/</, "\\&lt;", text); return text }

# A text whose words that the other one has not in the same place are marked.
function with_marks(text, other,    part, theirs, count, i, out) {
    count = split(text, part, " ")
    if (count != split(other, theirs, " ")) return safe(text)
    for (i = 1; i <= count; i++) out = out (i > 1 ? " " : "") (part[i] == theirs[i] ? safe(part[i]) : "<mark>" safe(part[i]) "</mark>")
    return out
}

function side_of(which, n, other) {
    if (!n) return "<div class=\"side\"></div>"
    return "<div class=\"side\"><span class=\"n\">" n "</span><span class=\"t\">" moment[which, n] "</span><span>" with_marks(words[which, n], other) "</span></div>"
}

function html_row(i,    kind) {
    kind = marks[i] == "" ? "alike" : marks[i] == "<" ? "left" : marks[i] == ">" ? "right" : "changed"
    print "<div class=\"pair " kind "\">" side_of("a", at_a[i], at_b[i] ? words["b", at_b[i]] : "") "<div class=\"how\">" safe(marks[i]) "</div>" \
        side_of("b", at_b[i], at_a[i] ? words["a", at_a[i]] : "") "</div>"
}

# A run of lines that are alike is folded.
function html_rows(    i, last, j) {
    for (i = 1; i <= pairs; i++) {
        if (is_shown[i]) { html_row(i); continue }
        for (last = i; last < pairs && !is_shown[last + 1]; last++) ;
        print "<details><summary>" last - i + 1 (last == i ? " line" : " lines") " alike</summary>"
        for (j = i; j <= last; j++) html_row(j)
        print "</details>"
        i = last
    }
}

function html_parting(i,    a, b, name, left, right, which, count, j) {
    a = at_a[i]
    b = at_b[i]
    print "<table><caption>They part at " where(a, b) "</caption>"
    print "<tr><th></th><th>a</th><th>b</th></tr>"
    html_cells("moment", a ? moment["a", a] " ms" : "", b ? moment["b", b] " ms" : "")
    html_cells("entry", a ? words["a", a] : "none", b ? words["b", b] : "none")
    if (a && b && names["a", a] == names["b", b]) {
        split(names["a", a], name, " ")
        split(values["a", a], left, " ")
        split(values["b", b], right, " ")
        count = split(differing(a, b, 0), which, " ")
        for (j = 1; j <= count; j++) html_cells(name[which[j]], shortened(left[which[j]]), shortened(right[which[j]]))
    }
    print "</table>"
}

function html_cells(name, left, right) { print "<tr><th>" name "</th><td>" safe(left) "</td><td>" safe(right) "</td></tr>" }

function tell_html() {
    print "<header><h1>Two traces</h1><p><b>a</b> " safe(name_a) ", " count_a + 0 " lines; <b>b</b> " safe(name_b) ", " count_b + 0 " lines</p></header><main>"
    if (!parted) print "<p>They are the same.</p>"
    else {
        html_parting(parted)
        print "<p>" sums() "</p><div id=\"pairs\">"
        html_rows()
        print "</div>"
    }
    print "</main>"
}
