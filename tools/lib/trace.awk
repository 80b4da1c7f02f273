# The lines of a trace. `line` refuses what is none, and hands each other one to the tool's `entry(n, word)` with its fields in $1, $2 and so on.
BEGIN {
    FS = "[ ]"
    # for each word its fields: N a number, n a name, l a name or -, a an address, A one or -, k a token, K one or -, h bytes,
    # i a number or -, s a shield, t a kind of packet, w why, c a cause, y yes or no, p a prefix, e a link-layer address
    rows = "at N/moved n l/advertised n l A/claimed n l a/released n l a/taken n l a n/listening n n/deafened n n/careof n a/" \
        "sent N n s t h/injected N n n t h/heard N n/handed N n/gone N w/lost N/idle/home n a a N N/registered n a N/unregistered n a/" \
        "refused n N/chosen n a/prefixes n N N/made n a N k K/bound n a N/unbound n a/accepted n N a N a N N N i/origin N i N/forged c/" \
        "denied n N N/dropped n N w/up n N a a N h/unsent n w/restarted n/row n a N a N N N/settled n n y"
    count = split(rows, row, "/")
    for (i = 1; i <= count; i++) {
        word = row[i]
        sub(/ .*/, "", word)
        fields[word] = row[i]
    }
    # the lines of `claims`, and those of `hub`, whose words `gone lost idle dropped` a trace has too
    rows = "advert n n h/holds n a e/solicit n h/answer n h/silent"
    count = split(rows, row, "/")
    for (i = 1; i <= count; i++) {
        word = row[i]
        sub(/ .*/, "", word)
        claims[word] = row[i]
    }
    rows = "claim a N/free a/idle/advert p N/got N/to N N/dropped N w/gone N w/lost N"
    count = split(rows, row, "/")
    for (i = 1; i <= count; i++) {
        word = row[i]
        sub(/ .*/, "", word)
        hub[word] = row[i]
    }
    posted = 0
}

function is_number(s) { return s ~ /^(0|[1-9][0-9]*)$/ && length(s) <= 20 }
function is_name(s) { return s ~ /^[a-z0-9]+$/ && length(s) <= 8 && s != "find" }
function is_bytes(s) { return s == "-" || (s ~ /^[0-9a-f]+$/ && length(s) % 2 == 0) }
function is_kind(s) { return s ~ /^(bad|brr|hoti|coti|hot|cot|bu|ba|be|icmp|tunnel|none|data)$/ }

function is_field(kind, s) {
    if (s == "-" && kind ~ /^[lAKi]$/) return 1
    if (kind == "N" || kind == "i") return is_number(s)
    if (kind == "n" || kind == "l") return is_name(s)
    if (kind == "a" || kind == "A") return is_digits(s, 32)
    if (kind == "k" || kind == "K") return is_digits(s, 16)
    if (kind == "h") return is_bytes(s)
    if (kind == "s") return s == "-" || s == "+"
    if (kind == "t") return is_kind(s)
    if (kind == "w") return s ~ /^[a-z]+$/
    if (kind == "p") return is_digits(s, 16)
    if (kind == "e") return is_digits(s, 12)
    if (kind == "c") return s ~ /^[123]$/
    return s == "yes" || s == "no"
}

# What the fields of a line are: those of a trace, of the claims of a run, or of a hub. The first line that stands in one of these alone decides for all.
function sort_of_text() {
    if (sort != "") return sort
    if ($1 in claims && !($1 == "advert" && NF == 3)) return sort = "claims"
    if ($1 in hub && !($1 in fields)) return sort = "hub"
    if ($1 in fields && !($1 in hub)) return sort = "trace"
    # `dropped K WHY` of a hub has a field less than that of a trace
    if ($1 == "dropped" && NF == 3) return sort = "hub"
    return ""
}

function row_of() {
    sort_of_text()
    if (sort == "claims") return claims[$1]
    if (sort == "hub") return hub[$1]
    return fields[$1]
}

# Whether a node that stands alone has got the next packet from outside: there is no line that posts it.
function comes_from_outside() { return ($1 == "handed" && $3 == "self" && $2 == posted) || ($1 == "dropped" && $2 == "self" && $3 == posted && $4 == "frame") }

# Why a line is no line of a trace, or "".
function fault(    n, kind, i, row) {
    row = row_of()
    if (row == "") return "no entry of a trace has the word `" $1 "`"
    n = split(row, kind, " ")
    if (n != NF) return "`" $1 "` has " n - 1 " fields, and here stand " NF - 1
    for (i = 2; i <= n; i++) if (!is_field(kind[i], $i)) return "field " i - 1 " of `" $1 "` is no such field: `" substr($i, 1, 40) "`"
    if (sort == "hub") return ($1 == "got" && $2 != posted) ? "packet " $2 " comes where packet " posted " comes next" : ""
    if (sort == "claims" || comes_from_outside()) return ""
    if (($1 == "sent" || $1 == "injected") && $2 != posted) return "packet " $2 " is posted where packet " posted " comes next"
    if ($1 == "at" && moved && $2 + 0 <= latest) return "moment " $2 " does not come after " latest
    if (($1 == "heard" || $1 == "handed" || $1 == "gone" || $1 == "lost") && $2 + 0 >= posted) return "packet " $2 " was not posted before"
    return ""
}

function post(who, kind, digits) {
    poster[posted] = who
    kind_of[posted] = kind
    digits_of[posted] = digits
    posted++
}

# Addresses in their familiar form as digits.
function in_digits(    i, full) {
    for (i = 2; i <= NF; i++) {
        if ($i !~ /:/) continue
        full = index($i, "/") ? prefix_in_full($i) : in_full($i)
        if (full != "") $i = full
    }
}

function line(n,    why) {
    if (n == 1 && /^mip [12]$/) { refuse(n, "this is a schedule: run it first, as `mip replay < SCHEDULE` does, and give its trace"); return }
    if (/:/) in_digits()
    why = fault()
    if (why != "") { refuse(n, why); return }
    if (sort == "hub") { if ($1 == "got") post("", "frame", "") }
    else if (sort != "claims") {
        if ($1 == "sent") { shielded[posted] = $4 == "+"; post($3, $5, $6) }
        else if ($1 == "injected") post($3, $5, $6)
        else if (comes_from_outside()) post("outside", "frame", "")
    }
    if ($1 == "at") { moved = 1; latest = $2 + 0 }
    entry(n, $1)
}
