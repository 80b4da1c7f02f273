# What is wrong with the line `bad` of a schedule, or of a configuration where `what` is `node` or `hub`, which was refused for `reason`. The text comes with a
# line `.` added.
BEGIN {
    FS = "[ ]"
    u16 = "0-65535"
    u32 = "0-4294967295"
    noun = what == "schedule" ? "a schedule" : "a configuration"
    if (what == "schedule") schedule_tables()
    else config_tables()
}

function schedule_tables() {
    # for each word what its fields are called, and of which kind they are
    declares("link", "NAME PREFIX", "new prefix")
    declares("agent", "NAME LINK ADDRESS PREFERENCE LIFE ROOM", "new link address " u16 " " u16 " 1-64")
    declares("correspondent", "NAME LINK ADDRESS ROOM", "new link address 1-64")
    declares("mobile", "NAME LINK ADDRESS AGENT", "new link address agent-or-find")
    declares("serve", "AGENT MOBILE", "agent mobile")
    declares("outsider", "NAME", "new")
    does("wait", "MS", "1-600000")
    does("move", "MOBILE LINK", "mobile link-or-none")
    does("advertise", "LINK", "link")
    does("data", "NODE ADDRESS PROTO HEX", "host address 0-255 bytes-512")
    does("inject", "OUTSIDER LINK HEX", "outsider link bytes-2048")
    does("probe", "OUTSIDER LINK TEST SOURCE PEER COOKIE", "outsider link test address address cookie")
    does("bind", "OUTSIDER LINK SOURCE PEER HOME CAREOF SEQUENCE LIFETIME TEST TEST", \
        "outsider link address address address address " u16 " " u16 " " u32 " packet-or-none")
    does("tell", "OUTSIDER LINK TEST PROBE", "outsider link " u32 " " u32)
    does("listen", "OUTSIDER LINK", "outsider link")
    does("deaf", "OUTSIDER LINK", "outsider link")
    does("squat", "OUTSIDER ADDRESS", "outsider address")
    does("yield", "OUTSIDER ADDRESS", "outsider address")
    does("deliver", "K", u32)
    does("repeat", "K", u32)
    does("lose", "K", u32)
    does("carry", "COUNT", "1-1000")
    does("restart", "NODE", "node")
    does("refresh", "NODE ADDRESS", "host address")
    does("plan", "AGENT VALID PREFERRED", "agent " u32 " " u32)
    does("ask", "MOBILE", "mobile")
    does("show", "NODE", "node")
    does("settle", "NODE NODE", "host host")
}

function declares(word, names, kinds) { all_words = all_words " " word; is_declaration[word] = 1; names_of[word] = names; kinds_of[word] = kinds }
function does(word, names, kinds) { all_words = all_words " " word; is_event[word] = 1; names_of[word] = names; kinds_of[word] = kinds }

# Whether two words are one letter apart: one more, one less, another one, or two in another order.
function is_near(a, b,    i, n) {
    n = length(a)
    for (i = 1; i <= n && substr(a, i, 1) == substr(b, i, 1); i++) ;
    if (n + 1 == length(b)) return substr(a, i) == substr(b, i + 1)
    if (n - 1 == length(b)) return substr(a, i + 1) == substr(b, i)
    if (n != length(b)) return 0
    return substr(a, i + 1) == substr(b, i + 1) || substr(a, i + 1, 1) substr(a, i, 1) substr(a, i + 2) == substr(b, i)
}

# The first of these words that is near, as a question, or "".
function meant(word, words,    list, i, n) {
    n = split(words, list, " ")
    for (i = 1; i <= n; i++) if (list[i] != word && is_near(word, list[i])) return "; is `" list[i] "` meant?"
    return ""
}

# The names of this sort that are declared before, in their order.
function names_of_sort(sort,    i, out) {
    for (i = 1; i <= declared; i++) if (is_sort(sort, name_at[i])) out = out (out == "" ? "" : " ") name_at[i]
    return out
}

# The bytes of a text that can be shown.
function shown(text) {
    text = substr(text, 1, 160)
    gsub(/\t/, "<tab>", text)
    gsub(/\r/, "<CR>", text)
    gsub(/[^ -~]/, "?", text)
    return text
}

function quoted(text) { return "`" shown(substr(text, 1, 60)) "`" }

# Fields.

function is_sort(sort, name) {
    if (!(name in sort_of)) return 0
    if (sort == "host") return sort_of[name] == "correspondent" || sort_of[name] == "mobile"
    if (sort == "node") return sort_of[name] == "agent" || is_sort("host", name)
    return sort_of[name] == sort
}

function called(sort) {
    if (sort == "host") return "correspondent or mobile"
    if (sort == "node") return "agent, correspondent or mobile"
    return sort
}

function why_name(kind, s,    others) {
    if (kind == "yes-or-no") return s == "yes" || s == "no" ? "" : quoted(s) " is neither `yes` nor `no`" meant(s, "yes no")
    if (kind == "test") return s == "home" || s == "careof" ? "" : quoted(s) " is neither `home` nor `careof`" meant(s, "home careof")
    if (kind == "new") {
        if (s in sort_of) return quoted(s) " is the name of " (sort_of[s] ~ /^[ao]/ ? "an " : "a ") sort_of[s] " already"
        if (s == "find") return "`find` is no name"
        return s ~ /^[a-z0-9]+$/ && length(s) <= 8 ? "" : "a name has 1 to 8 letters a to z and digits, and " quoted(s) " is none"
    }
    if (kind == "link-or-none") { if (s == "-") return ""; kind = "link" }
    if (kind == "agent-or-find") { if (s == "find") return ""; kind = "agent" }
    if (kind !~ /^(link|agent|mobile|outsider|host|node)$/ || is_sort(kind, s)) return ""
    if (s in sort_of) return quoted(s) " is the name of " (sort_of[s] ~ /^[ao]/ ? "an " : "a ") sort_of[s] ", and here stands that of " (kind ~ /^[aon]/ ? "an " : "a ") called(kind)
    others = names_of_sort(kind)
    return "no " called(kind) " with the name " quoted(s) " is declared before" (others == "" ? ", and no other one" : "; there is " others) meant(s, others)
}

function why_number(kind, s,    range) {
    if (kind == "packet-or-none") { if (s == "-") return ""; kind = u32 }
    if (kind !~ /^[0-9]+-[0-9]+$/) return ""
    split(kind, range, "-")
    if (s !~ /^(0|[1-9][0-9]*)$/) return quoted(s) " is no decimal number without sign and leading zero"
    return length(s) <= 15 && s + 0 >= range[1] + 0 && s + 0 <= range[2] + 0 ? "" : quoted(s) " is not from " range[1] " to " range[2]
}

function why_digits(s, count) {
    if (s ~ /[A-F]/ && s ~ /^[0-9a-fA-F]+$/) return quoted(s) " has capital letters, and digits are 0 to 9 and a to f"
    if (s !~ /^[0-9a-f]+$/) return quoted(s) " has other characters than the digits 0 to 9 and a to f"
    if (count && length(s) != count) return quoted(s) " has " length(s) " digits, and " count " stand here"
    return ""
}

function why_address(kind, s,    why) {
    if (kind == "address-or-find") { if (s == "find") return ""; kind = "address" }
    if (kind != "address") return ""
    if (s ~ /:/) return quoted(s) " is written with colons, and here stand 32 digits; tools/addr writes them"
    if (s ~ /^[0-9]+([.][0-9]+)+$/) return quoted(s) " is no IPv6 address, and here stand the 32 digits of one; tools/addr writes them"
    if (s in sort_of) return quoted(s) " is the name of " (sort_of[s] ~ /^[ao]/ ? "an " : "a ") sort_of[s] ", and here stand the 32 digits of an address"
    why = why_digits(s, 32)
    if (why != "") return why
    if (s ~ /^0+[01]?$/) return quoted(s) " is the unspecified or the loopback address, which is not routable"
    if (s ~ /^ff/) return quoted(s) " is a multicast address, which is not routable"
    if (s ~ /^fe[89ab]/) return quoted(s) " is a link-local address, which is not routable"
    return ""
}

function why_hex(kind, s,    why, most) {
    if (kind == "prefix" && s ~ /:/) return quoted(s) " is written with colons, and here stand 16 digits; tools/addr writes them"
    if (kind == "prefix" || kind == "cookie") return why_digits(s, 16)
    if (kind == "seed") return why_digits(s, 64)
    if (kind !~ /^bytes/ || s == "-") return ""
    most = substr(kind, 7)
    why = why_digits(s, 0)
    if (why != "") return why
    if (length(s) % 2) return "the bytes have an odd number of digits, " length(s)
    return length(s) > 2 * most ? "here stand " length(s) / 2 " bytes, and at most " most " may" : ""
}

function why_field(kind, s) {
    if (reason == "name") return why_name(kind, s)
    if (reason == "number") return why_number(kind, s)
    if (reason == "address") return why_address(kind, s)
    return why_hex(kind, s)
}

# What the first field from the left has against it, or what the whole line has.
function why_fields(kinds,    kind, n, i, why) {
    n = split(kinds, kind, " ")
    for (i = 1; i <= n; i++) {
        why = why_field(kind[i], $(i + 1))
        if (why != "") return why
    }
    if (reason == "number" && ($1 == "data" || $1 == "payload")) return "protocol " $4 " is of a header, of ICMPv6 or of a mobility message, which `" $1 "` does not send"
    if (reason == "address") return quoted($3) " is on no declared link"
    return "a field is no such field"
}

# Lines.

function why_layout() {
    if (/\r$/) return "the line ends with CR LF, and lines end with LF alone"
    if (/\t/) return "a tab stands there, and fields are separated by single spaces"
    if ($0 == "") return "the line is empty, and " noun " has no empty lines"
    if (/#/) return noun " has no comments; tools/addr takes them out, and tools/why --addr reads what it reads"
    if (/^ /) return "the line begins with a space"
    if (/ $/) return "the line ends with a space, which makes an empty field"
    if (/  /) return "two spaces stand side by side, which makes an empty field"
    return ""
}

function why_head() {
    if (bad == 1) return "the first line is `mip 1` or `mip 2`"
    if (bad == 2) return "the second line is `seed` and 64 digits"
    return "the third line is `start` and a moment in milliseconds"
}

function why_end(    part) {
    if (torn) return "the last line has no end of line (LF)"
    part = bad <= 3 ? "a line of the head" : "the line `run`"
    return "the text ends here, and " part " is missing"
}

function why_form(    n) {
    if (bad <= 3) return why_head()
    if ($1 == "run") return running ? "`run` stands there for the second time" : "`run` stands alone in its line"
    if (!($1 in kinds_of)) return "no line of a schedule begins with the word " quoted($1) meant($1, all_words)
    if (running && $1 in is_declaration) return "`" $1 "` is a declaration, and declarations stand before `run`"
    if (!running && $1 in is_event) return "`" $1 "` is an event, and events stand behind `run`"
    n = split(names_of[$1], unused, " ")
    if (NF - 1 != n) return "`" $1 "` has " n " fields, and here stand " NF - 1 ": " $1 " " names_of[$1]
    return "the line is right, but lines with `" $1 "` do not run yet"
}

function why_limit() {
    if ($1 == "link") return "32 links are declared already"
    if ($1 == "outsider") return "8 outsiders are declared already"
    if ($1 == "mobile" && count_of["mobile"] >= 8) return "8 mobiles are declared already"
    if ($1 in is_declaration) return "32 nodes are declared already"
    return "20,000 events stand before this one"
}

function why_clash(    interface) {
    if ($1 == "link") return "the prefix " quoted($3) " is that of the link `" link_of[$3] "` already"
    if ($1 == "serve") return "`" $2 "` serves `" $3 "` already"
    if ($1 == "bind") {
        if ($11 == "-") return "the care-of test is missing: `-` stands only where LIFETIME is 0 or CAREOF is HOME"
        return "a care-of test stands there, and `-` is to stand where LIFETIME is 0 or CAREOF is HOME"
    }
    if (link_of[substr($4, 1, 16)] != $3) return "the address is not on the link `" $3 "`, whose prefix is " prefix_of[$3]
    interface = substr($4, 17)
    if (interface == "fdfffffffffffffe") return "the last 64 bits are those of the home agents' anycast address"
    return "the last 64 bits are those of the address of `" interface_of[interface] "` already"
}

function why_packet() {
    return length($4) < 80 ? "here stand " length($4) / 2 " bytes, and an IPv6 packet has 40 at least" : "the first digit is the version, and is not 6"
}

function schedule_kinds() { return $1 == "mip" ? "1-2" : $1 == "seed" ? "seed" : $1 == "start" ? "0-1099511627776" : kinds_of[$1] }

function sentence(    why) {
    if (what != "schedule") return config_sentence()
    if (bad > lines) return why_end()
    $0 = text
    why = why_layout()
    if (why != "") return why
    if (reason == "form") return why_form()
    if (reason == "limit") return why_limit()
    if (reason == "clash") return why_clash()
    if (reason == "packet") return why_packet()
    if (reason == "time") return "the waits up to here are " waited + $2 " ms together, and may be 36000000"
    if (reason == "carry") return "the carries up to here are " carried + $2 " packets together, and may be 200000"
    return why_fields(schedule_kinds())
}

# From version 2 on an update names the number of its binding.
function numbers_updates() {
    names_of["bind"] = names_of["bind"] " NUMBER"
    kinds_of["bind"] = kinds_of["bind"] " 0-7"
}

# What stands before the bad line.
function remember() {
    if (what != "schedule") return
    if ($1 == "mip" && $2 == 2) numbers_updates()
    if ($1 == "run") running = 1
    if ($1 == "wait") waited += $2
    if ($1 == "carry") carried += $2
    if (running || !($1 in is_declaration)) return
    count_of[$1]++
    if ($1 == "serve") return
    if (!($2 in sort_of)) name_at[++declared] = $2
    sort_of[$2] = $1
    if ($1 == "link") { prefix_of[$2] = $3; link_of[$3] = $2 }
    if ($1 == "agent" || $1 == "correspondent" || $1 == "mobile") interface_of[substr($4, 17)] = $2
}

NR > 1 {
    lines = NR - 1
    if (lines == bad) text = held
    if (lines < bad) { ahead = $0; $0 = held; remember(); $0 = ahead }
}
{ held = $0 }
END {
    torn = held != "."
    if (torn && bad > lines) text = substr(held, 1, length(held) - 1)
    printf "why: %s, line %d: %s\nwhy: %s\n", file, shown_line, shown(written == "" ? text : written), sentence()
}
