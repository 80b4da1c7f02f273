# What a `forged` means: which token was missing, as the trace tells it. `note_tokens` is called for each entry, before what it says is asked.

# Where the mobility message in a packet begins, through any depth of tunnels, and in `outer` its packet; 0 where there is none.
function message_at(digits,    at) {
    outer = digits
    at = body_at(outer)
    while (body_proto == 41) {
        outer = substr(outer, at)
        if (length(outer) < 80) return 0
        at = body_at(outer)
    }
    return body_proto == 135 ? at : 0
}

# The home of a packet's update: the address of its Home Address option, else its source.
function home_of(packet,    at) {
    at = index(substr(packet, 81), "c910")
    return value_of(substr(packet, 13, 2)) == 60 && at ? substr(packet, 84 + at, 32) : substr(packet, 17, 32)
}

# A packet with a test: its token, and the name under which it was sent. One with an update: the packet that had it first.
function note_post(number, who, digits,    at, kind, name) {
    at = message_at(digits)
    if (!at) return
    kind = value_of(substr(outer, at + 4, 2))
    if (kind == 3 || kind == 4) {
        token_of[number] = kind substr(outer, at + 32, 16)
        if ($1 == "injected") note_injected(number, who)
        else if (!(who in is_agent)) {
            name = who SUBSEP life_of[who] + 0 SUBSEP kind SUBSEP substr(outer, 49, 32) SUBSEP value_of(substr(outer, at + 12, 4))
            if (!(name in test_of)) test_of[name] = number
        }
    }
    if (kind == 5) {
        name = home_of(outer) substr(outer, 17, 32) substr(outer, at, 8) substr(outer, at + 12)
        if (!(name in first_with)) first_with[name] = number
        update_of[number] = first_with[name]
    }
}

# An outsider posts a test whose token it has not heard.
function note_injected(number, who) {
    if ((who, token_of[number]) in heard_in || token_of[number] in early_by) return
    early_by[token_of[number]] = who
    early_in[token_of[number]] = number
}

function note_tokens(word) {
    if (sort != "trace") return
    if (word == "sent") note_post($2, $3, $6)
    else if (word == "injected") note_post($2, $3, $6)
    else if (word == "heard" && ($2 in token_of) && !(($3, token_of[$2]) in heard_in)) heard_in[$3, token_of[$2]] = posted
    else if (word == "home") is_agent[$2] = 1
    else if (word == "restarted") life_of[$2]++
    else if (word == "accepted") note_accepted()
}

# The tests that brought the tokens of the update that was accepted last, "" where none did.
function note_accepted(    life) {
    life = $2 SUBSEP life_of[$2] + 0 SUBSEP
    update = ($3 in update_of) ? update_of[$3] : ""
    home_test = test_in(life 3 SUBSEP $4 SUBSEP $9)
    careof_test = $10 == "-" ? "-" : test_in(life 4 SUBSEP $6 SUBSEP $10)
}

function test_in(name) { return name in test_of ? test_of[name] : "" }

# Whether the test's token had come to the maker of the update before it posted that.
function had_reached(test,    maker) {
    if (test == "-") return 1
    if (test == "" || update == "") return 0
    maker = poster[update] SUBSEP token_of[test]
    return maker in heard_in && heard_in[maker] <= update
}

function token_in_words(which, test) { return "its " which " token" (test == "" ? "" : ", of packet " test ",") }

# Both tokens in few words, where both were in packets.
function both_in_words() {
    if (home_test == "" || careof_test == "") return "neither of its tokens"
    return "neither of its tokens, of packets " home_test " and " careof_test ","
}

function early_in_words(which, test) {
    if (test == "-" || test == "" || !(token_of[test] in early_by)) return ""
    return early_by[token_of[test]] " had posted its " which " token in packet " early_in[token_of[test]] " before hearing that"
}

# The sentence for a cause, about the update that was accepted last.
function cause_in_words(cause,    maker, text) {
    if (cause == 3) return "one of its tokens was sent under another name, too"
    if (cause == 2) {
        text = early_in_words("home", home_test)
        if (text == "") text = early_in_words("care-of", careof_test)
        return text == "" ? "an outsider had posted one of its tokens before hearing it" : text
    }
    maker = update == "" ? " had reached its maker" : " had reached " poster[update] ", its maker"
    if (!had_reached(home_test) && !had_reached(careof_test)) return both_in_words() maker
    sub(/ had/, " had not", maker)
    if (!had_reached(home_test)) return token_in_words("home", home_test) maker
    if (!had_reached(careof_test)) return token_in_words("care-of", careof_test) maker
    return "its tokens had not both reached its maker"
}
