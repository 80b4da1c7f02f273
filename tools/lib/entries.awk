# An entry in a sentence that names whoever it is about: `words_of`. Beside it `from` and `to` are the lanes between which it is drawn, and `about` the packet.

# Which links there are, and who stands where, as the entries tell it.
function note_place(word) {
    if (word == "moved") link_now[$2] = $3
    if (word != "claimed" && word != "released") return
    if (!($2 in first_link)) { first_link[$2] = $3; first_address[$2] = $4 }
    link_with[substr($4, 1, 16)] = $3
}

function stands_on(who) { return who in link_now ? link_now[who] : first_link[who] }

# A packet's number and kind, and behind them, where it is the subject of what follows, a comma.
function packet_is(number) { return packet_words(number) (shielded[number] ? "," : "") }
function packet_words(number) { return number " " kind_of[number] in_brackets(kind_of[number], digits_of[number]) (shielded[number] ? ", shielded" : "") }

# What becomes of packets.
function says_of_packet(word) {
    about = $2
    if (word == "got") { to = "hub"; return "the hub gets " packet_words($2) }
    if (word == "to") { from = "hub"; to = "port " $3; return packet_is($2) " goes to port " $3 }
    from = sort == "hub" ? "hub" : poster[$2]
    if (word == "sent") { to = stands_on($3); return $3 " sends " packet_words($2) }
    if (word == "injected") { to = $4; return $3 " posts " packet_words($2) " on " $4 }
    if (word == "handed") { to = $3; return packet_is($2) " reaches " $3 ", from " from }
    if (word == "heard") { to = $3; return $3 " hears " packet_words($2) ", from " from }
    if (word == "gone") { to = link_with[substr(digits_of[$2], 49, 16)]; return packet_is($2) " reaches nobody, " explained($3) }
    if (word == "lost") { to = link_with[substr(digits_of[$2], 49, 16)]; return packet_is($2) " is lost" }
    return ""
}

# The other lane of what somebody says of itself, and the packet that it is about.
function aims(word) {
    if (word ~ /^(moved|claimed|released|taken|listening|deafened)$/) to = $3
    if (word == "advertised") { from = $3; to = $2 }
    if (sort == "hub" && (word == "claim" || word == "advert")) to = "port " $3
    if (sort == "claims" && word == "advert") to = $2
    if (word == "made") about = $4
    if (word ~ /^(accepted|denied|dropped|up)$/) about = $3
    if (word == "accepted") judged = $3
    if (word == "origin" || word == "forged") about = judged
    if (to == "-") to = ""
}

function words_of(word,    text) {
    from = to = about = ""
    if (sort == "trace") note_place(word)
    if (word == "at") return $2 " ms"
    if (word == "idle") return "nothing changed"
    if (sort == "hub" && word == "dropped") { about = $2; from = "hub"; return "the hub drops " packet_words($2) ", " explained($3) }
    text = says(word)
    if (text == "") return says_of_packet(word)
    from = teller
    aims(word)
    if (teller == "") return text
    # where the words have no verb, a colon stands in front
    return teller (text ~ /^(home|row|up|token|forged)/ ? ": " : " ") text
}
