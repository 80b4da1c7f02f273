# What an entry of a trace says in words: the text, and in `teller` the node or outsider that it is about. Packets that move have no such text.

function meaning(status) {
    if (status == 130) return "insufficient resources"
    if (status == 131) return "home registration not supported"
    if (status == 132) return "not home subnet"
    if (status == 133) return "not home agent for this mobile node"
    if (status == 134) return "duplicate address detection failed"
    if (status == 135) return "sequence number out of window"
    if (status == 136) return "expired home nonce index"
    if (status == 137) return "expired care-of nonce index"
    if (status == 138) return "expired nonces"
    if (status == 174) return "invalid care-of address"
    return "refused"
}

# Why a node did nothing with a packet, in words.
BEGIN {
    says_why("short=fewer than 40 bytes, or a header passes the end/version=the version is not 6/length=the payload length is not that of the packet")
    says_why("header=a header that is not read, or one that stands twice/route=a routing header that is not taken here")
    says_why("option=a destination option is malformed, stands twice or may not be skipped/size=the size is none that is taken")
    says_why("checksum=the checksum does not hold/type=the type of the message is above 7/proto=Payload Proto is not 59")
    says_why("headerlen=Header Len is below the least of its type/moption=a mobility option is malformed or stands twice")
    says_why("address=it is for another address/probe=a test init with a Home Address option/homeoption=no binding from this home to this source is held")
    says_why("unroutable=the home or the care-of address is not routable/options=nonce indices or authenticator are missing")
    says_why("authenticator=the authenticator is not the one for these tokens/role=such a node does not take it/icmp=it is ICMPv6")
    says_why("none=nothing stands behind its headers/unshielded=it comes without the shield/entry=the tunnel has another entry")
    says_why("nested=the packet in the tunnel is a tunnel, or for the node itself/hop=the hop limit is used up")
    says_why("cookie=the cookie is another one than was sent/ack=no update waits for it/error=a Binding Error of a peer that is not bound")
    says_why("refresh=a refresh request of a peer that is not bound/frame=the datagram is no frame/nolink=no link has the prefix of the destination")
    says_why("noholder=nobody holds the destination/shield=the shield is not that of the holder/detached=it stands on no link")
    says_why("unregistered=it is not registered/noroute=it has no route there")
}

function says_why(rows,    part, count, i, at) {
    count = split(rows, part, "/")
    for (i = 1; i <= count; i++) {
        at = index(part[i], "=")
        why_in_words[substr(part[i], 1, at - 1)] = substr(part[i], at + 1)
    }
}

# A word with what it means.
function explained(why) { return why (why in why_in_words ? ": " why_in_words[why] : "") }

# The number of a binding, where it is not the one that each home has.
function under(number) { return number == 0 ? "" : " under number " number }

# What a correspondent says of an update, and where the tokens of the last accepted one came from.
function says_of_update(word) {
    if (word == "accepted") {
        judge = $2
        return "accepted " $3 ", " familiar($4) " is at " familiar($6) under($5) ", sequence " $7 ", until " $8 " ms"
    }
    if (word == "denied") return "denied " $3 ", status " $4 ", " meaning($4)
    if (word == "dropped") return "dropped " $3 ", " explained($4)
    # a mark speaks of the update that was accepted last
    teller = judge
    if (word == "origin") return $3 == "-" ? "token of packet " $2 ", update of packet " $4 : "tokens of packets " $2 " and " $3 ", update of packet " $4
    if (word == "forged") return "forged, cause " $2 ": " cause_in_words($2)
    teller = $2
    return ""
}

# What a mobile or an agent says.
function says_of_mobile(word) {
    if (word == "moved") return $3 == "-" ? "stands on no link" : "stands on " $3
    if (word == "advertised") return "is told of " ($4 == "-" ? "a router" : "agent " familiar($4)) ($3 == "-" ? "" : " on " $3)
    if (word == "careof") return "has the care-of address " familiar($3)
    if (word == "registered") return "is registered at " familiar($3) " until " $4 " ms"
    if (word == "unregistered") return "is no longer registered at " familiar($3)
    if (word == "refused") return "is refused by its agent, status " $3 ", " meaning($3)
    if (word == "chosen") return "turns to agent " familiar($3)
    if (word == "prefixes") return "home prefix valid for " $3 " s, preferred for " $4 " s"
    if (word == "made") return "makes packet " $4 " for " familiar($3)
    if (word == "bound") return "knows that " familiar($3) " has its care-of address until " $4 " ms"
    if (word == "unbound") return "knows that " familiar($3) " has no care-of address of it"
    if (word == "home") return "home " familiar($3) " is at " familiar($4) ", sequence " $5 ", until " $6 " ms"
    return ""
}

# What any node says of itself.
function says_of_node(word) {
    if (word == "up") return "up " $3 ", protocol " $6 " from " familiar($4)
    if (word == "unsent") return "cannot send, " explained($3)
    if (word == "restarted") return "restarts, and has lost what it kept"
    if (word == "row") return "row " familiar($3) " is at " familiar($5) under($4) ", sequence " $6 ", until " $7 " ms, kept until " $8 " ms"
    if (word == "settled") return ($4 == "yes" ? "can" : "cannot") " exchange data with " $3
    return ""
}

function on_link(link) { return link == "-" ? "" : " on " link }

function says_of_address(word) {
    if (word == "claimed") return "holds " familiar($4) on_link($3)
    if (word == "released") return "gives up " familiar($4) on_link($3)
    if (word == "taken") return "cannot take " familiar($4) on_link($3) ", which " $5 " holds"
    if (word == "listening") return "listens on " $3
    if (word == "deafened") return "no longer listens on " $3
    return ""
}

# The six bytes of a link-layer address with colons.
function layer(digits,    i, out) {
    for (i = 1; i <= 11; i += 2) out = out (out == "" ? "" : ":") substr(digits, i, 2)
    return out
}

# What the claims of a run say. The target of a neighbour message stands behind eight bytes of its body, and its link-layer address at its end.
function target_of(digits) { return familiar(substr(digits, 97, 32)) }
function says_of_claims(word) {
    teller = word == "answer" ? $2 : $3
    if (word == "advert") return "advertises " target_of($4) " at " layer(substr($4, length($4) - 11)) on_link($2)
    if (word == "answer") return "answers that " target_of($3) " is at " layer(substr($3, length($3) - 11))
    teller = $2
    if (word == "holds") return "has " familiar($3) " at " layer($4)
    if (word == "solicit") return "is asked who has " target_of($3)
    if (word == "silent") { teller = ""; return "nobody answers" }
    return ""
}

# What a hub says of addresses.
function says_of_hub(word) {
    teller = "hub"
    if (word == "claim") return "knows " familiar($2) " at port " $3
    if (word == "free") return "knows no longer where " familiar($2) " is"
    if (word == "advert") return "advertises " familiar_prefix($2) " to port " $3
    return ""
}

# The words of an entry, or "".
function says(word,    text) {
    if (sort == "hub") return says_of_hub(word)
    if (sort == "claims") return says_of_claims(word)
    teller = $2
    text = says_of_update(word)
    if (text == "") text = says_of_address(word)
    if (text == "") text = says_of_mobile(word)
    if (text == "") text = says_of_node(word)
    return text
}
