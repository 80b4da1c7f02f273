# A capture in the pcapng format, as digits: an interface for each node and outsider, the names of addresses, and a block for each time that a packet is posted,
# handed over or heard, with a comment on what became of it.
BEGIN {
    micro = -1
    linktype = 229
    # the options of a section, an interface and a packet that stand here
    comment_option = 1
    name_option = 2
    description_option = 3
    resolution_option = 9
    flags_option = 2
    # directions of a packet
    inbound = 1
    outbound = 2
}

function option(code, digits) { return word16(code) word16(length(digits) / 2) filled(digits) }

# A block of this type; its length stands in front of the body and behind it.
function block(type, body,    size) {
    size = word32(length(body) / 2 + 12)
    return type size body size
}

function interface_of(who) {
    if (!(who in number_of)) {
        number_of[who] = interfaces++
        name_at[interfaces - 1] = who
    }
    return number_of[who]
}

# A packet whose hop limit is one less.
function one_hop_less(digits,    hop) {
    hop = value_of(substr(digits, 15, 2)) - 1
    return substr(digits, 1, 14) substr(word32(hop < 0 ? 0 : hop), 7) substr(digits, 17)
}

# The frame at `frames`: when, on which interface, in which direction, which bytes; its comment is added later.
function frame(n, who, direction, digits, comment,    at) {
    if (digits == "-") { refuse(n, "a packet of no bytes"); return }
    if (length(comment) > 2000) comment = substr(comment, 1, 2000)
    at = micro = moment * 1000 > micro ? moment * 1000 : micro + 1
    # a moment has 48 bits here, so that each part of it is exact
    if (at >= 281474976710656 * 16) { refuse(n, "a capture has no moment so late"); return }
    frames++
    frame_head[frames] = word32(interface_of(who)) word32(int(at / 4294967296)) word32(at % 4294967296)
    frame_digits[frames] = digits
    direction_of[frames] = direction
    comment_of[frames] = comment
}

# Where somebody stands: on the link that it moved to, else on that of its first address.
function stands_on(who) { return who in link_now ? link_now[who] : first_link[who] }

# The link where a packet arrives: that of the claim of its destination.
function destination_of(digits) { return substr(digits, 49, 32) }

# A packet was posted: whoever listens on that link is to hear it once, and hears it as it was posted.
function posts(n, who, link, digits,    i, words) {
    link_of_packet[posted - 1] = link
    words = "packet " (posted - 1) ", " kind_of[posted - 1] in_brackets(kind_of[posted - 1], digits) (shielded[posted - 1] ? ", shielded" : "") ", posted by " who (link == "" ? "" : " on " link)
    for (i in listens) {
        split(i, part, SUBSEP)
        if (part[2] == link && part[1] != who && !shielded[posted - 1]) hears_first[posted - 1, part[1]] = 1
    }
    frame(n, who, outbound, digits, words)
    posted_in[posted - 1] = frames
}

# A packet arrives at somebody: over another link than it was posted on its hop limit is one less.
function arrives(n, number, who, how,    digits, link) {
    digits = digits_of[number]
    link = claimed_on[destination_of(digits)]
    if (how == "heard" && (number, who) in hears_first) delete hears_first[number, who]
    else if (link != "" && link_of_packet[number] != "" && link != link_of_packet[number]) digits = one_hop_less(digits)
    became(number, how " " (how == "heard" ? "by " : "to ") who)
    frame(n, who, inbound, digits, "packet " number ", " kind_of[number] in_brackets(kind_of[number], digits_of[number]) (shielded[number] ? ", shielded" : "") ", " how " " (how == "heard" ? "by " : "to ") who)
    handed_in = how == "handed" ? frames : 0
    handed_who = who
}

# What became of a packet stands in the comment of the frame where it was posted.
function became(number, text) { if (number in posted_in) comment_of[posted_in[number]] = comment_of[posted_in[number]] "; " text }

function entry(n, word,    text) {
    if (sort == "hub") return
    if (sort == "claims") {
        if (word == "advert") { interface_of($3); named[substr($4, 97, 32)] = $3; frame(n, $3, outbound, $4, "the claim of " $3 " on " $2) }
        if (word == "answer") frame(n, $2, outbound, $3, "the answer of " $2)
        if (word == "solicit") frame(n, "asker", outbound, $3, "asked on " $2)
        return
    }
    note_tokens(word)
    if (word == "at") { moment = $2; handed_in = 0 }
    else if (word == "sent") posts(n, $3, stands_on($3), $6)
    else if (word == "injected") posts(n, $3, $4, $6)
    else if (word == "handed") { if (digits_of[$2] != "") arrives(n, $2, $3, "handed") }
    else if (word == "heard") arrives(n, $2, $3, "heard")
    else if (word == "gone") { became($2, "gone, " explained($3)); handed_in = 0 }
    else if (word == "lost") { became($2, "lost"); handed_in = 0 }
    else {
        follow(word)
        text = says(word)
        if (word == "origin" || word == "forged") text = word " " $2 (word == "origin" ? " " $3 " " $4 : "")
        if (handed_in && teller == handed_who && text != "") comment_of[handed_in] = comment_of[handed_in] "; " text
    }
}

# Who holds what, stands where and listens.
function follow(word) {
    if (word == "claimed") {
        interface_of($2)
        claimed_on[$4] = $3
        if (!($2 in first_link)) { first_link[$2] = $3; if (!($4 in named)) named[$4] = $2 }
        if (!($4 in named)) named[$4] = ($4 ~ /fdfffffffffffffe$/ ? "agents" : $2) ($3 == "-" ? "" : "." $3)
    }
    else if (word == "moved") { interface_of($2); link_now[$2] = $3 == "-" ? "" : $3 }
    else if (word == "listening") { interface_of($2); listens[$2, $3] = 1 }
    else if (word == "deafened") delete listens[$2, $3]
}

# Names in the order of addresses.
function names_block(    address, list, count, i, j, swap, body, digits) {
    for (address in named) list[++count] = address
    for (i = 2; i <= count; i++) for (j = i; j > 1 && list[j] < list[j - 1]; j--) { swap = list[j]; list[j] = list[j - 1]; list[j - 1] = swap }
    for (i = 1; i <= count; i++) {
        digits = list[i] bytes_of(named[list[i]]) "00"
        body = body "0002" word16(length(digits) / 2) filled(digits)
    }
    return block("00000004", body "00000000")
}

function finish(    i, j, size, text) {
    # big-endian, version 1.0, of no length that is told
    lines_of_digits(block("0a0d0d0a", "1a2b3c4d" "00010000" "ffffffffffffffff" option(4, bytes_of("tools/trace2pcapng of mip")) "00000000"))
    for (i = 0; i < interfaces; i++)
        lines_of_digits(block("00000001", word16(linktype) "0000" "00040000" option(name_option, bytes_of(name_at[i])) \
            option(description_option, bytes_of(name_at[i] " of a trace of mip")) option(resolution_option, "06") "00000000"))
    lines_of_digits(names_block())
    for (i = 1; i <= frames; i++) {
        size = word32(length(frame_digits[i]) / 2)
        lines_of_digits(block("00000006", frame_head[i] size size filled(frame_digits[i]) option(comment_option, bytes_of(comment_of[i])) \
            option(flags_option, word32(direction_of[i])) "00000000"))
    }
}

function lines_of_digits(digits,    i) { for (i = 1; i <= length(digits); i += 60) emit(substr(digits, i, 60)) }
