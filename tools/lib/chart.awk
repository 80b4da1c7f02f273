# A sequence chart as Mermaid or mscgen text: an arrow where a packet arrives, and notes.
BEGIN {
    count = split(only, chosen, ",")
    for (i = 1; i <= count; i++) wanted[chosen[i]] = 1
    moment += 0
}

# Whether the chart has this node or outsider, and this moment.
function is_in(name) { return only == "" || name in wanted }
function is_now() { return (begin == "" || moment >= begin + 0) && (end == "" || moment <= end + 0) }

function actor(name) {
    if (!(name in id)) {
        id[name] = "p" ++actors
        name_of[actors] = name
    }
    return id[name]
}

# A moment stands before what happens at it, and not where nothing does, as in most turns of a node.
function tell_moment() {
    if (untold != "") emit("at " untold)
    untold = ""
}

function note(name, text) {
    if (name == "" || no_notes || !is_now() || !is_in(name)) return
    tell_moment()
    emit(mscgen ? "    " actor(name) " note " actor(name) " [label=\"" text "\"];" : "    Note over " actor(name) ": " text)
}

# A packet's number and kind, with what is in the tunnel, and the shield.
function kind_in_words(number) { return kind_of[number] in_brackets(kind_of[number], digits_of[number]) (shielded[number] ? ", shielded" : "") }
function packet(number) { return "packet " number " (" kind_in_words(number) ")" }

function arrow(solid, from, to, text) {
    if (!is_now() || !is_in(from) || !is_in(to)) return
    tell_moment()
    if (mscgen) emit("    " actor(from) (solid ? " => " : " >> ") actor(to) " [label=\"" text "\"];")
    else emit("    " actor(from) (solid ? "->>" : "-->>") actor(to) ": " text)
}

function entry(n, word,    text) {
    note_tokens(word)
    if (word == "at") { moment = $2 + 0; untold = $2 }
    else if (word == "sent" || word == "injected") { if (is_in($3)) actor($3); if ($3 == "self") arrow(1, "self", "outside", $2 " " kind_in_words($2)) }
    else if (word == "handed") arrow(1, poster[$2], $3, $2 " " kind_in_words($2))
    else if (word == "heard") arrow(0, poster[$2], $3, $2 " " kind_in_words($2))
    else if (word == "to") arrow(1, "hub", "port " $3, $2 " frame")
    else if (word == "lost") note(sort == "hub" ? "hub" : poster[$2], packet($2) " is lost")
    else if (word == "gone") note(sort == "hub" ? "hub" : poster[$2], packet($2) " reaches nobody, " explained($3))
    else if (sort == "hub" && word == "dropped") note("hub", packet($2) " is dropped, " explained($3))
    else if (word != "idle" && word != "got") { text = says(word); note(teller, text) }
}

# Each participant that an arrow or a note names, then these in order; a moment stands over all of them.
function finish(    i, all, names) {
    if (mscgen) {
        print "msc {"
        for (i = 1; i <= actors; i++) names = names (i > 1 ? ", " : "") "p" i " [label=\"" name_of[i] "\"]"
        if (actors) print "    " names ";"
    } else {
        print "sequenceDiagram"
        for (i = 1; i <= actors; i++) print "    participant p" i " as " name_of[i]
    }
    all = actors > 1 ? "p1,p" actors : "p1"
    for (i = 1; i <= emitted; i++) {
        if (kept_lines[i] !~ /^at /) continue
        if (mscgen) kept_lines[i] = "    --- [label=\"" substr(kept_lines[i], 4) " ms\"];"
        else kept_lines[i] = actors ? "    Note over " all ": " substr(kept_lines[i], 4) " ms" : "    %% " kept_lines[i] " ms"
    }
    if (mscgen) emit("}")
}
