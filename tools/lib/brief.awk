# A trace to read on a terminal: rows of moment, from, to, what and what became of it.
BEGIN {
    add_row("from", "to", "what", "what became of it")
    when[1] = "ms"
    good = "^(accepted|up|home|is registered|knows that .* has its)"
    poor = "^(denied|dropped|gone|lost|forged|is refused|cannot|restarts)"
}

function add_row(from, to, what, text) {
    rows_of_list++
    when[rows_of_list] = moment
    whence[rows_of_list] = from
    whither[rows_of_list] = to
    what_of[rows_of_list] = what
    became[rows_of_list] = text
}

# A packet: its number, its kind, what is in the tunnel, the shield.
function packet(number) {
    arrived[number] = 1
    return number " " kind_of[number] in_brackets(kind_of[number], digits_of[number]) (shielded[number] ? " +" : "")
}

# The words of an entry, shorter than in a chart.
function short_of(text) {
    sub(/^accepted [0-9]+,/, "accepted,", text)
    sub(/^denied [0-9]+,/, "denied,", text)
    sub(/^forged, cause/, "forged", text)
    sub(/^dropped [0-9]+,/, "dropped,", text)
    sub(/^up [0-9]+,/, "up,", text)
    gsub(/ is at /, " at ", text)
    gsub(/ until /, " to ", text)
    gsub(/ ms/, "", text)
    return text
}

# What a node says stands beside the packet that it was handed, the first of it; the rest below, and so does what it says unasked.
function told(who, text) {
    if (text == "") return
    if (rows_of_list && handed_to == who && who != "") {
        if (became[rows_of_list] == "") { became[rows_of_list] = text; return }
        add_row("", who, "", text)
    }
    else { handed_to = ""; add_row(who, "", "", text) }
}

# The event that wrote line `n`, where the schedule is given.
function event_of(n,    text) {
    if (events == "") return ""
    if (!events_read) {
        while ((getline text < schedule) > 0) event_text[++events_read] = text
        while ((getline text < events) > 0) event_at[++lines_read] = text
    }
    return ": " event_text[event_at[n]]
}

function entry(n, word,    text) {
    note_tokens(word)
    if (word == "at") { moment = $2; handed_to = ""; return }
    # what a node that stands alone sends goes out
    if (word == "sent" && $3 == "self") { add_row("self", "outside", packet($2), ""); handed_to = ""; return }
    if (word == "sent" || word == "injected" || word == "got") return
    if (word == "handed") { add_row(poster[$2], $3, packet($2), ""); handed_to = $3; return }
    if (word == "to") { add_row("hub", "port " $3, $2 " frame", ""); arrived[$2] = 1; handed_to = ""; return }
    if (word == "heard") { add_row(poster[$2], $3, packet($2), "hears"); handed_to = ""; return }
    if (word == "gone") { add_row(poster[$2], "", packet($2), "gone, " explained($3)); handed_to = ""; return }
    if (word == "lost") { add_row(poster[$2], "", packet($2), "lost"); handed_to = ""; return }
    if (word == "idle") { add_row("", "", "", "nothing changed" event_of(n)); handed_to = ""; return }
    if (sort == "hub" && word == "dropped") { add_row("", "hub", packet($2), "dropped, " explained($3)); return }
    if (word == "dropped" && !($3 in arrived)) arrived[$3] = 1
    text = short_of(says(word))
    told(teller, text)
}

function longest(list,    i, most) {
    for (i = 1; i <= rows_of_list; i++) if (length(list[i]) > most) most = length(list[i])
    return most + 0
}

function cut(text) { return length(text) > width ? substr(text, 1, width - 2) ".." : text }

function paint(text, became_of,    how) {
    if (!colour) return text
    how = became_of ~ good ? 32 : became_of ~ poor ? 31 : became_of == "hears" ? 33 : 0
    return how ? sprintf("%c[%dm%s%c[0m", 27, how, text, 27) : text
}

function finish(    i, form, text, missing) {
    form = "%" longest(when) "s  %-" longest(whence) "s  %-" longest(whither) "s  %-" longest(what_of) "s  %s"
    for (i = 1; i <= rows_of_list; i++) {
        text = sprintf(form, when[i], whence[i], whither[i], what_of[i], became[i])
        sub(/ +$/, "", text)
        emit(paint(cut(text), became[i]))
    }
    for (i = 0; i < posted; i++) if (!(i in arrived)) missing = missing " " i
    if (missing != "") emit(cut("never arrived:" missing))
}
