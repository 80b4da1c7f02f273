# A table: a column a field, and empty where an entry has no such field.
BEGIN {
    columns = split("moment entry who packet kind inside shield link address other home number careof sequence end kept home_index careof_index " \
        "home_test careof_test home_token careof_token status why source destination protocol valid preferred layer port bytes meaning", column, " ")
    for (i = 1; i <= columns; i++) head = head (i > 1 ? "," : "") column[i]
    emit(head)
}

# What a status, a reason or a cause means, without commas.
function in_other_words(word) {
    if (word == "denied") return meaning($4)
    if (word == "refused") return meaning($3)
    if (word == "forged") return cause_in_words($2)
    if (word == "gone" || word == "unsent") return why_in_words[$3]
    if (word == "dropped") return why_in_words[sort == "hub" ? $3 : $4]
    return ""
}

function entry(n, word,    name, count, i, cell, out) {
    note_tokens(word)
    if (word == "at") moment = $2
    count = split(columns_of[(sort == "" ? "trace" : sort), word], name, " ")
    for (i = 2; i <= count; i++) cell[name[i]] = $i
    cell["moment"] = moment
    cell["entry"] = word
    if (word == "sent" || word == "injected") {
        cell["inside"] = in_brackets($5, $6)
        gsub(/[ ()]/, "", cell["inside"])
    }
    cell["meaning"] = in_other_words(word)
    gsub(/,/, ";", cell["meaning"])
    for (i = 1; i <= columns; i++) out = out (i > 1 ? "," : "") cell[column[i]]
    emit(out)
}

function finish() {}
