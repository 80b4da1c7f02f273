# The entries of a trace for tools/tracediff, a line each with tabs between: a shape for `diff`, by which entries of two traces go together; the moment; the sentence;
# the names of the fields; their values. A shape has no numbers and no bytes: a packet is told by its poster and its kind, so that it may have another number.

# Whether a field of this kind is part of the shape.
function is_shape(kind) { return kind ~ /^[nlaAtwcypes]$/ }

function shape_of(word,    kind, count, i, out) {
    count = split(row_of(), kind, " ")
    out = word
    for (i = 2; i <= count; i++) if (is_shape(kind[i])) out = out " " $i
    if (about in kind_of) out = out " " poster[about] " " kind_of[about] in_brackets(kind_of[about], digits_of[about])
    return out
}

function entry(n, word,    values, names, i) {
    if (word == "at") moment = $2
    note_tokens(word)
    text = words_of(word)
    values = word
    for (i = 2; i <= NF; i++) values = values " " $i
    names = columns_of[(sort == "" ? "trace" : sort), word]
    sub(/^[a-z]+/, "entry", names)
    emit(shape_of(word) "\t" moment "\t" text "\t" names "\t" values)
}

function finish() {}
