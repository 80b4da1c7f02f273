# Which lines of two texts go together, from what `diff` writes of them: lines `A B`, 0 where there is none beside it. `count_a` and `count_b` are how many there are.
BEGIN { a = b = 1 }

function to_there(last_a) { while (a <= last_a) print a++, b++ }

function to_end(last_a, last_b) {
    while (a <= last_a || b <= last_b) print (a <= last_a ? a++ : 0), (b <= last_b ? b++ : 0)
}

/^[0-9]/ {
    match($0, /[acd]/)
    how = substr($0, RSTART, 1)
    split(substr($0, 1, RSTART - 1), left, ",")
    split(substr($0, RSTART + 1), right, ",")
    if (!index(substr($0, 1, RSTART - 1), ",")) left[2] = left[1]
    if (!index(substr($0, RSTART + 1), ",")) right[2] = right[1]
    to_there(how == "a" ? left[1] : left[1] - 1)
    to_end(how == "a" ? 0 : left[2], how == "d" ? 0 : right[2])
}

END { to_end(count_a, count_b) }
