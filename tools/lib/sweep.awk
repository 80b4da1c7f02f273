# One table of the rows of sweeps, `SEED MS EVENTS ENTRIES SENT HANDED UP ACCEPTED DENIED DROPPED FORGED`: of each word the sum, the mean, and the seed with the most.
BEGIN { columns = split("ms events entries sent handed up accepted denied dropped forged", word, " ") }

NF == columns + 1 && !($1 in seen) {
    seen[$1] = 1
    runs++
    if (runs == 1 || $1 < first) first = $1
    if (runs == 1 || $1 > last) last = $1
    for (i = 1; i <= columns; i++) {
        sum[i] += $(i + 1)
        if (runs == 1 || $(i + 1) > most[i] || $(i + 1) == most[i] && $1 < seed[i]) { most[i] = $(i + 1); seed[i] = $1 }
    }
}

END {
    if (!runs) { print "no run"; exit }
    printf "%d runs, seeds %d to %d\n", runs, first, last
    printf "%-8s  %14s  %12s  %10s  %s\n", "", "sum", "a run", "most", "its seed"
    for (i = 1; i <= columns; i++) printf "%-8s  %14.0f  %12.1f  %10.0f  %s\n", word[i], sum[i], sum[i] / runs, most[i], most[i] ? seed[i] : "-"
}
