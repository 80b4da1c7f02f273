# The names of the fields of an entry, in their order, behind its word: columns_of[SORT, WORD].
BEGIN {
    rows = "at moment/moved who link/advertised who link address/claimed who link address/released who link address/taken who link address other/" \
        "listening who link/deafened who link/careof who careof/sent packet who shield kind bytes/injected packet who link kind bytes/" \
        "heard packet who/handed packet who/gone packet why/lost packet/idle/home who home careof sequence end/registered who address end/" \
        "unregistered who address/refused who status/chosen who address/prefixes who valid preferred/made who address packet home_token careof_token/" \
        "bound who address end/unbound who address/accepted who packet home number careof sequence end home_index careof_index/" \
        "origin home_test careof_test packet/forged why/denied who packet status/dropped who packet why/" \
        "up who packet source destination protocol bytes/unsent who why/restarted who/row who home number careof sequence end kept/settled who other why"
    names_columns(rows, "trace")
    names_columns("advert link who bytes/holds link address layer/solicit link bytes/answer who bytes/silent", "claims")
    names_columns("claim address port/free address/idle/advert link port/got packet/to packet port/dropped packet why/gone packet why/lost packet", "hub")
}

function names_columns(rows, of,    part, count, i, word) {
    count = split(rows, part, "/")
    for (i = 1; i <= count; i++) {
        word = part[i]
        sub(/ .*/, "", word)
        columns_of[of, word] = part[i]
    }
}
