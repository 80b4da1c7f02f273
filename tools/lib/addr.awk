# Addresses of a schedule or a configuration as digits, and without comments; or with `back` those of such a text, a trace or a listing in their familiar form.
BEGIN {
    FS = "[ ]"
    split("mip seed start link agent correspondent mobile serve outsider run wait move advertise data inject probe bind tell listen deaf squat " \
        "yield deliver repeat lose carry restart refresh plan ask show settle at moved advertised claimed released taken listening deafened " \
        "careof sent injected heard handed gone lost idle home registered unregistered refused chosen prefixes made bound unbound accepted " \
        "origin forged denied dropped up unsent restarted row settled source destination hop class flow route proto message cookie index " \
        "token sequence flags lifetime status advice nonces number alternate authorization fault icmp body bad advert holds solicit answer silent claim free got to " \
        "self port route default payload release copies trace", list, " ")
    for (i in list) known[list[i]] = 1
    # where bytes stand that are no address
    bytes_at["data"] = 5
    bytes_at["inject"] = 4
    bytes_at["sent"] = bytes_at["injected"] = 6
    bytes_at["up"] = 7
    bytes_at["body"] = 2
    bytes_at["advert"] = 4
    bytes_at["solicit"] = bytes_at["answer"] = 3
    bytes_at["payload"] = 5
    # where a prefix stands
    prefix_at["link"] = prefix_at["advertise"] = 3
    prefix_at["advert"] = prefix_at["route"] = 2
}

function to_digits(n,    i, digits) {
    sub(/#.*/, "")
    if (/\r$/) { refuse(n, "it ends with CR LF, and lines end with LF alone: tr -d \"\\r\" takes the CR away"); return }
    sub(/[ \t]+$/, "")
    if ($0 == "") return
    for (i = 1; i <= NF; i++) {
        if ($i !~ /:/) continue
        if (i == prefix_at[$1] && $i !~ /\//) { refuse(n, "a prefix of 64 bits stands here, such as 2001:db8:1::/64, and not `" substr($i, 1, 60) "`"); return }
        digits = $i ~ /\// ? prefix_in_full($i) : in_full($i)
        if (digits == "") { refuse(n, "this is neither an address nor a prefix of 64 bits: `" substr($i, 1, 60) "`"); return }
        $i = digits
    }
    emit(numbers ? n : $0)
}

function to_familiar(n,    i) {
    if (!($1 in known)) { refuse(n, "no line of a schedule, a configuration, a trace or a listing has the word `" substr($1, 1, 60) "`"); return }
    i = prefix_at[$1]
    if (i && is_digits($i, 16)) $i = familiar_prefix($i)
    for (i = 2; i <= NF; i++) if (i != bytes_at[$1] && is_digits($i, 32)) $i = familiar($i)
    emit($0)
}

function line(n) { if (back) to_familiar(n); else to_digits(n) }
function finish() {}
