# What is wrong with a line of the configuration of a node or a hub: the tables and sentences that differ from those of a schedule. `what` is `node` or `hub`.

function configures(word, names, kinds) { all_words = all_words " " word; names_of[word] = names; kinds_of[word] = kinds }

function config_tables() {
    if (what == "hub") {
        head_lines = 2
        configures("claim", "TURN ADDRESS PORT", "1-1000000 address 1-65535")
        configures("release", "TURN ADDRESS", "1-1000000 address")
        configures("advertise", "TURN PREFIX AGENT PORT", "1-1000000 prefix yes-or-no 1-65535")
        configures("copies", "TURN COUNT", "1-1000000 0-4")
        return
    }
    head_lines = 4
    configures("route", "PREFIX PORT", "prefix 1-65535")
    configures("default", "PORT", "1-65535")
    configures("agent", "ADDRESS PREFERENCE LIFE ROOM", "address " u16 " " u16 " 1-64")
    configures("correspondent", "ADDRESS ROOM", "address 1-64")
    configures("mobile", "ADDRESS AGENT", "address address-or-find")
    configures("serve", "ADDRESS", "address")
    configures("payload", "TURN ADDRESS PROTO HEX", "1-1000000 address 0-255 bytes-512")
}

# What is wrong with a line of the head, which has no word of the table.
function config_head() {
    if (bad == 1) return "the first line is `mip 1`"
    if (what == "hub") return "the second line is `port` and the port on which the hub listens, 1 to 65535"
    if (bad == 2) return "the second line is `seed` and 64 digits"
    if (bad == 3) return "the third line is `self` and the number of the node, 0 to 31"
    return "the fourth line is `port` and the port on which the node listens, 1 to 65535"
}

# The kinds of the fields of a line of the head.
function config_kinds() {
    if ($1 == "mip") return "1-1"
    if ($1 == "seed") return "seed"
    if ($1 == "self") return "0-31"
    return $1 == "port" ? "1-65535" : kinds_of[$1]
}

function config_end() {
    if (torn) return "the last line has no end of line (LF)"
    if (bad <= head_lines) return "the text ends here, and a line of the head is missing"
    return "the text ends here, and the line of the role is missing: agent, correspondent or mobile"
}

function config_form(    n) {
    if (bad <= head_lines) return config_head()
    if (!($1 in kinds_of)) return "no line of the configuration of a " what " begins with the word " quoted($1) meant($1, all_words)
    n = split(names_of[$1], unused, " ")
    if (NF - 1 != n) return "`" $1 "` has " n " fields, and here stand " NF - 1 ": " $1 " " names_of[$1]
    if ($1 == "route" || $1 == "default") return "`" $1 "` stands before the line of the role, and no line stands behind `default` but that of the role"
    if ($1 == "serve") return "`serve` stands behind the line of an agent"
    if ($1 == "payload") return "`payload` stands behind the line of a correspondent or a mobile"
    return "the role of the node stands in one line, and there is one before"
}

function config_limit() {
    if (what == "hub") return "1,000 lines stand before this one behind the head"
    if ($1 == "route") return "64 routes stand before this one"
    return $1 == "serve" ? "8 homes are served already" : "1,000 payloads stand before this one"
}

function config_clash() {
    if (what == "hub") return "the copies of turn " $2 " stand in a line before"
    if ($1 == "serve") return "the home is served already"
    return "the last 64 bits are those of the home agents' anycast address"
}

function config_sentence(    why) {
    if (bad > lines) return config_end()
    $0 = text
    why = why_layout()
    if (why != "") return why
    if (reason == "form") return config_form()
    if (reason == "limit") return config_limit()
    if (reason == "clash") return config_clash()
    return why_fields(config_kinds())
}
