# What a script and its answers mean, for lines.awk and chart.awk. Five files are read first, `part` says which: the tables of
# refusals and of a script's lines, for their words, the script, the same as the program read it, of which orders and written proofs
# are kept, and its answers, each in the line with the number of its call.

part == "refusals" && in_table("| | in short |") { split($0, cell, " *[|] *"); refusal_words[cell[2]] = cell[3] }
part == "forms" && in_table("| line of a script |") { note_forms($0) }
part == "script" { line[FNR] = $0; lines = FNR }
part == "spelled" && $1 == "order" { order_of[FNR] = $3 }
part == "spelled" && $1 == "hand" { proof_of[FNR] = $4 }
part == "answers" { answer[FNR] = $0; answers = FNR }

BEGIN {
    split("READ-STAMP PREPARE WRITE READ STAMP PREPARED WRITTEN CARD", kind_name, " ")
    split("service spare lathe scrapped", state_name, " ")
    split("31 28 31 30 31 30 31 31 30 31 30 31", month_days, " ")
    before_register = " for register "
}

# The program plays the front of an input that is too long, and says so behind the last answer.
END {
    if (answer[answers] ~ /^the input is longer than /) {
        cut = 1
        lines = answers - 1
        complain(answer[answers] ", behind line " lines - before)
    }
}

# Whether this row is in the table with that head.
function in_table(head) {
    table = substr($0, 1, 1) == "|" && (table || substr($0, 1, length(head)) == head)
    return table
}

# `before` lines stand in front of the user's own.
function complain(s) { print "play: " s >"/dev/stderr" }

# ---- bytes

# The number that the bytes from a place on are, counted from 0, in the hex of a message or card.
function value(hex, at, bytes,    i, n) {
    for (i = 2 * at + 1; i <= 2 * (at + bytes); i++)
        n = 16 * n + index("0123456789ABCDEF", toupper(substr(hex, i, 1))) - 1
    return n
}

function bit(map, b) {
    while (b-- > 0) map = int(map / 2)
    return map % 2
}

# Long hex words, shortened.
function short(s,    word, words, i, out) {
    if (length(s) <= 40) return s
    words = split(s, word, " ")
    for (i = 1; i <= words; i++)
        out = out (i > 1 ? " " : "") (length(word[i]) > 40 ? substr(word[i], 1, 16) ".." : word[i])
    return out
}

# ---- messages

function timestamp(hex, at) { return sprintf("%.0f.%d", value(hex, at, 4), value(hex, at + 4, 1)) }

# The kind of a message, 0 for bytes that have none.
function kind(hex,    k) {
    if (length(hex) < 8 || value(hex, 0, 2) % 4 != 3) return 0
    k = value(hex, 2, 1)
    return k in kind_name ? k : 0
}

function sender(hex) { return value(hex, 3, 1) }

# The timestamp that a message asks for or shows; none for the two that only ask.
function shown(hex,    map, k, at) {
    map = value(hex, 0, 2)
    k = kind(hex)
    if (k == 0 || k == 1 || k == 4) return ""
    at = 4
    if (bit(map, 2)) at += 8
    if (bit(map, 3)) return timestamp(hex, at)
    if (bit(map, 5)) at += 1 + value(hex, at, 1)
    return bit(map, 6) ? timestamp(hex, at) : "0.0"
}

# The register that a message is for, the byte before its signature; none for one without that field.
function register(hex,    bytes) {
    bytes = length(hex) / 2
    return bytes > 64 && bit(value(hex, 0, 2), 9) ? value(hex, bytes - 65, 1) : ""
}

# The words for a register that is another than 1; `registers` notes that there is one.
function for_register(r) {
    if (r == "" || r == 1) return ""
    registers = 1
    return before_register r
}

# Kind and timestamp of a message, and its register.
function named(hex) {
    if (!kind(hex)) return "bytes"
    return kind_name[kind(hex)] (shown(hex) == "" ? "" : " " shown(hex)) for_register(register(hex))
}

# What was taken: the client that an order withdraws, or the timestamp of a written proof and for which register it is shown.
function taking() {
    if (call == "order") return "client " value(order, 2, 1) " is withdrawn"
    return whom " shows " timestamp(proof, 0) " from now on" for_register(asked)
}

# The party that sent a message, by what it says itself.
function source(hex) { return (kind(hex) > 4 ? "replica " : "client ") sender(hex) }

# ---- lines and their answers

function begins_operation(call) { return call == "write" || call == "read" || call == "view" }

function sets_up(call) { return call == "replica" || call == "client" || call == "viewer" }

# A viewing client stands among the clients: its number tells it from a writer.
function role(name) { return name == "viewer" ? "client" : name }

function is_comment(s) { return s == "" || substr(s, 1, 1) == "#" }

# Takes a line apart: call and whom it is about, by role in `whom` and by its own name in `named_party`, the register of a
# beginning or a written proof (asked), the card of a write (text), the message that is handed over, the bytes of an order or a
# written proof; and its answer. Remembers what was sent, and which parties are set up; `again` is whether this one was before.
function take(n,    word, from) {
    split(line[n], word, " ")
    from = word[1] == "lent" ? 2 : 0
    call = word[from + 1]
    whom = ""
    message = ""
    handed = ""
    if (call == "to-replica" || call == "to-client" || call == "to-viewer") {
        about(substr(call, 4), word[from + 2])
        call = "to-" role(substr(call, 4))
        handed = word[from + 3]
        message = substr(handed, 1, 1) != "@" ? handed : number_of(handed) in sent ? sent[number_of(handed)] : ""
    } else if (begins_operation(call))
        about(call == "view" ? "viewer" : "client", word[from + 2])
    else if (call == "order")
        about("replica", word[from + 2])
    else if (call == "hand")
        about("client", word[from + 2])
    else if (call == "keep" || call == "restore")
        about(word[from + 2], word[from + 3])
    else if (sets_up(call))
        about(call, word[from + 3])
    order = order_of[n]
    proof = proof_of[n]
    order_name = call == "order" ? word[from + 3] : ""
    asked = begins_operation(call) || call == "hand" ? word[from + 3] : ""
    text = call == "write" ? word[from + 4] : ""
    said = answer[n]
    split(said, word, " ")
    says = word[1]
    if (says == "new") forget()
    again = says == "ready" && (named_party in stands)
    if (says == "ready") stands[named_party] = 1
    if (says == "kept") kept[named_party] = 1
    if (says == "sent") {
        said_number = word[2]
        sent[said_number] = word[3]
    } else
        said_number = 0
    said_word = word[2]
    said_card = word[3]
    said_signers = word[4]
    if (says == "refused") said = said ": " refusal_words[said_word]
    if (says == "unread") said = is_comment(line[n]) ? "" : said ": " meaningless(line[n])
}

function forget() {
    split("", sent)
    split("", stands)
    split("", kept)
}

# The number of a message that is named by it.
function number_of(word) { return substr(word, 1, 1) == "@" ? substr(word, 2) + 0 : 0 }

function about(name, number) {
    if (number == "") return
    if (number ~ /^[0-9]+$/) number += 0
    whom = role(name) " " number
    named_party = name " " number
}

# ---- why a line has no meaning

# The forms of lines, by their first words, from a row of their table.
function note_forms(row,    cell, piece, pieces, i, word) {
    split(row, cell, "|")
    pieces = split(cell[2], piece, "`")
    for (i = 2; i <= pieces; i += 2) { split(piece[i], word, " "); form[word[1]] = piece[i] }
}

function meaningless(s,    word) {
    if (before && s ~ /^[?] /) return "no line of a run has this form"
    if (s ~ /^ | $|  |\t/) return "one space stands between words, and none around them"
    split(s, word, " ")
    if (!(word[1] in form)) return "no line begins with " short(word[1])
    if (whom != "" && !sets_up(call) && !(named_party in stands)) return named_party " is not set up"
    if (call == "restore" && !(named_party in kept)) return "nothing is kept of " named_party
    if (handed ~ /^@[0-9]+$/ && !(number_of(handed) in sent)) return "message " number_of(handed) " was not sent"
    if (number_of(handed) > 200) return "only the first 200 messages have numbers"
    if (call == "order" && word[1] == "lent") return "no output is lent with an order"
    if (call == "hand" && word[1] == "lent") return "no output is lent with a written proof"
    if (order == "?") return "there is no file " order_name " that can be read"
    if (length(order) > 4096) return "an order has at most 2,048 bytes"
    if (length(proof) > 4096) return "a written proof has at most 2,048 bytes here"
    return "the form is " (word[1] == "lent" && word[3] in form ? "lent N " form[word[3]] : form[word[1]])
}

# How many lines have none, and which is the first.
function count_meaningless(n) { if (says == "unread" && said != "" && !unread++) first_unread = n - before }

function complain_of_meaningless() {
    if (unread) complain(unread (unread == 1 ? " line has" : " lines have") " no meaning (unread), the first is line " first_unread)
}

# ---- cards

function tenths(hex, at) { return sprintf("%.1f", value(hex, at, 2) / 10) }

# The date of a day, 1 January 2000 being 0.
function date(day,    year, month, span) {
    for (year = 2000; day >= (span = 365 + is_leap(year)); year++) day -= span
    for (month = 1; day >= (span = month_days[month] + (month == 2 && is_leap(year))); month++) day -= span
    return sprintf("%d-%02d-%02d", year, month, day + 1)
}

function is_leap(year) { return year % 4 == 0 && (year % 100 != 0 || year % 400 == 0) }

# A card in words; its hex where it is none.
function in_words(hex,    map, at, words, s) {
    map = value(hex, 0, 2)
    if (length(hex) < 4 || map > 127 || bit(map, 0) != bit(map, 1)) return hex
    if (map == 0) return "an empty card"
    at = 2
    if (bit(map, 0)) { words = words ", " tenths(hex, at) "/" tenths(hex, at + 2) " mm"; at += 4 }
    if (bit(map, 2)) { words = words ", left flange " tenths(hex, at) " mm"; at += 2 }
    if (bit(map, 3)) { words = words ", right flange " tenths(hex, at) " mm"; at += 2 }
    if (bit(map, 4)) { words = words ", " value(hex, at, 4) " km"; at += 4 }
    if (bit(map, 5)) { s = value(hex, at, 1); words = words ", " (s in state_name ? state_name[s] : s); at++ }
    if (bit(map, 6)) { words = words ", measured " date(value(hex, at, 2)); at += 2 }
    return length(hex) == 2 * at ? substr(words, 3) : hex
}

# The replicas that vouch for a card, of the four hex digits of a done.
function vouchers(hex,    map, r, list) {
    map = value(hex, 0, 2)
    for (r = 1; r <= 16; r++) if (bit(map, r - 1)) list = list ", " r
    return substr(list, 3)
}
