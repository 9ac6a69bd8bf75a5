# Draws a script as a sequence chart, in SVG: a column a party, time downwards. Consecutive deliveries of one message to
# replicas share a row, and so do consecutive replies to one client that count.

function escaped(s) {
    if (s ~ /[^ -~]/) s = as_text(s)
    gsub(/&/, "\\&amp;", s)
    gsub(/</, "\\&lt;", s)
    gsub(/>/, "\\&gt;", s)
    return s
}

# Bytes as XML takes them: UTF-8 as it stands, any other byte as Latin-1, and a blank for a control character.
function as_text(s,    i, c, n, out) {
    for (i = 1; i <= length(s); i += n) {
        c = code(s, i)
        n = c < 128 ? 1 : sequence(s, i, c)
        if (n == 0) { out = out latin(c); n = 1 }
        else out = out (c < 32 || c == 127 ? " " : substr(s, i, n))
    }
    return out
}

# The byte at a place, 0 for one that no string can hold.
function code(s, i) { return index(every_byte, substr(s, i, 1)) }

# The length of the UTF-8 sequence at a place that begins with a byte above 127; 0 where there is none that XML takes.
function sequence(s, i, c,    n, k, second) {
    n = c < 194 ? 0 : c < 224 ? 2 : c < 240 ? 3 : c < 245 ? 4 : 0
    for (k = 1; k < n; k++) if (code(s, i + k) < 128 || code(s, i + k) > 191) return 0
    second = n > 2 ? code(s, i + 1) : 160
    if (c == 224 && second < 160 || c == 237 && second > 159 || c == 240 && second < 144 || c == 244 && second > 143) return 0
    return c == 239 && second == 191 && code(s, i + 2) > 189 ? 0 : n
}

# A Latin-1 character, in UTF-8.
function latin(c) { return c < 160 ? "?" : substr(every_byte, 192 + int(c / 64), 1) substr(every_byte, 128 + c % 64, 1) }

function draw(s) { drawn[++drawings] = s }
function write(class, x, at, s) { draw("<text class=\"" class "\" x=\"" x "\" y=\"" at "\">" escaped(s) "</text>") }
function stroke(class, x1, x2, at) { draw("<path class=\"" class "\" d=\"M" x1 " " at "H" x2 "\"/>") }
function head(class, x, at, way) { draw("<path class=\"" class "\" d=\"M" x " " at "l" (-9 * way) " -4v8z\"/>") }
function cross(x, at) { draw("<path class=\"lost\" d=\"M" x - 5 " " at - 5 "l10 10m0 -10l-10 10\"/>") }

# A sentence over the whole width, cut into rows.
function caption(class, s,    word, words, i, row) {
    words = split(s, word, " ")
    y += 10
    for (i = 1; i <= words; i++) {
        if (row != "" && length(row) + length(word[i]) >= room) { caption_row(class, row); row = "" }
        row = row == "" ? word[i] : row " " word[i]
        for (; length(row) > room; row = substr(row, room + 1)) caption_row(class, substr(row, 1, room))
    }
    caption_row(class, row)
    y += 4
}

function caption_row(class, s) {
    y += 18
    draw("<rect class=\"paper\" x=\"0\" y=\"" y - 14 "\" width=\"" width "\" height=\"19\"/>")
    write(class, edge, y, s)
}

# Where something w wide starts that is to stand at x: further left if it does not fit.
function start(x, w) {
    if (x + w > width - 4) x = width - 4 - w
    return x < 4 ? 4 : x
}

function wide(s) { return 6.5 * length(s) }

# A note that ends at x, or where it ends if it starts at the left edge.
function write_up_to(x, at, s) {
    if (x - wide(s) < 4) write("note", 4, at, s)
    else write("note end", x, at, s)
}

# A box on a party's line, with one line or two.
function box(class, party, s, second,    x, w) {
    y += 28
    w = 14 + 7.3 * (length(s) > length(second) ? length(s) : length(second))
    x = start(place[party] - 14, w)
    draw("<rect class=\"" class "\" x=\"" x "\" y=\"" y - 16 "\" width=\"" w "\" height=\"" (second == "" ? 22 : 38) "\" rx=\"4\"/>")
    write("in", x + 7, y - 1, s)
    if (second == "") return
    y += 16
    write("in", x + 7, y - 1, second)
}

function column(party) { return party in place ? place[party] : edge }

# ---- what takes part, and what arrives: read before anything is drawn

function note_party(party) {
    if (party == "" || (party in listed)) return
    listed[party] = 1
    if (substr(party, 1, 7) == "replica") replicas = replicas "," party
    else clients = clients "," party
}

# The names of a list in order of their numbers.
function sorted(list, out,    word, words, i, j, t) {
    words = split(substr(list, 2), word, ",")
    for (i = 2; i <= words; i++)
        for (j = i; j > 1 && id(word[j]) < id(word[j - 1]); j--) { t = word[j]; word[j] = word[j - 1]; word[j - 1] = t }
    for (i = 1; i <= words; i++) out[i] = word[i]
    return words
}

function id(party) { return substr(party, index(party, " ") + 1) + 0 }

function survey(    n) {
    for (n = 1; n <= lines; n++) {
        take(n)
        count_meaningless(n)
        if (says == "unread") continue
        if (says == "new") section++
        if (says == "ready" && call == "replica" || begins_operation(call) || call == "to-client") note_party(whom)
        if (number_of(handed)) arrives[section, number_of(handed), whom] = 1
    }
    section = 0
    forget()
}

# Clients stand left, replicas right.
function lay_out(    i, c) {
    c = sorted(clients, party)
    replica_count = sorted(replicas, replica)
    for (i = 1; i <= replica_count; i++) party[c + i] = replica[i]
    parties = c + replica_count
    edge = 16
    width = 940
    gap = (width - 2 * edge) / (parties > 0 ? parties : 1)
    if (gap < 120) { gap = 120; width = 2 * edge + gap * parties }
    room = int((width - 2 * edge) / 7)
    for (i = 1; i <= parties; i++) place[party[i]] = edge + gap * (i - 0.5)
}

# ---- rows

# What a delivered message is called: its number, kind and timestamp. One that nobody sent, given as bytes, has no number.
function label(hex, number) {
    return number ? number " " named(hex) : kind(hex) ? named(hex) " as bytes" : "bytes"
}

# A message on its way to the replicas that are reached; those that it never reaches are crossed out in its first row.
function to_replicas(hex, number,    from, far, i, at, below, end) {
    y += 28
    from = far = column(source(hex))
    for (i = 1; i <= reached; i++) if (column(reach[i]) > far) far = column(reach[i])
    stroke(number ? "way" : "bytes", from, far, y)
    write("label", from + 8, y - 5, label(hex, number))
    for (i = 1; i <= reached; i++) {
        at = column(reach[i])
        head(outcome[i] ~ /^refused/ ? "bad" : "head", at, y, from <= at ? 1 : -1)
        if (outcome[i] == "") continue
        below += end == "" ? 8 : at - wide(outcome[i]) < end ? 13 : 0
        write_up_to(at - 4, y + 6 + below, outcome[i])
        end = at
    }
    if (number && kind(hex) <= 4 && !crossed[section, number]++) losses(hex, number, far)
    y += below
}

function losses(hex, number, end,    i, at) {
    for (i = 1; i <= replica_count; i++) {
        at = place[replica[i]]
        if (((section, number, replica[i]) in arrives) || ((hex, replica[i]) in spared)) continue
        if (at > end) { stroke("gone", end, at, y); end = at }
        cross(at, y)
    }
}

# Replies that reach a client together.
function to_client(client, refusal,    i, far, at) {
    y += 28
    at = far = column(client)
    for (i = 1; i <= reached; i++) if (column(reach[i]) > far) far = column(reach[i])
    stroke(shows[reached] ~ /bytes$/ ? "bytes" : "way", at, far, y)
    head(refusal == "" ? "head" : "bad", at, y, -1)
    for (i = 1; i <= reached; i++) {
        draw("<circle cx=\"" column(reach[i]) "\" cy=\"" y "\" r=\"3\"/>")
        write(column(reach[i]) > at ? "label end" : "label", column(reach[i]) + (column(reach[i]) > at ? -7 : 12), y - 5, shows[i])
    }
    if (refusal == "") return
    write("note", start(at + 12, wide(refusal)), y + 14, refusal)
    y += 8
}

# ---- the rows of a script, line after line

# The line of the last delivery in the row that starts at line n.
function replica_row(n,    hex, word, last) {
    hex = message
    word = handed
    reached = 0
    do {
        reach[++reached] = whom
        outcome[reached] = says == "sent" ? lost_reply(said_number) : said
        last = column(whom)
        take(++n)
    } while (n <= lines && call == "to-replica" && handed == word && column(whom) > last)
    to_replicas(hex, number_of(word))
    return n - 1
}

# What becomes of a reply: nothing to say if some client gets it.
function lost_reply(number,    i) {
    for (i = 1; i <= parties; i++) if ((section, number, party[i]) in arrives) return ""
    return number " " kind_name[kind(sent[number])] " lost"
}

# Whether the reply that is handed over fits into the row, behind one from a replica in this column.
function fits(last) { return column(source(message)) > last + 6 + 7 * length(label(message, number_of(handed))) }

function client_row(n,    client, refusal, k, last) {
    client = whom
    k = kind(message)
    reached = 0
    do {
        reach[++reached] = source(message)
        shows[reached] = label(message, number_of(handed))
        if (says == "refused") refusal = said
        else if (k == 8) showed[client, source(message)] = shown(message)
        if (says != "counted") { n++; break }
        last = column(source(message))
        take(++n)
    } while (n <= lines && call == "to-client" && whom == client && kind(message) == k && says != "refused" && fits(last))
    take(n - 1)
    to_client(client, refusal)
    if (says == "sent") sends(client)
    if (says == "done") box("done", client, "done " said_word for_register(operates[client]) ": " in_words(said_card), vouched(said_signers))
    if (says == "ended") box("done", client, "ended")
    return n - 1
}

function vouched(signers) { return vouchers(signers) == "" ? "" : "vouched for by replicas " vouchers(signers) }

# A client sends a message: one that reaches nobody has its row here. In a write-back, replicas that showed the timestamp are
# sent nothing.
function sends(client,    i, hex) {
    hex = sent[said_number]
    for (i = 1; i <= replica_count; i++)
        if (reading[client] && kind(hex) == 3 && showed[client, replica[i]] == shown(hex)) spared[hex, replica[i]] = 1
    for (i = 1; i <= replica_count; i++) if ((section, said_number, replica[i]) in arrives) return
    reached = 0
    to_replicas(hex, said_number)
}

function begins(client,    what, i) {
    what = call for_register(asked)
    if (call == "write") what = what (asked == 1 ? " " : ": ") in_words(text)
    box(says == "refused" ? "wrong" : "begin", client, what (says == "refused" ? ": " said : ""))
    if (says != "sent") return
    reading[client] = call == "read"
    operates[client] = asked
    for (i = 1; i <= replica_count; i++) delete showed[client, replica[i]]
    sends(client)
}

# An order, or a written proof that is handed over.
function takes(what, at) { box(says == "refused" ? "wrong" : "disk", at, what ": " (says == "refused" ? said : taking())) }

# A comment of the user's, without its marks.
function remark(s) {
    sub(/^#* */, "", s)
    if (s != "") caption("says", s)
}

# A line of another form than a run's, as it stood there.
function unmarked(s) {
    if (before) sub(/^[?] /, "", s)
    return s
}

function rows(    n) {
    for (n = 1; n <= lines; n++) {
        take(n)
        if (is_comment(line[n])) remark(line[n])
        else if (says == "new") { section++; caption("says", "All parties and messages are set aside.") }
        else if (says == "unread") caption("unread", short(unmarked(line[n])) ": " said)
        else if (call == "to-replica") n = replica_row(n)
        else if (call == "to-client") n = client_row(n)
        else if (begins_operation(call)) begins(whom)
        else if (call == "order") takes("order", whom)
        else if (call == "hand") takes("written proof", whom)
        else if (call == "client" && again) box("disk", whom, "made again")
        else if (call == "keep") box("disk", whom, "image taken")
        else if (call == "restore") box("disk", whom, "back from its image")
        else if (says == "refused") caption("unread", short(line[n]) ": " said)
    }
}

function style() {
    print "<style>"
    print "text{font:12px Helvetica,Arial,'DejaVu Sans',sans-serif;fill:#1b1b1b}"
    print ".says{font-size:13px;fill:#444}.unread{font-size:13px;fill:#b3261e}.name{font-weight:bold;text-anchor:middle}"
    print ".label,.note{paint-order:stroke;stroke:#fff;stroke-width:4px}.end{text-anchor:end}.note{fill:#b3261e}"
    print ".life{stroke:#c9c9c9}.way{stroke:#1b1b1b;fill:none}.bytes{stroke:#1b1b1b;stroke-dasharray:6 4;fill:none}"
    print ".gone{stroke:#b3261e;stroke-dasharray:2 4;fill:none}.lost{stroke:#b3261e;stroke-width:2;fill:none}.bad{fill:#b3261e}"
    print ".paper{fill:#fff}.begin{fill:#e6eefb;stroke:#3b6fb6}.done{fill:#e2f3e4;stroke:#2e7d32}"
    print ".wrong{fill:#fdecea;stroke:#b3261e}.disk{fill:#fff3d6;stroke:#b07d00}.party{fill:#f1f1f1;stroke:#8a8a8a}"
    print "</style>"
}

function chart(    i, bottom) {
    y = 46
    rows()
    y = bottom = y + 18
    caption("says", "A message is its number, kind and timestamp" (registers ? ", and r2 if it is for register 2" : "") \
        ". A red cross: it never arrives there. Red: refused, with the rule's number. Dashed: handed over as bytes.")
    print "<svg xmlns=\"http://www.w3.org/2000/svg\" viewBox=\"0 0 " width " " y + 8 "\" width=\"" width "\" height=\"" y + 8 "\">"
    style()
    print "<rect class=\"paper\" width=\"" width "\" height=\"" y + 8 "\"/>"
    for (i = 1; i <= parties; i++) {
        print "<path class=\"life\" d=\"M" place[party[i]] " 36V" bottom "\"/>"
        print "<rect class=\"party\" x=\"" place[party[i]] - 36 "\" y=\"14\" width=\"72\" height=\"22\" rx=\"4\"/>"
        print "<text class=\"name\" x=\"" place[party[i]] "\" y=\"29\">" party[i] "</text>"
    }
    for (i = 1; i <= drawings; i++) print drawn[i]
    print "</svg>"
}

BEGIN {
    section = 0
    before_register = " r"
    for (i = 1; i < 256; i++) every_byte = every_byte sprintf("%c", i)
}

END {
    survey()
    lay_out()
    chart()
    complain_of_meaningless()
    exit cut
}
