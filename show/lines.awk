# Prints a script with the answer beside each line. A message is its number, kind, timestamp, register if it is another than 1,
# sender and receiver; with whole=1 it is its bytes. An order that is taken is the client that it names, and a written proof the
# timestamp that its client shows from then on. With from=N only the answers from line N on are printed.

# A word, padded to a column.
function padded(s) { while (length(s) < 28) s = s " "; return s }

END {
    for (n = 1; n <= lines; n++) {
        take(n)
        count_meaningless(n)
        if (n < from) continue
        if (!whole && says == "sent") {
            hex = sent[said_number]
            to = kind(hex) > 4 ? source(message) : "the replicas"
            said = "sent " said_number " " named(hex) ", " source(hex) " to " to
        }
        if (says == "taken") said = "taken, " taking()
        if (is_comment(line[n])) { if (!from) print line[n] }
        else if (from) print "    " said
        else print padded(whole ? line[n] : short(line[n])) " " said
    }
    if (!from) complain_of_meaningless()
    exit cut
}
