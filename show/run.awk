# Turns a run of the player's language into a script: f = 1, replicas and clients 1 to 4, first nonce 1, register 1. A line of
# another form gets a mark in front, so that it is unread too; a comment gets one that leaves it a comment.
BEGIN {
    for (i = 1; i <= 4; i++) print "replica 1 " i
    for (i = 1; i <= 4; i++) print "client 1 " i " 1"
}
NR > 100 { exit }
/^w [1-4] [0-9A-F]+$/ && length($3) % 2 == 0 && length($3) <= 34 { print "write " $2 " 1 " $3; next }
/^r [1-4]$/ { print "read " $2 " 1"; next }
/^[hd] [1-4] [1-9][0-9]*$/ { print ($1 == "h" ? "to-replica " : "to-client ") $2 " @" $3 " +"; next }
/^$/ || /^#/ { print "#" $0; next }
{ print "? " $0 }
