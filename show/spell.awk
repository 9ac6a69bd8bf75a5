# Spells a script out for the program script_player, line for line: a replica without a key gets the zero key, an order that is the
# name of a file gets the file's bytes in hex, and a written proof such as 1.2/1,2,4 its bytes, with the zeros that stand for
# signatures in a script. A name is looked for in the folder of the environment's `order_folder`. What is no file that can be read
# becomes `?`, which has no meaning.
BEGIN {
    zero_key = "0000000500000004"
    while (length(zero_key) < 112) zero_key = zero_key "00"
    folder = ENVIRON["order_folder"] == "" ? "." : ENVIRON["order_folder"]
}
/^replica [^ ]+ [^ ]+$/ { print $0 " " zero_key; next }
/^order [^ ]+ [^ ]+$/ && !is_hex($3) { print $1 " " $2 " " bytes($3); next }
/^hand [^ ]+ [^ ]+ [0-9]+[.][0-9]+[/][0-9]+(,[0-9]+)* [^ ]+$/ { print $1 " " $2 " " $3 " " proof($4) " " $5; next }
{ print }

# A written proof: count.client, and the replicas of its entries.
function proof(word,    part, signer, count, i, zeros, hex) {
    split(word, part, "[./]")
    count = split(part[3], signer, ",")
    while (length(zeros) < 128) zeros = zeros "0"
    hex = sprintf("%04X%04X%02X%02X", int(part[1] / 65536), part[1] % 65536, part[2], count)
    for (i = 1; i <= count; i++) hex = hex sprintf("%02X", signer[i]) zeros
    return hex
}

function is_hex(word) { return word == "-" || word ~ /^[0-9A-Fa-f]+$/ && length(word) % 2 == 0 }

# Of a file that is too long for an order the front, which is too long as well.
function bytes(name,    command, row, hex) {
    if (substr(name, 1, 1) != "/") name = folder "/" name
    gsub(/'/, "'\\''", name)
    command = "f='" name "'; if [ -f \"$f\" ] && [ -r \"$f\" ]; then head -c 2049 \"$f\" | od -An -v -tx1; else echo '?'; fi"
    while ((command | getline row) > 0) hex = hex row
    close(command)
    gsub(/ /, "", hex)
    return hex == "" ? "-" : toupper(hex)
}
