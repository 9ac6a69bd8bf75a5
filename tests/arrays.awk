# Lists the arrays that Rattle files write, a line each: the number of entries, or `unknown`, then FILE:LINE. Of an array of arrays
# all entries count. An index, a part of a slice and a slice's type are brackets too, and are listed with their one entry.
#
#   awk -f arrays.awk FILE..      with paths from the folder that has crates/
#
# A length is worked out if it is a number or the name of a constant that is one, and what is repeated if it is a number, an array
# or the name of one. It fails if a file cannot be read, or the file of a module that it declares, or if its text is not understood.

function fail(words) {
    print "arrays: " words > "/dev/stderr"
    exit 1
}

# --- Tokens: those of a file are token[first[file]] to token[last[file]]. ---

# The length of the comment that the text starts with: comments nest.
function comment(text,    depth, n) {
    do {
        if (!match(text, /\/\*|\*\//))
            return 0
        depth += substr(text, RSTART, 1) == "/" ? 1 : -1
        n += RSTART + 1
        text = substr(text, RSTART + 2)
    } while (depth)
    return n
}

# Where the clause begins that a bracket opens, as `ensures`, `requires*` or `ensures low`; 0 for another bracket.
function clause(    i) {
    i = tokens
    if (token[i] ~ /^[A-Za-z_]/ && token[i] !~ /^(requires|ensures)$/) i--
    if (token[i] == "*") i--
    return token[i] ~ /^(requires|ensures)$/ ? i : 0
}

# Contracts and ghost imports are the prover's, and are left out with the words before them.
function put(word, where) {
    if (contract)
        contract += (word == "{") - (word == "}")
    else if (ghost)
        ghost = word != ";"
    else if (word == "{" && clause()) {
        tokens = clause() - 1
        contract = 1
    } else if (word == "use" && token[tokens] == "ghost") {
        tokens--
        ghost = 1
    } else {
        token[++tokens] = word
        place[tokens] = where
    }
}

# The length of the first token of the text, or of what is none.
function token_length(text) {
    if (text ~ /^\/\*/)
        return comment(text)
    if (match(text, /^\/\/[^\n]*/) || match(text, /^[ \t\r\n]+/))
        return RLENGTH
    if (match(text, /^b?"([^"\\]|\\(.|\n))*"/) || match(text, /^b'(\\x..|\\.|[^\\])'/))
        return RLENGTH
    if (match(text, /^[0-9A-Za-z_]+/) || match(text, /^::/))
        return RLENGTH
    return 1
}

# Comments are left out. A byte is a number.
function read_tokens(file, text,    line, n, word) {
    for (line = 1; text != ""; line += gsub(/\n/, "", word)) {
        n = token_length(text)
        word = substr(text, 1, n)
        text = substr(text, n + 1)
        if (word == "" || word == "\"" || (word == "br" && text ~ /^["#]/))
            fail(file ":" line ": a comment or a string that this does not understand")
        if (word !~ /^([ \t\r\n]|\/[\/*])/)
            put(word ~ /^b'/ ? "0" : word, file ":" line)
    }
}

# closing[i] is the token that closes the bracket which token i opens.
function pair_brackets(file,    i, open, depth) {
    for (i = first[file]; i <= last[file]; i++)
        if (token[i] ~ /^[([{]$/)
            open[++depth] = i
        else if (token[i] ~ /^[])}]$/) {
            if (!depth || index("([{", token[open[depth]]) != index(")]}", token[i]))
                fail(place[i] ": a bracket that closes none")
            closing[open[depth--]] = i
        }
    if (depth || contract || ghost)
        fail(file ": a bracket, a contract or an import without an end")
}

# Whether there is such a file.
function read(file,    text, line, status) {
    if (file in first)
        return 1
    while ((status = (getline line < file)) > 0)
        text = text line "\n"
    if (status < 0)
        return 0
    close(file)
    first[file] = tokens + 1
    read_tokens(file, text)
    last[file] = tokens
    pair_brackets(file)
    return 1
}

# --- Lengths and entries. ---

function number(word,    base, value, i, digit) {
    gsub(/_/, "", word)
    sub(/[iu](8|16|32|64|size)$/, "", word)
    base = word ~ /^0x/ ? 16 : word ~ /^0o/ ? 8 : word ~ /^0b/ ? 2 : 10
    for (i = base == 10 ? 1 : 3; i <= length(word); i++) {
        digit = index("0123456789abcdef", tolower(substr(word, i, 1))) - 1
        if (digit < 0 || digit >= base)
            return unknown
        value = base * value + digit
    }
    return value
}

# The file of what a path in `file` names.
function home(file, path,    name, n, i) {
    n = split(path, name, "::")
    sub(/\.rt$/, "", file)
    if (name[1] == "crate")
        sub(/\/src\/.*/, "/src", file)
    else if (name[1] == "super")
        sub(/\/[^\/]*$/, "", file)
    else
        file = "crates/" name[1] "/src"
    for (i = 2; i < n; i++)
        file = file "/" name[i]
    return file (file ~ /\/src$/ ? "/lib.rt" : ".rt")
}

# The first token from i on that is `word`.
function seek(i, word) {
    while (i < tokens && token[i] != word)
        i++
    return i
}

# The token behind token i, or behind the bracket that it opens.
function after(i) {
    return ((i in closing) ? closing[i] : i) + 1
}

# What the constant `name` is. What stands in brackets, as in an `impl`, goes by a longer name.
function constant(file, name, steps,    i) {
    for (i = first[file]; i < last[file]; i = after(i)) {
        if (token[i] == "const" && token[i + 1] == name)
            return length_at(file, seek(i, "=") + 1, seek(i, ";") - 1, steps)
        if (token[i] == "use" && token[seek(i, ";") - 1] == name)
            return length_at(file, i + 1, seek(i, ";") - 1, steps)
    }
    return unknown
}

# What the tokens from..to are: a number, or a path to a constant, which may lead to another one so many times.
function length_at(file, from, to, steps,    i, words, path) {
    for (i = from; i <= to; i++) {
        words = words " " token[i]
        path = path token[i]
    }
    if (words ~ /^ [0-9][0-9A-Za-z_]*$/)
        return number(token[from])
    if (!steps || words !~ /^ [A-Za-z_][0-9A-Za-z_]*( :: [A-Za-z_][0-9A-Za-z_]*)*$/)
        return unknown
    if (from < to)
        file = home(file, path)
    return read(file) ? constant(file, token[to], steps - 1) : unknown
}

# How many entries the tokens from..to are: those of an array, those of the largest array that the file gives this name to, or one
# number. What another type has is not worked out, and an expression counts as `other`.
function size(file, from, to, other,    i, n, most) {
    if (token[from] == "[" && closing[from] == to)
        return entries(file, from)
    if (from < to)
        return other
    for (i = first[file]; i < last[file] - 1; i++)
        if (token[i] == token[from] && token[i + 1] ~ /^[:=]$/ && token[i + 2] == "[") {
            n = entries(file, i + 2)
            if (n > most)
                most = n
        }
    if (most)
        return most
    return token[from] ~ /^[A-Z]/ && constant(file, token[from], 9) == unknown ? unknown : 1
}

# The entries of the bracket at token i: [X; LENGTH] or [X, X, ..].
function entries(file, i,    j, from, n) {
    if (counting[i])
        return unknown
    counting[i] = 1
    from = i + 1
    for (j = from; j <= closing[i]; j = after(j))
        if (token[j] == ";") {
            n = size(file, from, j - 1, unknown) * length_at(file, j + 1, closing[i] - 1, 9)
            break
        } else if (token[j] == "," || j == closing[i]) {
            if (from < j)
                n += size(file, from, j - 1, 1)
            from = j + 1
        }
    counting[i] = 0
    return n + 0
}

# How many bytes a byte string has.
function bytes(word) {
    gsub(/\\\n[ \t\r\n]*/, "", word)
    gsub(/\\x..|\\./, ".", word)
    return length(word) - length("b\"\"")
}

function list(file,    i, n) {
    for (i = first[file]; i <= last[file]; i++)
        if (token[i] == "[" || token[i] ~ /^b"/) {
            n = token[i] == "[" ? entries(file, i) : bytes(token[i])
            print (n < unknown ? n : "unknown"), place[i]
        }
}

# A module in the same file would have constants of its own.
function need_modules(file,    i, module) {
    for (i = first[file]; i < last[file]; i++)
        if (token[i] == "mod") {
            module = substr(file, 1, length(file) - 3) "/" token[i + 1] ".rt"
            if (token[i + 2] != ";" || !read(module))
                fail(place[i] ": a module without its file, " module)
        }
}

BEGIN {
    unknown = 1e30 # more than any array has, and any number
    for (f = 1; f < ARGC; f++) {
        if (!read(ARGV[f]))
            fail("there is no " ARGV[f])
        need_modules(ARGV[f])
        list(ARGV[f])
    }
}
