# For tools/widths: reads specifications (.antt), then code (.rt), and compares.

BEGIN {
    split("u8 1 i8 1 bool 1 u16 2 i16 2 u32 4 i32 4 f32 4 u64 8 i64 8 f64 8 usize 8 isize 8 u128 16 i128 16", pair, " ")
    for (i = 1; i in pair; i += 2) size[pair[i]] = pair[i + 1]
}

FNR == 1 { name = top = ""; importing = 0; split(FILENAME, path, "/"); crate = path[2] }

# ---- definitions: 'name parameters = body', and what is indented below

FILENAME ~ /\.antt$/ {
    if (/\{-/) wrong(FILENAME ": a comment that is not of lines, which this tool does not read")
    sub(/(^|[ \t])--.*/, "")
    if (importing || /^ *((unfoldable|pub|abbrev) +)*use /) {
        importing = importing ? !/\}/ : /\{[^}]*$/
        # a name that an import gives to something else
        while (match($0, / as [a-z][A-Za-z0-9_-]*/)) {
            defined[substr($0, RSTART + 4, RLENGTH - 4)]++
            $0 = substr($0, RSTART + RLENGTH)
        }
        next
    }
    # a clause that bounds the bytes of a list, in this form and no other
    if (FILENAME ~ /\/Promises\// && /asked_bytes/) {
        if (/^ +pub [a-z_]+ : asked_bytes [a-z][A-Za-z0-9_]* ≤ work_most *$/) asked[crate] = asked[crate] " " $5
        else wrong(FILENAME ": a clause about asked_bytes that is not 'pub NAME : asked_bytes LIST ≤ work_most':" $0)
    }
    # a list that is asked to be long enough
    text = FILENAME ~ /\/Promises\// ? $0 : ""
    while (match(text, /long_enough [a-z][A-Za-z0-9_]*/)) {
        held[crate, substr(text, RSTART + 12, RLENGTH - 12)]
        text = substr(text, RSTART + RLENGTH)
    }
    # what a promise is made of, and whose it is
    if (match($0, /^((unfoldable|abbrev) )?pub (record )?[A-Z][A-Za-z]*/)) {
        top = substr($0, RSTART, RLENGTH)
        sub(/.* /, "", top)
        if (FILENAME ~ /\/Promises\//) owner[top] = owner[top] " " crate
    }
    n = split($0, word, /[^A-Za-z]+/)
    for (i = 1; i <= n; i++) if (word[i] ~ /^Makes[A-Z]/ && word[i] != top) parts[top] = parts[top] " " word[i]

    if (/^ *[a-z][A-Za-z0-9_-]*( [a-z][A-Za-z0-9_]*)* =( |$)/) defined[$1]++
    if (/^[a-z][A-Za-z0-9_-]*( [a-z][A-Za-z0-9_]*)* =( |$)/) {
        at = index($0, "=")
        name = $1
        parameters[name] = substr($0, length(name) + 1, at - length(name) - 1)
        body[name] = substr($0, at + 1)
    } else if (name != "" && /^ /) body[name] = body[name] " " $0
    else if (/[^ ]/) name = ""
    next
}

# ---- code: a function's head is all before its body

{ sub(/\/\/.*/, ""); gsub(/[ \t]+/, " ") }
/^ ?pub (.* )?fn / { head = ""; inside = 1 }
inside { head = head " " $0 }
inside && /\{ ?$/ && !/^ ?(ensures|requires)/ { inside = 0; gsub(/ +/, " ", head); judge(head) }

END {
    for (c in asked) if (!((c, one(asked[c])) in held)) wrong(c " promises the bytes of" asked[c] ", which its promises do not ask for (long_enough LIST)")
    for (c in asked) if (!(c in makers)) wrong(c " promises the bytes of" asked[c] ", and no pub fn of it lists the lengths that it was lent")
    exit status
}

# A maker lists the lengths that it was lent: length NAME.old ∷ .. ∷ []
function judge(head,    fn, text, lent, n, i, list, widths, m, said, clause, promise, from) {
    fn = head
    sub(/^.*pub (.* )?fn /, "", fn)
    sub(/[^a-z0-9_].*/, "", fn)
    text = head
    gsub(/∷/, ":", text)
    n = 0
    while (match(text, /length [a-z0-9_]+\.old ?:/)) {
        list = substr(text, RSTART, RLENGTH)
        if (n && substr(text, 1, RSTART) ~ /ensures/) {
            wrong(crate "::" fn " lists lengths in more than one clause")
            return
        }
        if (!n) promise = substr(text, 1, RSTART)
        text = substr(text, RSTART + RLENGTH)
        sub(/^length /, "", list)
        sub(/\..*/, "", list)
        lent[++n] = list
        listed[list] = crate " " fn
    }
    if (!n) return
    makers[crate]
    # what the clause says before the list, and after it: the promise, and the result's memory where there is one
    sub(/.*ensures( [a-z0-9_]+)? \{ ?/, "", promise)
    sub(/[^A-Za-z].*/, "", promise)
    clause = text
    sub(/ensures.*/, "", clause)
    from = list_of(fn, promise)
    if (from == "") return
    take_parameters(head, fn)
    unread = 0
    m = split(spread(from), widths, " ")
    if (unread) return
    said = ""
    for (i = 1; i <= n || i <= m; i++) {
        if (i <= n && !(lent[i] in element)) element[lent[i]] = "none"
        said = said (i > 1 ? ", " : "") (i <= n ? lent[i] " " element[lent[i]] : "nothing") " " (i <= m ? widths[i] : "unlisted")
        if (i > n || i > m || size[element[lent[i]]] != widths[i])
            wrong(crate "::" fn ": " (i <= n ? lent[i] " is a slice of " element[lent[i]] : "there is no slice " i) ", and " from " has " \
                (i <= m ? widths[i] " bytes an element" : "no slice") " in its place")
    }
    printf "%12s::%s  %s\n", crate, fn, said
    # every memory that may be written is in the list, or its contents afterwards are the promise's
    for (i in written)
        if (listed[i] != crate " " fn && (" " clause) !~ ("[^A-Za-z0-9_.]" i "\\.new([^A-Za-z0-9_]|$)"))
            wrong(crate "::" fn ": " i " is lent, and neither in the list of work memory nor the promise's result")
}

# The list that a maker's promise bounds: its crate's own, or where that has none, the one of the maker that its promise is made of.
function list_of(fn, promise,    from, whose) {
    whose = crate
    if (!(crate in asked)) {
        whose = one(parts[promise])
        whose = one(owner[whose])
    }
    if (!(whose in asked)) {
        wrong(crate "::" fn " lists the lengths that it was lent, and no promise of it bounds their bytes (pub NAME : asked_bytes LIST ≤ work_most)")
        return ""
    }
    from = one(asked[whose])
    if (from == "") wrong(whose " promises the bytes of more than one list:" asked[whose])
    return from
}

# The word of a text that has only one.
function one(text,    word) { return split(text, word, " ") == 1 ? word[1] : "" }

# The parameters of a function, as `element` and `written`: what is read, slices and arrays that may be written, and nothing else.
function take_parameters(head, fn,    text, part, n, i, p, type) {
    split("", element)
    split("", written)
    text = head
    sub(/^.*pub (.* )?fn [a-z0-9_]+/, "", text)
    text = substr(text, 2, closes(text) - 2)
    n = cut(text, ",", part)
    for (i = 1; i <= n; i++) {
        p = part[i]
        gsub(/^ | $/, "", p)
        if (p ~ /^[a-z0-9_]+: &\[[a-z0-9]+\]$/) continue
        if (p !~ /^[a-z0-9_]+: &mut \[[a-z0-9]+(; [A-Za-z0-9_:]+)?\]$/) {
            wrong(crate "::" fn ": a parameter that is neither a slice nor an array: " p)
            continue
        }
        type = p
        sub(/:.*/, "", p)
        written[p]
        gsub(/.*\[|\]$/, "", type)
        # an array is no work memory
        element[p] = type ~ /;/ ? "array" : type
    }
}

# ---- a list of slices, spread into its widths

# The widths of an expression: parts joined by '∷', each a slice, the empty list, or a definition with its arguments.
function spread(text,    part, n, i, widths) {
    gsub(/∷/, ":", text)
    n = cut(text, ":", part)
    widths = ""
    for (i = 1; i <= n; i++) widths = widths " " spread_part(part[i])
    return widths
}

function spread_part(text,    word, n, i, known, inner, given) {
    gsub(/^ +| +$/, "", text)
    if (text == "" || text == "[]") return ""
    if (text ~ /^\(/ && closes(text) == length(text)) return spread(substr(text, 2, length(text) - 2))
    n = cut(text, " ", word)
    if (!(word[1] in body)) { unreadable("a list of slices names " word[1] ", which has no definition that can be read"); return "" }
    if (defined[word[1]] != 1) { unreadable("a list of slices names " word[1] ", which is defined " defined[word[1]] " times"); return "" }
    inner = body[word[1]]
    # a slice: record { width = N; asked = .. }
    if (inner ~ /record|width/) {
        if (inner ~ /^ *record \{ width = [0-9]+; asked = [^;{}]+ \} *$/) { sub(/;.*/, "", inner); sub(/.*= /, "", inner); return inner }
        unreadable(word[1] " is no 'record { width = NUMBER; asked = .. }':" inner)
        return ""
    }
    known = split(parameters[word[1]], given, " ")
    if (known != n - 1) { unreadable(word[1] " is given " n - 1 " arguments and takes " known); return "" }
    for (i = 1; i <= known; i++) inner = put(inner, given[i], word[i + 1])
    return spread(inner)
}

# The text with a name replaced where it stands as a word.
function put(text, name, value,    word, n, i, made) {
    gsub(/\(/, " ( ", text)
    gsub(/\)/, " ) ", text)
    n = split(text, word, " ")
    made = ""
    for (i = 1; i <= n; i++) made = made " " (word[i] == name ? "(" value ")" : word[i])
    gsub(/\( /, "(", made)
    gsub(/ \)/, ")", made)
    return made
}

# Cuts a text at a mark outside brackets; the number of parts, none of them empty.
function cut(text, mark, part,    i, letter, depth, n, piece) {
    n = 0
    piece = ""
    depth = 0
    for (i = 1; i <= length(text) + 1; i++) {
        letter = substr(text, i, 1)
        if (letter == "(") depth++
        if (letter == ")") depth--
        if (i > length(text) || (depth == 0 && letter == mark)) {
            if (piece ~ /[^ ]/) part[++n] = piece
            piece = ""
        } else piece = piece letter
    }
    return n
}

# Where the bracket closes that a text begins with.
function closes(text,    i, depth, letter) {
    depth = 0
    for (i = 1; i <= length(text); i++) {
        letter = substr(text, i, 1)
        if (letter == "(") depth++
        if (letter == ")" && --depth == 0) return i
    }
    return 0
}

function unreadable(what) {
    unread = 1
    wrong(what)
}

# Says it, once.
function wrong(what) {
    if (!(what in told)) print tool ": " what > "/dev/stderr"
    told[what]
    status = 1
}
