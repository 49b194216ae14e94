# Hexadecimal text to octal escapes, some bytes a line, for printf. Run it in the locale C.
#
# Pairs of digits, blanks between them, comments after '#'. Exit 1 at the first thing that is wrong, with LINE:COLUMN: and what, then
# the line itself, on standard error; 3 where a keyword of text sheets stands outside comments.

BEGIN {
    split("mode in out horizon match prefer hard soft limit state", words, " ")
    for (i in words) is_word[words[i]]
    for (i = 128; i < 192; i++) later = later sprintf("%c", i)
}

{
    text = $0
    sub(/#.*/, "", text)
    n = split(text, found, /[^A-Za-z0-9_]+/)
    for (i = 1; i <= n; i++) if (found[i] in is_word) { worded = 1; exit }
    # The rest is read on for words alone once something is wrong.
    if (!wrong) read_line()
}

END {
    if (worded) exit 3
    if (!wrong) exit 0
    printf "%s\n%s\n", wrong, shown > "/dev/stderr"
    exit 1
}

function read_line(    at, line, high, low) {
    for (at = 1; at <= length(text); at += 2) {
        while (substr(text, at, 1) ~ /[ \t\r]/) at++
        if (at > length(text)) break
        high = digit(at)
        if (wrong) return
        if (at == length(text) || substr(text, at + 1, 1) ~ /[ \t\r]/) {
            complain(at, "the digit '" substr(text, at, 1) "' is left over: a byte is two digits")
            return
        }
        low = digit(at + 1)
        if (wrong) return
        line = line sprintf("\\%03o", 16 * high + low)
        if (length(line) == 256) { print line; line = "" }
    }
    if (line != "") print line
}

function digit(at,    value) {
    value = index("0123456789abcdef", tolower(substr(text, at, 1))) - 1
    if (value < 0) complain(at, named(at) " is no hexadecimal digit")
    return value
}

# What stands there, whole where it is a letter of several bytes.
function named(at,    end) {
    if (NR == 1 && at == 1 && index(text, sprintf("%c%c%c", 239, 187, 191)) == 1) return "a byte order mark"
    for (end = at; index(later, substr(text, end + 1, 1)) && end < length(text); end++) ;
    return "'" substr(text, at, end - at + 1) "'"
}

function complain(at, what) {
    shown = $0
    sub(/\r$/, "", shown)
    wrong = NR ":" at ": " what
    shown = NR ": " shown
}
