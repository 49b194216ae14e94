# For tools/claims: prints a document as it should be. `order` is the output of tools/trusted --order, `edits` a list of all edits.

BEGIN {
    while ((getline text < order) > 0) {
        if (text ~ /^# /) { subject[++subjects] = substr(text, 3); continue }
        cut = index(text, " ")
        path = substr(text, cut + 1)
        read_order[++known] = path
        lines[path] = substr(text, 1, cut - 1)
        below[path] = subjects
    }
    while ((getline text < edits) > 0) is_edit[text]
}

/^#+ / { end_section(); section = $0 }

# ---- what is put in its place

/^<!-- crates\/[^ ]+: [^ ]+.* -->$/ {
    print
    file = substr($2, 1, length($2) - 1)
    quotes[++quoted] = file
    print "```"
    for (i = 3; i < NF; i++) {
        if (i > 3) print ""
        print_definition(file, $i)
    }
    print "```"
    # the code block that stands there, if one does
    if ((getline text) > 0 && text == "```") skip_to("^```$")
    else print text
    next
}

/^<!-- rests -->$/ {
    print
    if (quoted) print_wrapped(rests(), 0)
    print ""
    rested = 1
    skip_to("^$")
    next
}

/^<!-- reading order -->$/ {
    print
    print ""
    for (i = 1; i <= subjects; i++) print_wrapped(i ". " lower(subject[i]) ": " files_of(i), length(i ". "))
    print ""
    skip_to("^<!-- end -->$")
    print "<!-- end -->"
    next
}

{ print }

# ---- what is looked at

# A code block is quoted from a file: one that is met here has no marker before it that is read above.
FILENAME ~ /CLAIMS/ && /^[> \t]*(```|~~~)|^(    |\t)|<pre|<code/ { wrong(FILENAME ":" NR ": a code block without a marker before it") }
FILENAME ~ /CLAIMS/ && /<!--/ { wrong(FILENAME ":" NR ": a marker that is not known: " $0) }

/^Against: / { against = opposed = 1; sub(/^Against: /, "") }
/^$/ && against { judge_edits(); against = 0 }
against { named = named " " $0 }

# Document 01's table 'Versions worth nothing' has 8 rows.
END {
    if (against) judge_edits()
    end_section()
    for (i = 1; FILENAME ~ /CLAIMS\.md/ && i <= 8; i++)
        if (met["V" i] < 2) wrong(FILENAME ": V" i " has " met["V" i] + 0 " edits against it, and two are the least")
    for (name in met) if (name !~ /^V[1-8]$/) wrong(FILENAME ": there is no row " name)
    exit status
}

# A section of docs/CLAIMS.md that quotes a statement says what it rests on, and what stands against it.
function end_section() {
    if (FILENAME ~ /CLAIMS\.md/ && quoted && !(rested && opposed)) wrong(FILENAME ", under '" section "': no 'rests' marker, or no 'Against'")
    quoted = rested = opposed = 0
}

# ---- definitions

# The definition of a name in a file, with the comment above it, no further in than it begins. It lasts, blank lines and comments aside,
# up to a line after a blank one that is no further in and no equation of the name.
function print_definition(file, name,    line, text, above, kind, indent, found, held, apart, inner) {
    above = held = ""
    found = apart = 0
    while ((getline line < file) > 0) {
        text = line
        sub(/^ +/, "", text)
        if (!found) {
            if (text ~ /^(--|\/\/) /) { above = above line "\n"; continue }
            kind = kind_of(file, text, name)
            if (kind == "") { above = ""; continue }
            found = 1
            indent = length(line) - length(text)
            print_in(above, indent)
        } else if (kind == "function") { if (text == "{") break }
        else {
            inner = length(line) - length(text) > indent
            if (text == "" || (!inner && text ~ /^--/)) { held = held line "\n"; apart = 1; continue }
            if (kind == "law" && (index(text, name " ") == 1 || text ~ /^unfolding /)) break
            if (apart && !inner && index(text, name " ") != 1) break
        }
        print_in(held, indent)
        held = ""
        print substr(line, indent + 1)
    }
    close(file)
    if (!found) wrong(FILENAME ":" NR ": " file " has no definition of " name)
}

# What a line begins to define, if it is this name: a law ends before its proof, a function's head before its body.
function kind_of(file, text, name,    kind) {
    if (file ~ /\.rt$/) {
        if (!sub(/^pub (extern "C" )?fn /, "", text)) return ""
        return index(text, name "(") == 1 ? "function" : ""
    }
    kind = text ~ /^pub [^ ]+ / && text !~ /^pub (record|data|mod) / ? "law" : "definition"
    if (!sub(/^((unfoldable|abbrev) )?pub ((record|data) )?/, "", text)) return ""
    return text == name || index(text, name " ") == 1 ? kind : ""
}

function print_in(text, indent,    n, part, i) {
    n = split(text, part, "\n")
    for (i = 1; i < n; i++) print substr(part[i], indent + 1)
}

# ---- what a section rests on

# The Meaning files that the quoted files are, or rest on: those that were not named yet, and the sum of all.
function rests(    i, path, direct, whole, said, count, sum) {
    split("", direct)
    split("", whole)
    for (i = 1; i <= quoted; i++) {
        if (quotes[i] ~ /\/Meaning\//) direct[quotes[i]]
        gather(quotes[i], direct, "Promises")
    }
    for (path in direct) { whole[path]; gather(path, whole, "Meaning") }
    said = ""
    count = sum = 0
    for (i = 1; i <= known; i++) {
        path = read_order[i]
        if (!(path in whole)) continue
        if (!(path in told)) said = said (said == "" ? "" : ", ") short(path) " " lines[path]
        told[path]
        count++
        sum += lines[path]
    }
    return "Rests on " (said == "" ? "files named above" : said) "; " count " files with those named above, " sum " lines."
}

# Adds the Meaning files that a file imports to a set, and goes through imports of this layer.
function gather(file, set, layer,    n, i, found, path) {
    n = imports(file)
    split(imported[file], found, " ")
    for (i = 1; i <= n; i++) {
        path = found[i]
        if (path ~ /\/Meaning\// && !(path in set)) {
            set[path]
            if (layer == "Meaning") gather(path, set, layer)
        } else if (layer == "Promises" && path ~ /\/Promises\// && !((path, file) in passed)) {
            passed[path, file]
            gather(path, set, layer)
            delete passed[path, file]
        }
    }
}

# The Meaning and Promises files that a file imports; their number.
function imports(file,    line, path, crate, layer, all, n) {
    if (file in imported) return imported_count[file]
    all = ""
    n = 0
    while ((getline line < file) > 0) {
        if (line !~ /^ *((unfoldable|ghost|pub|abbrev) +)*use +Rattle/ || !match(line, /\.(Meaning|Promises)\.[A-Za-z]+/)) continue
        path = substr(line, RSTART + 1, RLENGTH - 1)
        sub(/\./, "/", path)
        crate = line
        sub(/^[^R]*Rattle[.]/, "", crate)
        sub(/[^a-z0-9_].*/, "", crate)
        all = all " crates/" crate "/specs/" path ".antt"
        n++
    }
    close(file)
    imported[file] = all
    imported_count[file] = n
    return n
}

# crates/C/specs/Meaning/F.antt is C/F.
function short(path) {
    sub(/^crates\//, "", path)
    sub(/specs\/Meaning\//, "", path)
    sub(/\.antt$/, "", path)
    return path
}

function files_of(i,    j, said) {
    said = ""
    for (j = 1; j <= known; j++) if (below[read_order[j]] == i) said = said (said == "" ? "" : ", ") short(read_order[j])
    return said
}

# ---- edits

function judge_edits(    part, n, i, tokens, m, j, row) {
    n = split(named, part, ";")
    for (i = 1; i <= n; i++) {
        row = match(part[i], /^ *V[0-9]+,/) ? substr(part[i], RSTART, RLENGTH - 1) : ""
        gsub(/ /, "", row)
        m = split(part[i], tokens, "`")
        for (j = 2; j <= m; j += 2) {
            if (!(tokens[j] in is_edit)) wrong(FILENAME ": " tokens[j] " is no edit that must fail")
            if (row != "" && !((row, tokens[j]) in counted)) met[row]++
            counted[row, tokens[j]]
        }
    }
    named = ""
}

# ---- text

function lower(text) { return tolower(substr(text, 1, 1)) substr(text, 2) }

# Lines of at most 138 letters, all but the first moved in.
function print_wrapped(text, indent,    word, n, i, line) {
    n = split(text, word, " ")
    line = word[1]
    for (i = 2; i <= n; i++)
        if (length(line) + 1 + length(word[i]) > 138) {
            print line
            line = substr("    ", 1, indent) word[i]
        } else line = line " " word[i]
    print line
}

# Passes over the old text up to a line, and over that line.
function skip_to(last,    text) {
    while ((getline text) > 0) if (text ~ last) return
    wrong(FILENAME ": the text ends before " last)
}

function wrong(what) {
    print tool ": " what > "/dev/stderr"
    status = 1
}
