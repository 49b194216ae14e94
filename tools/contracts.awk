# For tools/claims: the edits that docs/CONTRACTS.md names are there, each in the crate that is meant. `edits` is a list of all, `crates`
# has the crates' folders.

BEGIN {
    n = split(crates, folder, " ")
    for (i = 1; i <= n; i++) is_crate[substr(folder[i], length("crates/") + 1)]
    while ((getline text < edits) > 0) is_edit[text]
    RS = ""
}

# The crates of a section: (crate `x`), (crates `x`, `y`), or those of an earlier heading with a call of the same type. From a paragraph
# on that begins with 'Program `x`' it is that one.
/^#/ {
    section = $0
    type = match($0, /`[A-Z][A-Za-z]*::/) ? substr($0, RSTART + 1, RLENGTH - 3) : ""
    meant = ""
    if (match($0, /\(crates? `[^)]*\)/)) {
        meant = substr($0, RSTART, RLENGTH)
        gsub(/\(crates? |[`,)]/, " ", meant)
        crates_of[type] = meant
    } else if (type != "") meant = crates_of[type]
    next
}
/^Program `/ { split($0, token, "`"); meant = token[2] }

{
    # by its crate, anywhere
    n = split($0, token, "`")
    for (i = 2; i <= n; i += 2)
        if (token[i] ~ /^[a-z_]+\/[a-z0-9_]+$/ && token[i] !~ /^tools\//) judge(token[i], "")
}

# In a table: in brackets in the last column.
/^\|/ {
    n = split($0, row, "\n")
    for (i = 1; i <= n; i++) {
        m = split(row[i], cell, "|")
        text = cell[m - 1]
        while (match(text, /\(`[a-z0-9]+(_[a-z0-9]+)+`/)) {
            judge(substr(text, RSTART + 2, RLENGTH - 3), meant)
            text = substr(text, RSTART + RLENGTH)
        }
    }
    next
}

# After 'Ruled out': of the section's crate, and after in `x`: of that one.
match($0, /[Rr]uled out/) {
    within = meant
    n = split(substr($0, RSTART), token, "`")
    for (i = 2; i <= n; i += 2) {
        if (token[i] in is_crate) { if (token[i + 1] ~ /^:/) within = token[i] }
        else if (token[i] ~ /^[a-z0-9]+(_[a-z0-9]+)+$/) judge(token[i], within)
    }
}

END { exit status }

# An edit by its name, in one of these crates; with none, the name has its own.
function judge(name, crates,    part, n, i) {
    if (crates == "" && name ~ /\// && name in is_edit) return
    n = split(crates, part, " ")
    for (i = 1; i <= n; i++) if ((part[i] "/" name) in is_edit) return
    gsub(/^ +| +$/, "", crates)
    gsub(/ +/, ", ", crates)
    print tool ": " FILENAME ", under '" section "': there is no edit " name (crates == "" ? "" : " in " crates) > "/dev/stderr"
    status = 1
}
