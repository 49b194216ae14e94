#!/usr/bin/env python3
"""Brings the repository's own definitions, lemmas and fields to today's spelling: snake case, a dash where it joins two names.

  python3 tools/respell.py             in the repository, once, right after the kit's port.py
  python3 tools/respell.py --table     prints old and new names, and what stays since two names would fall together

What it renames are the names that .antt files declare below specs/, and below proofs/ but for the files of a function's proof. Types,
modules, facts (a capital first), functions of src/ and all that Rust sees keep their names.
"""

import os
import re
import sys

WORD = re.compile(r'[^\s(){}.;,@"«»`]+')
HEAD = re.compile(r'^( *)((?:(?:pub|abbrev|unfoldable|data|record|ruleset)\s+)*)([^\s(){}.;,@"«»:`]+)(?: \{[^{}\n]*\}| \([^()\n]*\))*\s*(?::|=)(?!\S)')
GHOST = re.compile(r"ghost\s+use\b[^;]*;|^\s*(?:requires|ensures|ghost)\b.*$|^\s+[^/\s].*\}$", re.M)
OF_FUNCTION = ("Proof.antt", "Answers.antt", "Invariants.antt")
# Words of the kit's Prelude that lemmas are named after.
KIT = set("length take drop map sum reverse get_or replicate set suc zero cond not and or eqb leb ltb min max".split())


def files(kinds):
    for folder, dirs, names in os.walk("crates"):
        dirs[:] = sorted(d for d in dirs if d != "out")
        for name in sorted(names):
            if name.endswith(kinds):
                yield os.path.join(folder, name)


def read(path):
    with open(path, encoding="utf-8") as f:
        return f.read()


def declarations():
    """Each declared name, with whether it is a definition (abbrev, unfoldable), a field, or a lemma."""
    kinds = {}
    for path in files(".antt"):
        if os.path.basename(path) in OF_FUNCTION:
            continue
        text = read(path)
        code = [line for line in text.split("\n") if not line.strip().startswith("--")]
        for i, line in enumerate(code):
            m = HEAD.match(line)
            if not m or m[3] in ("use", "elim", "let", "in", "where", "module"):
                continue
            name, words = m[3], m[2].split()
            defined = re.search(rf"(?m)^ *{re.escape(name)}(?: [^:\n]*)? =(?:\s|$)", "\n".join(code))
            kind = "definition" if "abbrev" in words or "unfoldable" in words else "lemma" if defined or "ruleset" in words else "field"
            kinds.setdefault(name, set()).add(kind)
    return kinds


def snake(name):
    return re.sub(r"(?<=[a-z0-9])[A-Z]", lambda m: "_" + m[0].lower(), name)


def part(word):
    """A capital first is a fact or a type, whose spelling stays."""
    return word if word[:1].isupper() else snake(word)


def joined(name, known):
    """A dash stays between two names of definitions; a plain word is added with an underscore."""
    parts = [part(p) for p in name.split("-")]
    if "" in parts:
        return name
    segments, i = [], 0
    while i < len(parts):
        for j in range(len(parts), i, -1):
            if "_".join(parts[i:j]) in known or j == i + 1:
                segments.append("_".join(parts[i:j]))
                i = j
                break
    out = segments[0]
    for before, after in zip(segments, segments[1:]):
        both = (before in known or before[:1].isupper()) and (after in known or after[:1].isupper())
        out += ("-" if both else "_") + after
    return out


def table():
    kinds = declarations()
    known = KIT | {snake(n) for n, k in kinds.items() if "definition" in k and "-" not in n}
    rows, stay = {}, []
    for name, kind in sorted(kinds.items()):
        if "-" in name:
            new = "_".join(part(p) for p in name.split("-")) if kind == {"field"} else joined(name, known)
        else:
            new = part(name)
        if new != name:
            rows[name] = new
    # Two names that would fall together: a lemma that would have its function's name ends in _lem, else the dash stays.
    taken = set(kinds) - set(rows)
    definitions = {n for n, k in kinds.items() if "definition" in k}
    for name in sorted(rows, key=lambda n: (n not in definitions, n)):
        new = rows[name]
        if new in taken:
            other = new + "_lem"
            if name not in definitions and other not in taken and (new in definitions or new in {rows.get(d) for d in definitions}):
                rows[name] = new = other
            elif name in definitions and new in kinds and new not in definitions and other not in taken:
                rows[new] = other
                taken.add(other)
            else:
                stay.append((name, new))
                del rows[name]
                continue
        taken.add(new)
    return rows, stay


def turned(text, rows, dashes):
    def one(m):
        word = m[0]
        bare = word.rstrip("'")
        new = rows.get(word)
        if new is None and bare != word and bare in rows:
            new = rows[bare] + word[len(bare):]
        if new is None or (not dashes and "-" in word):
            return word
        return new

    return WORD.sub(one, text)


def turn(path, rows):
    text = read(path)
    out = []
    if path.endswith(".antt"):
        for line in text.split("\n"):
            code, sep, comment = line.partition("--") if re.search(r"(^|\s)--(\s|$)", line) else (line, "", "")
            out.append(turned(code, rows, True) + sep + re.sub(r"`[^`]*`", lambda m: turned(m[0], rows, True), turned(comment, rows, False)))
        new = "\n".join(out)
    else:
        new, inside = [], False
        for line in text.split("\n"):
            code, sep, comment = line.partition("//")
            # A lemma that gives way to its function is named like a function of Rust: no clause cites it.
            here = {old: name for old, name in rows.items() if not re.fullmatch("[a-z0-9_]+", old)}
            new.append(turned(code, here, True) + sep + re.sub(r"`[^`]*`", lambda m: turned(m[0], rows, True), turned(comment, rows, False)))
        new = "\n".join(new)
    if new != text:
        with open(path, "w", encoding="utf-8") as f:
            f.write(new)


def together(rows):
    """Names that fall together within a file: the new one stands there already, as another name."""
    back = {}
    for old, new in rows.items():
        back.setdefault(new, set()).add(old)
    for path in files((".antt", ".rt")):
        words = set(WORD.findall(read(path)))
        for word in sorted(words & set(back)):
            both = back[word] & words
            if both:
                yield path, word, sorted(both)


def main():
    rows, stay = table()
    if "--table" in sys.argv:
        for old, new in sorted(rows.items()):
            print(f"{old}\t{new}")
        for old, new in stay:
            print(f"stays: {old}, {new} is another's")
        for path, word, both in together(rows):
            print(f"meets: {path}: {word} and {both}")
        return
    for path in files((".antt", ".rt")):
        turn(path, rows)
    print(f"{len(rows)} names respelled, {len(stay)} stay")


main()
