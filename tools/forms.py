#!/usr/bin/env python3
"""Lists the places in crates/*/src (and, for 8, crates/*/proofs) that docs/DESIGN-PASS.md counts, point by point.

tools/forms.py [TREE] prints the counts; with -v each place. A place is where a form of the older language could stand: the page says of
each whether it went or why it stays."""
import collections
import glob
import os
import re
import sys

words = [a for a in sys.argv[1:] if a != "-v"]
verbose = "-v" in sys.argv
tree = words[0] if words else os.path.dirname(os.path.dirname(os.path.abspath(__file__)))
places = collections.defaultdict(list)


def name(path):
    return os.path.relpath(path, os.path.join(tree, "crates"))


def line_of(text, at):
    return text.count("\n", 0, at) + 1


FN = re.compile(r"^(?P<indent>[ \t]*)(?:pub(?:\([a-z]+\))? )?(?:extern \"C\" )?fn (?P<name>\w+)(?:<[^>{]*>)?\((?P<args>.*?)\)"
                r"(?P<head>.*?)(?:\n[ \t]*| )\{\n(?P<body>.*?)\n(?P=indent)\}\n", re.S | re.M)

functions = []
for path in sorted(glob.glob(os.path.join(tree, "crates/*/src/*.rt"))):
    text = open(path).read()
    for m in re.finditer(r"^\s*(?:pub )?enum (\w+)", text, re.M):
        places["1 own enums"].append((path, line_of(text, m.start(1)), m.group(1)))
    for m in re.finditer(r"^    pub (\w+): (bool|Verdict|Load|Step|Change)\b", text, re.M):
        places["1 flags beside values"].append((path, line_of(text, m.start(1)), m.group(0).strip()))
    for m in re.finditer(r"^\s*(match (?:role|kind)\b|.*\bmode [!=]= 1)", text, re.M):
        places["1 numbers for kinds"].append((path, line_of(text, m.start(1)), m.group(1).strip()))
    for m in re.finditer(r"^\s*(?:'\w+: )?(while|loop)\b[^\n]*", text, re.M):
        places["3 loops that count by hand"].append((path, line_of(text, m.start(1)), m.group(0).strip()))
    for m in re.finditer(r"^    pub (count|len|some|found): ", text, re.M):
        places["6 lengths beside buffers"].append((path, line_of(text, m.start(1)), m.group(0).strip()))
    for m in FN.finditer(text):
        args = [re.sub(r"\s+", " ", a).strip() for a in m.group("args").split(",") if a.strip()]
        clauses = re.findall(r"requires(?: \w+)? \{(.*?)\}\s*(?=\n|$)", m.group("head"), re.S)
        functions.append((path, line_of(text, m.start("name")), m.group("name"), args, m.group("head"), m.group("body"),
                          [re.sub(r"\s+", " ", c).strip() for c in clauses]))

literal = re.compile(r"^\s*\w+::\w+(?:\(\w+\)| \{[^}]*\})? => (?:\d+|\w+\.number\(\)(?: as u32)?|0),?$", re.M)
for path, line, fn, args, head, body, clauses in functions:
    if len(re.findall(r"=> \d+,", body)) >= 2 or literal.search(body) and re.search(r"number|length|states", fn):
        places["1 numbers for refusals"].append((path, line, fn))
    if re.fullmatch(r"same|eq|cmp|larger|smaller|goes_before|wide|kept_flag|digit|put_number|number_length|byte_at|u16_at|u32_at|put_u16|put_u32|u16_bytes", fn):
        places["4 written by hand"].append((path, line, fn))
    if any(a.startswith("text: &mut") or a.startswith("res: &mut") or a.startswith("out: &mut") for a in args) and any(a.startswith("at:") for a in args):
        places["6 buffers with a place beside"].append((path, line, fn))
    if any(re.match(r"(f|step|rule): (&|fn|impl)", a) for a in args):
        places["7 switches on a step"].append((path, line, fn))

# twins: functions alike but for widths, sizes, constants and the names of what they call
alike = collections.defaultdict(list)
for path, line, fn, args, head, body, clauses in functions:
    shape = re.sub(r"//[^\n]*", "", body)
    shape = re.sub(r"\b[A-Z]\w*(?:::[A-Z]\w*)+", "K", shape)
    shape = re.sub(r"\b(?:u8|u16|u32|u64|usize)\b", "T", shape)
    shape = re.sub(r"\b\d+\b", "N", shape)
    shape = re.sub(r"\b[a-z_0-9]+(?=\()", "f", shape)
    shape = re.sub(r"\b[A-Z]\w*::\w+", "V", shape)
    shape = re.sub(r"\.?\b[a-z_][a-z_0-9]*\b", "x", shape)
    shape = re.sub(r"\s+", " ", shape)
    if len(shape) > 40:
        alike[shape].append((path, line, fn))
for group in alike.values():
    if len(group) > 1:
        places["2 functions alike"].append((group[0][0], group[0][1], " ~ ".join(f"{name(p)}:{f}" for p, l, f in group)))

# parameters that travel together: a function counts for the first group that it has whole
groups = ["cells dropped bonuses ins outs", "cells dropped n ins outs", "cells n ins outs", "cells ins outs", "arrivals factor", "s sheet",
          "tuples cells links", "tuples cells dropped", "t inputs outputs count", "table inputs count", "rows order numbers",
          "order numbers", "mode inputs outputs", "mode site outputs", "s start size"]
for path, line, fn, args, head, body, clauses in functions:
    names = {a.split(":")[0].replace("mut ", "") for a in args}
    group = next((g for g in groups if set(g.split()) <= names), None)
    if group:
        places["5 parameters together"].append((path, line, f"{fn}: {group}"))
facts = collections.Counter(c for f in functions for c in set(f[6]))
for fact, n in facts.most_common():
    if n >= 3:
        path, line = next((f[0], f[1]) for f in functions if fact in f[6])
        places["5 facts in three contracts"].append((path, line, f"{n} times: {fact}"))

answers = collections.defaultdict(list)
for path in sorted(glob.glob(os.path.join(tree, "crates/*/proofs/**/*.antt"), recursive=True)):
    text = open(path).read()
    for m in re.finditer(r"^(?:pub )?([\w-]+)(?: g)?(?: t)? c =\s*(.*?)(?=\n\n|\Z)", text, re.S | re.M):
        body = re.sub(r"\s+", " ", m.group(2)).strip()
        answers[(os.path.dirname(path), body)].append((path, line_of(text, m.start(1)), m.group(1)))
        if re.fullmatch(r"search rules|grind arith|omega arith|grind \(arith, common_steps\)", body):
            places["8 answers of a bare tactic"].append((path, line_of(text, m.start(1)), m.group(1)))
for (folder, body), group in answers.items():
    if len(group) >= 3:
        places["8 answers three times in a proof"].append((group[0][0], group[0][1], f"{len(group)} times: {body[:100]}"))

for point in sorted(places):
    print(f"{len(places[point]):5} {point}")
    if verbose:
        for path, line, what in places[point]:
            print(f"        {name(path)}:{line}: {what}")
