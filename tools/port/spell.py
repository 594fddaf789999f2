#!/usr/bin/env python3
"""Spells this repository's definitions and lemmas as the kit does: words in snake case. Run once, right after the kit's port.py.

usage: spell.py        at the top of the repository

It turns .antt, .rt and .edit files below crates/ in place:
- every lower-case name with a capital inside, as freeCount, becomes free_count (names of Rust functions and types have none);
- constructors, fields and computing definitions with a dash, as bad-length, become bad_length, but not in comments;
- where it would then have a function's name in one file with it, a definition gets another name (OTHER);
- a lemma that would then have its definition's name gets _lem.
It stops, before it writes, where two names of one file would fall together.
"""

import collections
import os
import re

TOKEN = re.compile(r"[^\s(){}\[\];,.·λ∷\"«»:=&*<>!|`?]+")
CAMEL = re.compile(r"[a-z][\w\-'₀-₉]*$")
CAPITAL = re.compile(r"(?<=[a-z0-9])([A-Z])")
DASHED = """can-draw change-at change-of j-and j-as j-bears j-every j-image j-one j-table j-well keys-sort loop-of
meta-by meta-reading named-at names-sort passed-at read-on reading-of remove-on t-and t-as t-conts t-entries t-entry t-eq t-every
t-fields t-le t-list t-numbers t-once t-or t-rising t-self t-span t-super t-tower table-by table-read table-reading to-next to-skip
first-free free-kept in-hand bad-length short-scratch of-key value-is block-bytes cont-bytes dropped-others dropped-rises freed-bytes
given-bytes given-others given-rises listed-bytes next-key no-next root-bytes span-bytes super-bytes tower-bytes""".split()
# definitions that would have the name of a function of src/ in one file with it
OTHER = {"lensAt": "lens_start", "newTable": "empty_table", "towerHeight": "new_height", "orHead": "page_or_head", "sortOf": "table_sort"}
# lemmas that would have the name of the definition that they speak of
LEMMAS = {
    "crates/laws/proofs/Targets.antt": ["first_key"],
    "crates/laws/proofs/Encodes.antt": ["first_small"],
    "crates/edit/proofs/Shapings.antt": ["no_change"],
    "crates/refusals/proofs/Tables.antt": ["no_table"],
    "crates/change/proofs/Creates.antt": ["no_table"],
}


def snake(word):
    return CAPITAL.sub(lambda m: "_" + m.group(1).lower(), word)


def files():
    for folder, dirs, names in os.walk("crates"):
        dirs[:] = sorted(d for d in dirs if d != "out")
        for name in sorted(names):
            if name.endswith((".antt", ".rt", ".edit")):
                yield os.path.join(folder, name)


def turned(path, text, names):
    lemmas = LEMMAS.get(path, [])
    dashed = {} if path.endswith(".rt") else {w: w.replace("-", "_") for w in DASHED}

    def one(word, comment):
        if word in lemmas:
            return word + "_lem"
        if word in dashed and not comment:
            return dashed[word]
        if word in OTHER:
            return OTHER[word]
        if CAMEL.match(word) and CAPITAL.search(word):
            return snake(word)
        return word

    lines = []
    for line in text.split("\n"):
        comment = line.lstrip().startswith(("--", "//", "#"))
        for word in TOKEN.findall(line):
            names[one(word, comment)].add(word)
        lines.append(TOKEN.sub(lambda m: one(m.group(0), comment), line))
    return "\n".join(lines)


def main():
    out, bad = {}, []
    for path in files():
        with open(path, encoding="utf-8") as f:
            text = f.read()
        names = collections.defaultdict(set)
        out[path] = (text, turned(path, text, names))
        bad += [f"{path}: {new}: {sorted(old)}" for new, old in names.items() if len(old) > 1]
    for line in bad:
        print("falls together:", line)
    if bad:
        raise SystemExit(1)
    for path, (old, new) in out.items():
        if old != new:
            with open(path, "w", encoding="utf-8") as f:
                f.write(new)


main()
