#!/usr/bin/env python3
"""Respells the names that definitions and lemmas have of the project's own, as today's Rattle spells names.

usage: tools/respell.py [FOLDER]      once, right after port.py, at the top of the repository or in FOLDER

A name of a definition, a lemma, a field or a variable that was written as `literalsOf` is `literals_of`; a dash still joins the parts of a
lemma's name, as in `stand_in-stands_for`. A part that begins with a capital is a fact or a type and stays. Where the new name of a
definition would be that of a lemma that stands beside it, the lemma gets `_lem`. Functions of src/, exported names, strings, inputs and
outputs keep their names. Files of crates/, the tables that reference/ writes and the pages are turned; each `old:` and `new:` of an edit too.
"""

import os
import re
import sys

TOKEN = re.compile(r"[^\s(){}\[\];,.:`\"|]+")
CAMEL = re.compile(r"(?<=[a-z0-9])([A-Z])")

# lemmas, and functions inside proofs, that had the name that a definition has now
LEMMAS = {
    "both_ways",
    "by_last",
    "by_lengths",
    "by_turn",
    "by_way",
    "cut_left",
    "cut_right",
    "either_way",
    "hand_on",
    "look_at",
    "record_of",
}

# names of the older library that stand only in edits
OLDER = {"getD": "get_or"}


def part(name):
    if re.match(r"[a-z]", name) and CAMEL.search(name):
        return CAMEL.sub(lambda m: "_" + m.group(1).lower(), name)
    return name


def respelled(name):
    return "-".join(part(p) for p in name.split("-"))


def files(folder, endings):
    for root, dirs, names in os.walk(folder):
        dirs[:] = sorted(d for d in dirs if d not in ("out", "target", ".git"))
        for name in sorted(names):
            if name.endswith(endings):
                yield os.path.join(root, name)


def read(path):
    with open(path, encoding="utf-8") as f:
        return f.read()


def turn(path, word):
    old = read(path)
    new = TOKEN.sub(word, old)
    if new != old:
        with open(path, "w", encoding="utf-8") as f:
            f.write(new)


def main():
    os.chdir(sys.argv[1] if len(sys.argv) > 1 else ".")
    names = {}
    for path in files("crates", (".antt", ".rt")):
        for m in TOKEN.finditer(read(path)):
            if respelled(m.group()) != m.group():
                names[m.group()] = respelled(m.group())

    for path in files("crates", ".antt"):
        if "/proofs/" in path:
            text = read(path)

            def lemma(m):
                bare = m.start() == 0 or text[m.start() - 1] != "."
                return m.group() + "_lem" if bare and m.group() in LEMMAS else m.group()

            turn(path, lemma)

    for path in files("crates", (".antt", ".rt", ".edit")):
        older = OLDER if path.endswith(".edit") else {}
        turn(path, lambda m: older.get(m.group()) or respelled(m.group()))

    pages = [p for p in ("README.md", "docs", "shelf", "reference") if os.path.exists(p)]
    for page in pages:
        paths = [page] if os.path.isfile(page) else files(page, (".md", ".rs", ".py", ".rs.txt"))
        for path in paths:
            turn(path, lambda m: names.get(m.group(), m.group()))


main()
