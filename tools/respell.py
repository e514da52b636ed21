#!/usr/bin/env python3
"""Brings the repository's own names in contracts, specs/ and proofs/ to the spelling of the library: snake case for what is no type.

usage: tools/respell.py        at the top of the repository, right after the toolchain's own script has run over it

It was run once, and stands here so that the port can be done again and laid beside what is there. It proves nothing.

1. Four lemmas get `_lem` behind their names, since a definition has that name from now on.
2. In .rt and .antt files `fieldFrom` becomes `field_from`; a dash in a lemma's name stays, as it joins two names.
3. In must-fail edits and pages the same, and the names of respelled.txt, beside this file: those that the toolchain's script
   respelled in the sources (`put-all` became `put_all`). In a page a name with a dash is taken only between backquotes.
"""

import os
import re
import sys

HERE = os.path.dirname(os.path.realpath(__file__))
LEMMAS = ["all_hold", "entry_in", "part_by", "part_right"]
TOKEN = re.compile(r"[^\s(){}.;,@\"«»\[\]\\:⟨⟩'`|&<>=!]+")


def snake(name):
    return re.sub(r"(?<=[a-z0-9₀-₉])([A-Z])", lambda m: "_" + m[1].lower(), name)


def is_ours(name):
    return name[0].islower() and re.search(r"[a-z0-9₀-₉][A-Z]", name) and re.fullmatch(r"[a-zA-Z0-9₀-₉'-]+", name)


def camel(text):
    # a lower-case part of each name: 'determined-LastTrade-after' keeps its type
    def one(m):
        name = m[0]
        if not is_ours(name):
            return name
        return "-".join(part if part[:1].isupper() else snake(part) for part in name.split("-"))

    return TOKEN.sub(one, text)


def lemmas(text):
    for name in LEMMAS:
        text = re.sub(r"(?<![\w.'-])" + name + r"(?![\w'-])", name + "_lem", text)
    return text


def by_table(text, table, quoted):
    def one(m):
        name = m[0]
        if name in table and ("-" not in name or quoted):
            return table[name]
        return name

    return TOKEN.sub(one, text)


def page(text, table):
    parts = text.split("`")
    for i, part in enumerate(parts):
        inside = i % 2 == 1 and "\n" not in part and "/" not in part
        parts[i] = camel(by_table(part, table, inside))
    return "`".join(parts)


def files(*folders):
    for folder in folders:
        for root, dirs, names in os.walk(folder):
            dirs[:] = sorted(d for d in dirs if d not in ("out", "target", ".git"))
            for name in sorted(names):
                yield os.path.join(root, name)


def main():
    if not os.path.isdir("crates"):
        sys.exit("run it at the top of the repository")
    with open(os.path.join(HERE, "respelled.txt")) as f:
        table = {name: snake(name).replace("-", "_") for name in f.read().split()}
    pages = ["README.md", "CONTRIBUTING.md"] + [p for p in files("docs") if p.endswith(".md")]
    for path in list(files("crates")) + pages:
        with open(path, encoding="utf-8", errors="surrogateescape") as f:
            text = f.read()
        if path.endswith(".antt"):
            new = camel(lemmas(text))
        elif path.endswith(".rt"):
            new = camel(text)
        elif path.endswith(".edit"):
            new = "".join(camel(by_table(l, table, True)) if l.startswith(("old:", "new:")) else camel(l) for l in text.splitlines(True))
        elif path.endswith(".md"):
            new = page(text, table)
        else:
            continue
        if new != text:
            with open(path, "w", encoding="utf-8", errors="surrogateescape") as f:
                f.write(new)


main()
