#!/usr/bin/env python3
"""Lists the places of docs/DESIGN-PASS.md in the sources: tools/places.py [POINT ..]; the last line of a point is its count.

1  enums of the program, structs with a flag beside values, and answers that carry a number for a refusal or a kind
2  functions and types of one name, or of one body, in more than one place
3  loops that count by hand, or go over a range of places
4  conversions, comparisons and printing written by hand
5  clauses that stand in three or more functions, and parameters that three or more functions take together
6  fields of an array with a length beside them, and calls that take a list with its figures
7  switches on a kind or a step, and tables of functions
8  proof files of the crates: Answers.antt and Invariants.antt, by lines
"""
import collections
import pathlib
import re
import sys

ROOT = pathlib.Path(__file__).resolve().parents[1]
SOURCES = sorted(p for p in (ROOT / "crates").glob("*/src/**/*.rt"))
TEXTS = {p: p.read_text() for p in SOURCES}


def code(text):
    return re.sub(r"//[^\n]*", lambda m: " " * len(m.group()), text)


CODES = {p: code(t) for p, t in TEXTS.items()}


def at(path, position):
    return f"{path.relative_to(ROOT)}:{TEXTS[path].count(chr(10), 0, position) + 1}"


def found(pattern, flags=re.M):
    for p, t in CODES.items():
        for m in re.finditer(pattern, t, flags):
            yield at(p, m.start()), " ".join(m.group().split())


def functions():
    """Of each function: its place, its name, its parameters, its clauses and its body."""
    head = re.compile(r"^[ \t]*(?:pub(?:\(crate\))? )?(?:extern \"C\" )?fn (\w+)(?:<[^>]*>)?\((.*?)\)(?: -> ([^{]*?))?\s*(?=requires|ensures|\{)", re.M | re.S)
    for p, t in CODES.items():
        for m in head.finditer(t):
            rest, i, clauses = t[m.end():], 0, []
            while True:
                k = re.match(r"\s*(requires|ensures)\*?(?: \w+)?\s*\{", rest[i:])
                j = i + (k.end() if k else re.match(r"\s*\{", rest[i:]).end())
                start, depth = j, 1
                while depth:
                    depth += {"{": 1, "}": -1}.get(rest[j], 0)
                    j += 1
                if not k:
                    yield p, at(p, m.start()), m.group(1), m.group(2), clauses, " ".join(rest[start:j - 1].split())
                    break
                clauses.append((k.group(1), " ".join(rest[start:j - 1].split())))
                i = j


def point_1():
    yield from found(r"^[ \t]*(?:pub(?:\(crate\))? )?enum \w+")
    for p, t in CODES.items():
        for m in re.finditer(r"struct (\w+)[^{;]*\{([^}]*)\}", t):
            if re.search(r": bool,", m.group(2)):
                yield at(p, m.start()), f"flag in struct {m.group(1)}"
    yield from found(r"^[ \t]+\w+\((?:u8|\w+, u8)[^)]*\),$")
    yield from found(r"^[ \t]*(?:pub )?(?:kind|answer|failure|failed|reason|number): u8,$")


def point_2():
    named, bodies = collections.defaultdict(list), collections.defaultdict(list)
    for p, where, name, _, _, body in functions():
        if name not in ("main", "read", "write"):
            named[name].append(where)
        if len(body) > 24:
            bodies[re.sub(r"\b\d[\d_]*\b", "N", body)].append((where, name))
    for p, t in CODES.items():
        for m in re.finditer(r"(?:struct|enum) (\w+)", t):
            named[m.group(1)].append(at(p, m.start()))
    for name, places in sorted(named.items()):
        if len(places) > 1:
            yield " ".join(places), name
    for body, places in bodies.items():
        if len(places) > 1 and len({n for _, n in places}) > 1:
            yield " ".join(w for w, _ in places), "one body: " + ", ".join(n for _, n in places)


def point_3():
    yield from found(r"\bwhile\b[^{]*")
    yield from found(r"\bloop\s*\{")
    yield from found(r"\bfor \w+ in [^{]*\.\.[^{]*(?=\{)")


def point_4():
    yield from found(r"impl (?:PartialEq|Eq|PartialOrd|Ord|Clone|Copy|From|TryFrom|Display|fmt::Display)\b[^{]*")
    yield from found(r"fn (?:eq|same\w*|equal\w*|from_\w+|to_\w+|as_\w+|cmp\w*|copy\w*|copied\w*)\b")


def point_5():
    clauses, together = collections.defaultdict(set), collections.defaultdict(set)
    for p, where, name, parameters, said, _ in functions():
        for kind, words in said:
            if kind == "requires":
                for fact in words.split(" × "):
                    clauses[fact.strip("() ")].add(where)
        taken = [" ".join(x.split()) for x in parameters.split(",") if x.strip() and "self" not in x]
        for i in range(len(taken) - 1):
            together[taken[i] + ", " + taken[i + 1]].add(where)
    for words, places in sorted(clauses.items(), key=lambda x: -len(x[1])):
        if len(places) > 2:
            yield f"{len(places)} functions", "requires " + words
    for words, places in sorted(together.items(), key=lambda x: -len(x[1])):
        if len(places) > 2:
            yield f"{len(places)} functions", words


def point_6():
    for p, t in CODES.items():
        for m in re.finditer(r"struct (\w+)[^{;]*\{([^}]*)\}", t):
            if re.search(r": \[", m.group(2)) and re.search(r": (?:usize|u8|u32),", m.group(2)):
                yield at(p, m.start()), f"array and figures in struct {m.group(1)}"
    for p, where, name, parameters, _, _ in functions():
        if re.search(r"\]", parameters) and re.search(r"\b(count|n|len|length|used|heads|end|to): usize", parameters):
            yield where, f"list and figure: {name}"


def point_7():
    yield from found(r"fn\((?!\))[^)]*\)")
    yield from found(r"match \w*(?:kind|step|which|what)\w*\b")
    for p, where, name, _, _, body in functions():
        if len(re.findall(r"if (?:kind|format|which|step|what) == ", body)) > 1:
            yield where, f"if after if on a kind: {name}"


def point_8():
    for crate in sorted((ROOT / "crates").iterdir()):
        files = [f for kind in ("Answers", "Invariants") for f in crate.glob(f"proofs/**/{kind}.antt")]
        lines = sum(len(f.read_text().splitlines()) for f in files)
        if files:
            yield crate.name, f"{len(files)} files, {lines} lines"


for wanted in sys.argv[1:] or "12345678":
    rows = list(globals()[f"point_{wanted}"]())
    print(f"point {wanted}")
    for where, what in rows:
        print(f"  {where}  {what}")
    print(f"  {len(rows)} places")
