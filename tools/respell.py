#!/usr/bin/env python3
"""Turns the definitions, fields and lemmas of this repository to the kit's spelling, once, after port.py.

usage: tools/respell.py [--list]     at the top of the repository; --list only prints each old name with its new one

A definition, a constructor or a field that was in camel case gets snake case. In a lemma's name a dash stays where it joins
two names of functions, as in `ended-length`, and is `_` elsewhere, as in `first_row`. Names from source code, the kit's names
and types keep their spelling. Files: specs/ and proofs/ of each crate, the clauses of src/, must-fail edits, and names between
backticks in README.md and docs/. It stops where two names of the repository would fall together.
"""

import os
import re
import sys

TOP = os.path.dirname(os.path.dirname(os.path.abspath(__file__)))
TOKEN = re.compile(r"[^\s(){}\[\];,.\"`:λ|]+")
HEAD = re.compile(
    r"\s*(?:(?:abbrev|unfoldable|data|record|pub)\s+)*(?P<name>[^\s(){}\[\]:;.,]+)\s*(?:\(|\{|:)")
# the proof of a goal that the kit names
GOAL = re.compile(r":\s*(?:tie\.|\{M : Type 1\})")
# words of the library that a dash may stand beside
WORDS = set("length append take drop set get_or sum replicate le lt eq add sub mul div mod min max cond eqb leb ltb".split())
# names that would fall together with another of the repository or of the kit: written out
CHOSEN = {
    "all_right": "all_right_lem",
    "held_in": "held_in_lem",
    "last_line": "last_line_lem",
    "line-front": "line_front_lem",
    "lowest-free": "lowest_free_lem",
    "mark-no": "mark_no_lem",
    "owed-in": "owed_in_lem",
    "segments-in": "segments_in_lem",
    "slices-in": "slices_in_lem",
    "task-at": "task_at_lem",
}


def files(endings, folders):
    for folder in folders:
        top = os.path.join(TOP, folder)
        if os.path.isfile(top):
            yield top
            continue
        for root, dirs, names in os.walk(top):
            dirs[:] = sorted(d for d in dirs if d != "out")
            for name in sorted(names):
                if name.endswith(endings):
                    yield os.path.join(root, name)


def read(path):
    with open(path, encoding="utf-8") as f:
        return f.read()


def defined():
    """Each name that a specs/ or proofs/ file of the repository defines, with the files; and those of specs/ alone."""
    where, specs = {}, set()
    for path in files((".antt",), ["crates"]):
        for line in read(path).split("\n"):
            if line.lstrip().startswith(("--", "use ")):
                continue
            found = HEAD.match(line)
            if path.endswith("Proof.antt") and GOAL.search(line):
                continue
            if found and found["name"] not in ("let", "in", "where", "open"):
                where.setdefault(found["name"], set()).add(path)
                if "/specs/" in path:
                    specs.add(found["name"])
    return where, specs


def snake(word):
    return re.sub(r"(?<=[a-z0-9])([A-Z]+)", lambda m: "_" + m.group(1).lower(), word)


def respelled(name, functions):
    if name in CHOSEN:
        return CHOSEN[name]
    if not re.match(r"[a-z]", name):
        return name
    parts = [snake(part) for part in name.split("-")]
    out = parts[0]
    for before, after in zip(parts, parts[1:]):
        out += ("-" if before in functions and after in functions else "_") + after
    return out


def main():
    where, specs = defined()
    functions = WORDS | {snake(n) for n in specs if "-" not in n and re.match(r"[a-z]", n)}
    turned = {n: respelled(n, functions) for n in where}
    for path in files((".antt",), ["crates"]):
        for token in TOKEN.findall(read(path)):
            if re.match(r"[a-z]+[A-Z]", token) and "-" not in token:
                turned.setdefault(token, respelled(token, functions))
    turned = {a: b for a, b in turned.items() if a != b}
    bad = 0
    backwards = {}
    for a, b in sorted(turned.items()):
        others = [o for o in backwards.get(b, [])] + ([b] if b in where and b not in turned else [])
        if others:
            print("falls together: %s and %s: %s" % (a, ", ".join(others), b))
            bad += 1
        backwards.setdefault(b, []).append(a)
    if "--list" in sys.argv:
        for a, b in sorted(turned.items()):
            print(a, b)
    if bad:
        sys.exit("%d names fall together" % bad)
    if "--list" in sys.argv:
        return
    swap = lambda m: turned.get(m.group(0), m.group(0))
    camel = lambda m: turned[m.group(0)] if "-" not in m.group(0) and m.group(0) in turned else m.group(0)
    for path in files((".antt", ".edit"), ["crates"]):
        text = read(path)
        new = TOKEN.sub(swap, text)
        if new != text:
            with open(path, "w", encoding="utf-8") as f:
                f.write(new)
    for path in files((".rt",), ["crates"]):
        text = read(path)
        new = TOKEN.sub(camel, text)
        if new != text:
            with open(path, "w", encoding="utf-8") as f:
                f.write(new)
    for path in files((".md",), ["README.md", "docs"]):
        text = read(path)
        new = re.sub(r"`[^`\n]+`", lambda m: TOKEN.sub(swap, m.group(0)), text)
        if new != text:
            with open(path, "w", encoding="utf-8") as f:
                f.write(new)


main()
