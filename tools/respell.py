#!/usr/bin/env python3
"""Turns the repository's own names of definitions and lemmas to snake case, and facts and modules to camel case.

usage: python3 tools/respell.py        once, at the top of the repository, after the kit's port.py

It works on whole names, in .antt and .rt files, in must-fail edits and in the pages of docs/. A name of the source (a function, a
parameter, a type) keeps its spelling: in the source no such name is in lower camel case, so a name in lower camel case is a
definition's. A definition may have the name of a function of the source, as the library's do. A name that would fall together
with one that stands in a .antt file already stops the script before it writes anything. The crate log becomes parity_log, since
the kit has a library of that name.
"""

import os
import re
import sys

# Names whose plain form another definition has, names of the library, and facts that had a dash.
OWN = {
    "laidOut": "is_laid_out",
    "laidOut-headerBytes": "is_laid_out-header_bytes",
    "getD-plus": "get_or-plus",
    "getD-sum": "get_or-sum",
    "getD-zeros": "get_or-zeros",
    "Field-laws": "FieldLaws",
    "Order-255": "Order255",
    "bit-xor": "bit_xor",
}

# Local lemmas that make way for a definition, by file.
HERE = {
    "crates/model/proofs/Keeps.antt": {"is_lost": "was_lost"},
    "crates/rows/proofs/Opened.antt": {"is_open": "then_open"},
}

# The library's name, to which two spellings of it go.
LIBRARY = {"bit_xor"}

NAME = re.compile(r"(?<![A-Za-z0-9_'\-.])[A-Za-z_][A-Za-z0-9_'\-]*|(?<=\.)[A-Za-z_][A-Za-z0-9_'\-]*")
# What a check makes of a variant's name keeps that name.
MADE = re.compile(r"(^|-)in-Of[A-Z]")


def is_camel(name):
    return not MADE.search(name) and re.search(r"[a-z0-9][A-Z]", name) and (name[0].islower() or name[0] == "_") and not re.fullmatch(r"x[0-9A-Fa-f_]+", name)


def respelled(name):
    if name in OWN:
        return OWN[name]
    if not is_camel(name):
        return name
    return re.sub(r"([a-z0-9])([A-Z])", lambda m: m[1] + "_" + m[2].lower(), name)


def files():
    for top in ("crates", "docs"):
        for folder, dirs, names in os.walk(top):
            dirs[:] = sorted(d for d in dirs if d != "out")
            for n in sorted(names):
                if n.endswith((".antt", ".rt", ".edit", ".md")):
                    yield os.path.join(folder, n)


def rename_log():
    """The crate's folder, its line and name in crates.txt, and paths and uses of it."""
    if not os.path.isdir("crates/log"):
        return
    os.rename("crates/log", "crates/parity_log")
    for p in [*files(), "crates.txt"]:
        with open(p, encoding="utf-8") as f:
            t = f.read()
        to = re.sub(r"\bRattle\.log\.", "Rattle.parity_log.", t)
        to = re.sub(r"(?<![\w:])log::(?=[a-z])", "parity_log::", to)
        if p == "crates.txt":
            to = re.sub(r"(?m)^(?!#)(.*)$", lambda m: re.sub(r"\blog\b", "parity_log", m[1]), to)
        if to != t:
            with open(p, "w", encoding="utf-8") as f:
                f.write(to)


def main():
    texts = {p: open(p, encoding="utf-8").read() for p in files()}
    for p, names in HERE.items():
        texts[p] = NAME.sub(lambda m: names.get(m[0], m[0]), texts[p])
    logic, every = {}, set()
    for p, t in texts.items():
        every.update(m[0] for m in NAME.finditer(t))
        if p.endswith(".antt"):
            # without the paths of imports, which name functions of the source
            for m in NAME.finditer(re.sub(r"(?m)^use [\w.']+", "", t)):
                logic.setdefault(m[0], p)
    turned = {n: respelled(n) for n in every if respelled(n) != n}
    made, bad = {}, 0
    for old, new in sorted(turned.items()):
        # a name that only pages and edits still have was turned by port.py: it is the same one
        if old in logic and new in logic and new not in LIBRARY:
            print(f"{old}: {new} is there already, in {logic[new]}")
            bad += 1
        if old in logic and new in made and new not in LIBRARY:
            print(f"{old} and {made[new]} both become {new}")
            bad += 1
        if old in logic:
            made[new] = old
    if bad:
        return 1
    for p, t in texts.items():
        to = NAME.sub(lambda m: turned.get(m[0], m[0]), t)
        if to != open(p, encoding="utf-8").read():
            with open(p, "w", encoding="utf-8") as f:
                f.write(to)
    print(f"{len(turned)} names turned")
    rename_log()
    return 0


if __name__ == "__main__":
    sys.exit(main())
