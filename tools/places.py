#!/usr/bin/env python3
"""Counts places in crates/*/src that read like an older language: python3 tools/places.py [--list] [FOLDER]

A function is read as its name, parameters, result, clauses and body. Each line is a count and what was counted; --list names the places.
"""
import collections
import pathlib
import re
import sys

FLAGS = [a for a in sys.argv[1:] if a.startswith("--")]
REST = [a for a in sys.argv[1:] if not a.startswith("--")]
TOP = pathlib.Path(REST[0] if REST else ".")
LISTED = "--list" in FLAGS


def closing(text, at, pair):
    """The place of the bracket that closes the one at `at`."""
    depth = 0
    for i in range(at, len(text)):
        if text[i] == pair[0]:
            depth += 1
        elif text[i] == pair[1]:
            depth -= 1
            if depth == 0:
                return i
    return len(text) - 1


def split(text):
    """Parts at commas outside brackets."""
    parts, depth, part = [], 0, ""
    for c in text:
        depth += (c in "([{<") - (c in ")]}>")
        if c == "," and depth == 0:
            parts.append(part)
            part = ""
        else:
            part += c
    return [" ".join(p.split()) for p in parts + [part] if p.strip()]


class Function:
    def __init__(self, crate, path, text, at):
        self.crate, self.path = crate, path
        self.name = re.match(r"fn\s+(\w+)", text[at:]).group(1)
        opened = text.index("(", at)
        if "<" in text[at:opened]:
            opened = text.index("(", closing(text.replace("->", "  "), text.index("<", at), "<>"))
        self.generics = text[at:opened]
        closed = closing(text, opened, "()")
        self.parameters = split(text[opened + 1 : closed])
        rest = text[closed + 1 :]
        found = re.match(r"\s*->\s*(.*?)\s*(?=\n\s*(?:requires|ensures|where)\b|\{|;)", rest, re.S)
        self.result = " ".join(found.group(1).split()) if found else ""
        i = closed + 1 + (found.end() if found else 0)
        self.clauses = []
        while True:
            clause = re.match(r"\s*(requires|ensures)\s*(\w*)\s*\{", text[i:])
            if not clause:
                break
            begin = i + clause.end() - 1
            end = closing(text, begin, "{}")
            self.clauses.append((clause.group(1), clause.group(2), " ".join(text[begin + 1 : end].split())))
            i = end + 1
        body = re.match(r"\s*(?:where[^{]*)?\{", text[i:])
        self.body = text[i + body.end() : closing(text, i + body.end() - 1, "{}")] if body else ""

    def place(self):
        return f"{self.crate}/{self.path.name}:{self.name}"


def functions():
    for path in sorted(TOP.glob("crates/*/src/**/*.rt")):
        crate = path.relative_to(TOP / "crates").parts[0]
        text = re.sub(r"^\s*(//.*|ghost use .*;)$", "", path.read_text(), flags=re.M)
        for found in re.finditer(r"\bfn\s+\w+", text):
            yield Function(crate, path, text, found.start())


def said(what, places):
    print(f"{len(places):4}  {what}")
    if LISTED:
        for p in places:
            print("        " + p)


ALL = list(functions())
print(f"{len(ALL):4}  functions in all")


def where(test):
    return [f.place() for f in ALL if test(f)]


def loops(pattern):
    return [f"{f.place()}  {m.group(0)}" for f in ALL for m in re.finditer(pattern, f.body)]


print("1. Option, Result and enums")
said("a bool that says done or refused (a `&mut` beside it, or inside a Result)", where(lambda f: f.result in ("bool", "Result<bool, BackplaneFault>") and ("&mut" in " ".join(f.parameters) and f.crate != "examples_tested")))
said("a bool parameter, mostly with a value beside it", [f"{f.place()}  {p}" for f in ALL for p in f.parameters if re.search(r": bool$", p)])
said("a bare number for the kind of a head", [f"{f.place()}  {m.group(0)}" for f in ALL for m in re.finditer(r"(?:is_head|fill_head)\(\d", f.body)])
said("a result that means nothing (a body that is a literal)", where(lambda f: re.fullmatch(r"\s*\d+\s*", f.body) is not None))
said("a struct or function that tells a refusal or a layer by numbers", where(lambda f: re.search(r"^(told|said_by|number_of|layer_number|layer_of|plain)", f.name) is not None and f.crate in ("comparison", "recording", "examples_tested", "backplane_trial")))

print("2. Twins")
bodies = collections.defaultdict(list)
for f in ALL:
    bodies[" ".join(re.sub(r"\b(backplane|plane)\b", "plane", f.body).split())].append(f)
said("functions of the same body as one before", [f.place() for same in bodies.values() for f in same[1:] if len(same[0].body.split()) > 1])
names = collections.Counter((f.crate, re.sub(r"_?(block|cell)s?_?", "*", f.name)) for f in ALL if re.search(r"block|cell", f.name))
said("functions whose names differ in block and cell only", [f"{c}: {n}" for (c, n), k in names.items() if k > 1 for _ in range(k - 1)])
free = collections.defaultdict(set)
for f in ALL:
    free[f.name].add(f.crate)
said("names that stand in several crates (calls of the trait Backplane apart)", [f"{n}: {' '.join(sorted(c))}" for n, c in sorted(free.items()) if len(c) > 1 and n not in ("new", "main", "fmt", "from", "number", "details", "slots", "blocks", "cells", "power", "live", "pull", "fit", "power_up", "read", "store", "read_block", "read_cell", "store_block", "store_cell")])

print("3. Loops")
said("while and loop", loops(r"\b(?:while\b[^{]*|loop\s*)(?=\{)"))
over, indexing = [], []
for f in ALL:
    for m in re.finditer(r"\bfor (\w+) in ([^{;\[]*\.\.[^{;]*)(?=\{)", f.body):
        inner = f.body[m.end() : closing(f.body, m.end(), "{}")]
        uses = re.search(r"(?:\w\[|\.get\(|\.get_mut\(|\.set\(|\.byte\()[^\];]*\b%s\b" % m.group(1), inner)
        (indexing if uses and m.group(1) != "_" else over).append(f"{f.place()}  {m.group(0)}")
said("for over a range of numbers that index a slice, an array or a list", indexing)
said("for over a range of numbers else", over)

print("4. By hand: equality, order, copies, conversions, printing")
said("functions that print, name or convert a value of a type", where(lambda f: re.search(r"^(show_|name_of|report|said_by|done|counted|\w+_said|\w+_told|\w+_number$|\w+_details$|copied|copy$|fill$)", f.name) is not None))

print("5. Repeated facts, and parameters that travel")
facts = collections.defaultdict(list)
for f in ALL:
    for kind, _, text in f.clauses:
        if kind == "requires":
            facts[re.sub(r"\b(array|backplane|plane|self)\b", "plane", text)].append(f)
said("facts asked for by three or more functions", [f"{len(fs)} times  {t}" for t, fs in sorted(facts.items(), key=lambda x: -len(x[1])) if len(fs) > 2])
said("of their clauses", [f.place() for t, fs in facts.items() if len(fs) > 2 for f in fs])
groups = collections.Counter()
for f in ALL:
    ps = [p for p in f.parameters if ":" in p]
    for n in (3, 4, 5):
        for i in range(len(ps) - n + 1):
            groups[tuple(p.split(":")[0] for p in ps[i : i + n])] += 1
said("rows of three or more parameters that stand in three or more functions", [f"{k} times  {', '.join(g)}" for g, k in groups.most_common() if k > 2 and not any(set(g) < set(h) and groups[h] >= k for h in groups)])
said("functions of more than six parameters", [f"{f.place()}  {len(f.parameters)}" for f in ALL if len(f.parameters) > 6])

print("6. Buffers and lengths")
said("a slice whose length a clause fixes", [f"{f.place()}  {t}" for f in ALL for k, _, t in f.clauses if k == "requires" and re.match(r"length [\w.]+ ≡ \d+$", t)])
said("an array of a fixed size with a count or a list of flags beside it", [f"{f.place()}  {p}" for f in ALL for p in f.parameters + [f.result] if re.search(r"\[(?:bool|u8|Block|Equation|usize); ?(?:1[46]|20|4|513)\]", p)])

print("7. Steps")
said("walks over records, each with its own step in the loop", loops(r"loop \{[^}]*head_at|while at <= used"))
said("functions that take a closure", where(lambda f: bool(re.search(r"\bFn(Once|Mut)?\(", f.generics + " ".join(f.parameters)))))

print("8. Proofs")
answers = [p for p in TOP.glob("crates/*/proofs/**/*.antt") if p.name in ("Answers.antt", "Invariants.antt", "Proof.antt")]
lemmas = [p for p in TOP.glob("crates/*/proofs/**/*.antt") if p.name not in ("Answers.antt", "Invariants.antt", "Proof.antt")]
lines = lambda ps: sum(len(p.read_text().splitlines()) for p in ps)
print(f"{len(answers):4}  files of answers and invariants, of {lines(answers)} lines")
print(f"{len(lemmas):4}  files of lemmas, of {lines(lemmas)} lines")
