#!/usr/bin/env python3
"""Counts the places of docs/DESIGN-PASS.md in crates/*/src, and with --list prints them.

usage: places.py [--list] [FOLDER]    (FOLDER: a checkout, here if none is given)
"""
import difflib
import itertools
import pathlib
import re
import sys

ARGUMENTS = [a for a in sys.argv[1:] if a != "--list"]
LIST = "--list" in sys.argv
TOP = pathlib.Path(ARGUMENTS[0] if ARGUMENTS else ".")
SOURCES = sorted(TOP.glob("crates/*/src/**/*.rt"))


class Function:
    """A function: its file, line, name, parameters, clauses and body."""

    def __init__(self, path, line, text):
        self.path, self.line = path, line
        self.name = re.search(r"\bfn (\w+)", text).group(1)
        head, _, self.body = text.partition("\n{\n") if "\n{\n" in text else text.partition("{\n")
        self.head = head
        inside = head[head.index("(") + 1:]
        inside = re.split(r"\)\s*(?:->|\n|$)", inside)[0]
        self.parameters = [" ".join(p.split()) for p in re.split(r",\s*(?![^\[<(]*[\])>])", inside) if p.strip()]
        self.facts = []
        for clause in re.findall(r"requires(?: \w+)? \{(.*?)\}\s*(?=requires|ensures|$)", head, re.S):
            self.facts += [f.strip(" ()\n") for f in re.split(r"\s×\s", clause)]

    def place(self):
        return f"{self.path.relative_to(TOP)}:{self.line} {self.name}"


def functions():
    for path in SOURCES:
        lines = path.read_text().split("\n")
        at = 0
        while at < len(lines):
            match = re.match(r"(\s*)(pub(\(crate\))? )?(extern \"C\" )?fn ", lines[at])
            if match:
                end = at
                while lines[end] != match.group(1) + "}":
                    end += 1
                yield Function(path, at + 1, "\n".join(lines[at:end + 1]))
                at = end
            at += 1


def grep(pattern):
    for path in SOURCES:
        for number, line in enumerate(path.read_text().split("\n"), 1):
            if re.search(pattern, line) and not line.strip().startswith("//"):
                yield f"{path.relative_to(TOP)}:{number} {line.strip()}"


def twins(all_functions):
    """Pairs of functions of one crate whose bodies are nine tenths alike, of four lines at least."""
    for a, b in itertools.combinations(all_functions, 2):
        if a.path.parts[:-2] != b.path.parts[:-2] or min(a.body.count("\n"), b.body.count("\n")) < 4:
            continue
        x, y = re.findall(r"\w+|\S", a.body), re.findall(r"\w+|\S", b.body)
        if 2 * min(len(x), len(y)) < 1.8 * len(x) or difflib.SequenceMatcher(None, x, y, False).ratio() < 0.9:
            continue
        yield f"{a.place()} and {b.place()}"


def together(all_functions):
    """Groups of two or more parameters that stand together in three functions or more, the widest ones."""
    groups = {}
    for f in all_functions:
        names = sorted(set(f.parameters))
        for size in range(2, len(names) + 1):
            for group in itertools.combinations(names, size):
                groups.setdefault(group, set()).add(f.place())
    found = {g: s for g, s in groups.items() if len(s) >= 3}
    widest = [g for g in found if not any(set(g) < set(h) and found[h] == found[g] for h in found)]
    for group in sorted(widest):
        if not any(set(group) < set(h) and len(found[h]) >= 3 for h in widest):
            yield f"{'; '.join(group)}: {len(found[group])} functions"


def repeated(all_functions):
    """Facts that stand in the clauses of three functions or more."""
    facts = {}
    for f in all_functions:
        for fact in set(f.facts):
            facts.setdefault(" ".join(fact.split()), set()).add(f.place())
    for fact, where in sorted(facts.items()):
        if len(where) >= 3:
            yield f"{fact}: {len(where)} functions"


def beside():
    """Structs with an array or a slice and a number that says how much of it is in use."""
    for path in SOURCES:
        for match in re.finditer(r"struct (\w+)[^{]*\{(.*?)\n\}", path.read_text(), re.S):
            if "[" in match.group(2) and re.search(r"(count|length|size)\w*: u", match.group(2)):
                yield f"{path.relative_to(TOP)} {match.group(1)}"


def answers():
    for path in sorted(TOP.glob("crates/*/proofs/**/Answers.antt")):
        yield from (f"{path.relative_to(TOP)} {line}" for line in path.read_text().split("\n") if re.match(r"pub [\w+-]+ : goal\.", line))


ALL = list(functions())
POINTS = {
    "1 own variants for none or a refusal": grep(r"^\s+(Refused\(u\d+\)|Nothing|Nowhere|TooMany|Bad),"),
    "1 flags beside a value": grep(r"^\s+(pub )?(refused|fine|accepted|failed|readable|stuck|done|going): bool,"),
    "1 refusals and kinds as numbers": grep(r"Refused\(\d+\)|\b(kind|code)\b: u|\b(kind|code)\b (==|!=) \d|return (65|257);"),
    "2 twins": twins(ALL),
    "3 loops by while": grep(r"^\s*while "),
    "4 tests and copies by hand": grep(r"=> (true|false),|\} == \{|\.0 == \w+\.0"),
    "5 parameters that travel together": together(ALL),
    "5 facts in three contracts or more": repeated(ALL),
    "6 an array with its length beside it": beside(),
    "7 a flag that says which step to run": (f"{f.place()} {p}" for f in ALL for p in f.parameters if p.endswith(": bool")),
    "8 answers": answers(),
}
for point, places in POINTS.items():
    places = list(places)
    print(f"{len(places):5} {point}")
    if LIST:
        print("".join(f"        {place}\n" for place in places), end="")
