#!/usr/bin/env python3
"""Spells the crates' own definitions, fields and lemmas in snake case, as today's Rattle has them. Run once, after port.py.

usage: python3 tools/port/respell.py [FOLDER]

A name that a file of specs/ or proofs/ declares in camel case or with dashes gets underscores. Two names that would fall together keep apart: the
definition has the plain name, and a lemma that has it too gets `_lem`. Rust's names, strings, tests and edits are not touched; the names that Rattle
makes for a function's own proof (its goals, and the fields of a goal's facts) stay. It prints the pairs that it turned, and with `--meets` each file
in which a new name stood before.
"""

import collections
import re
import sys
from pathlib import Path

WORD = r"[^\s(){}.;,@\"«»\[\]|]+"
DECLARED = re.compile(r"^( *)(?:(?:abbrev|unfoldable|pub) +)*([^\s:(){}|]+)(?: \{[^{}\n]*\})* +:(?= |$)")
OWN_PROOF = ("Proof.antt", "Invariants.antt", "Answers.antt")
# Names that a library has too, and the heads of the names that Rattle makes.
LIBRARY = ("length-map", "and-false", "and-true")
MADE = ("Need-", "need-", "at-", "loop-", "fails-", "returns")


def snake(name):
    if name[0].islower():
        name = re.sub(r"(?<=[a-z0-9])[A-Z]", lambda m: "_" + m[0].lower(), name)
    return name.replace("-", "_")


def is_word(name):
    return re.fullmatch(r"[A-Za-z0-9'_₀-₉-]+", name) and not name.startswith(MADE) and name not in LIBRARY


def is_own_proof(path):
    """Whether the file is what is written of one function's proof."""
    return path.name in OWN_PROOF and "proofs" in path.parts and path.parent.name != "Laws"


def texts(root):
    for p in sorted((root / "crates").rglob("*")):
        if p.suffix in (".antt", ".rt") and "out" not in p.parts:
            yield p


def declared(root):
    """The names that specs/ and lemma files declare, each with whether a file of specs/ does."""
    found = collections.defaultdict(bool)
    for p in texts(root):
        if p.suffix == ".rt" or is_own_proof(p) or re.search(r"Var\d+$", p.stem):
            continue
        for line in p.read_text().splitlines():
            m = DECLARED.match(line)
            if m and not line.lstrip().startswith("--") and m[2] not in ("let", "in"):
                found[m[2]] |= "specs" in p.parts
    return found


def renamed(found):
    turned = {n: snake(n) for n in found if is_word(n) and snake(n) != n}
    groups = collections.defaultdict(list)
    for n in found:
        groups[turned.get(n, n)].append(n)
    for plain, names in groups.items():
        if len(names) < 2:
            continue
        # a definition first, and one in camel case before others
        names.sort(key=lambda n: (not found[n], not re.search(r"[a-z][A-Z]", n), n))
        for n in names[1:]:
            turned[n] = plain + "_lem"
    return {a: b for a, b in turned.items() if a != b}


def turn(path, names):
    lines = path.read_text().split("\n")
    comment = "--" if path.suffix == ".antt" else "//"
    camel = {a: b for a, b in names.items() if re.search(r"[a-z0-9][A-Z]", a)}
    own = is_own_proof(path)
    for i, line in enumerate(lines):
        at = re.search(r"(^|\s)" + comment, line)
        code, said = (line, "") if not at else (line[: at.start()], line[at.start() :])
        if path.suffix == ".rt":
            code = re.sub(r'"[^"]*"|\w+', lambda m: camel.get(m[0], m[0]), code)
        elif own:
            # behind a dot stands a field, or what Rattle makes of a name of the source: both have the plain spelling
            code = re.sub(r"(\.?)(" + WORD + ")", lambda m: m[1] + (snake(m[2]) if m[1] and m[2] in names else names.get(m[2], m[2])), code)
        else:
            code = re.sub(WORD, lambda m: names.get(m[0], m[0]), code)
        said = re.sub(r"\w+", lambda m: camel.get(m[0], m[0]), said)
        said = re.sub(r"`[^`]*`", lambda m: re.sub(WORD.replace("|]", "|`]"), lambda w: names.get(w[0], w[0]), m[0]), said)
        lines[i] = code + said
    path.write_text("\n".join(lines))


def local_names(root):
    """The names in camel case that are left: those of local helpers, bound variables and imports under another name."""
    found = {}
    for p in texts(root):
        for line in p.read_text().splitlines():
            code = re.split(r"(?:^|\s)(?:--|//)", line)[0]
            for name in re.findall(r"(?<![\w'])[a-z][a-z0-9_]*[A-Z][\w']*", code):
                if not re.search(r"_[A-Z]", name):
                    found[name] = snake(name)
    return found


def rename_contracts(root):
    """Rattle makes a module `specs.contracts` of its own: the file Contracts of specs/ becomes Promised."""
    for p in texts(root):
        t = p.read_text()
        if p.name == "Lib.antt" and p.parent.name == "specs":
            t = re.sub(r"(?m)^(pub mod) Contracts$", r"\1 Promised", t)
        p.write_text(re.sub(r"\bspecs\.Contracts\b", "specs.Promised", t))
    for p in sorted((root / "crates").glob("*/specs/Contracts*.antt")):
        p.rename(p.with_name(p.name.replace("Contracts", "Promised")))


def main():
    root = Path(next((a for a in sys.argv[1:] if a[0] != "-"), "."))
    names = renamed(declared(root))
    if "--meets" in sys.argv:
        for p in texts(root):
            t = p.read_text()
            words = set(re.findall(WORD, t))
            for a, b in names.items():
                if a in words and b in words:
                    print(p.relative_to(root), a, b)
        return
    for p in texts(root):
        turn(p, names)
    local = local_names(root)
    for p in texts(root):
        turn(p, local)
    names.update(local)
    rename_contracts(root)
    for a, b in sorted(names.items()):
        print(a, b)


main()
