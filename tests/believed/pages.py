#!/usr/bin/env python3
"""What has to be believed, read off the sources.

Reads the definitions of crates/*/specs (bridges aside), the record of all promises (crates/promises/specs/Promises.antt) and its theorem, and
holds the pages to them: README's table of promises and its count of lines, and in docs/PROMISES.md what each demand and request stands on, the
files with their lines, and the types of the code and the names of the kit that they cite. Refuses a believed definition that cites a bridge,
one that nothing uses (so a claim that is no promise), an entry point without a stored contract, a `requires` at an entry point, a stored contract of
another function than it is written down for, and a function of the library for C that is more than a call of the function of its name, or says
something else.

usage: pages.py [--write]      with --write the pages are made anew, else they are compared
"""
import pathlib
import re
import sys

ROOT = pathlib.Path(__file__).resolve().parents[2]
THEOREM = ROOT / "crates/promises/proofs/Laws/Promises.antt"

# Files that show what the others say: tables, rows and instances, and a caller's use of the promises.
ILLUSTRATIONS = {
    *("meaning/Samples", "meaning/Answered", "automaton/Answered", "reckoning/Answered", "reckoning/Examples", "reckoning/Instances"),
    *("station/Two", "station/Progress", "station/Claims"),
}
# Claims that follow from what is said elsewhere.
CONSEQUENCES = {"meaning/Digits", "automaton/Digits", "meaning/AnyOrder", "automaton/AnyOrder", "reckoning/Append"}

WORD = r"[^\s(){},;.:λ«»]+"
HEAD = rf"( *)(?:(?:unfoldable|abbrev) )?(pub )?(?:(record|data) )?({WORD})(?: |$)"
SPECS = r"Rattle\.(\w+)\.specs\.(.+)$"
# What Rattle makes of the code stands beside the definitions: its types, and of each function its signature and its code.
MADE = ("declared.", "contracts.")


def fail(text):
    sys.exit(f"believed: {text}")


def uses(text):
    """The `use` items of a file: (path, the names brought or none, the name for the module or none)."""
    found = []
    for item in re.findall(r"^use ([^{\n]*(?:\{[^}]*\})?[^\n]*)$", text, re.M):
        path, _, rest = item.partition("{")
        if rest:
            found.append((path.rstrip("."), re.findall(r"[^\s,]+", rest.partition("}")[0]), None))
        else:
            path, _, alias = item.partition(" as ")
            found.append((path.strip(), None, alias.strip() or path.strip().split(".")[-1]))
    return found


def written(path):
    """The key of the file of definitions, of a crate of ours, to which a `use` path leads, a bridge's too; else None."""
    match = re.match(SPECS, path)
    if match and (ROOT / f"crates/{match[1]}").is_dir() and not match[2].startswith(MADE):
        return f"{match[1]}/{match[2]}"
    return None


class Definition:
    """A definition: whether others may use it, and its lines, those of the parameters of its module among them."""

    def __init__(self, public, lines):
        self.public = public
        self.lines = lines


class File:
    """A file of definitions."""

    def __init__(self, path):
        self.text = path.read_text()
        self.link = str(path.relative_to(ROOT))
        self.crate, self.name = path.relative_to(ROOT).parts[1], path.stem
        self.key = f"{self.crate}/{self.name}"
        self.body = [line for line in self.text.splitlines() if not re.match(r"\s*(--|$)|use ", line)]
        title = re.match(r"(?:--.*\n)*", self.text)[0]
        self.title = " ".join(line[2:].strip() for line in title.splitlines()).rstrip(".")
        self.uses = uses(self.text)
        if any("as" in (names or []) for _, names, _ in self.uses):
            fail(f"{self.link} brings a name under another one")
        self.definitions = {}
        # each name that a definition brings, its constructors among them, and the definition's name
        self.names = {}
        self.read()
        if not self.title or not self.definitions:
            fail(f"{self.link} has no comment at its start or no definition")

    def read(self):
        name, indent, module = None, 0, None
        for number, line in enumerate(self.body):
            depth = len(line) - len(line.lstrip())
            if module and depth <= module[0]:
                module = None
            head = re.match(HEAD, line)
            if re.match(r" *module ", line):
                name, indent, module = None, depth, (depth, [number])
            elif module and name is None and depth > module[0] + 2:
                module[1].append(number)
            elif head and (name is None or depth <= indent) and head[4] != name:
                name, indent = head[4], depth
                self.definitions[name] = Definition(bool(head[2]), [*(module[1] if module else []), number])
                self.names[name] = name
                constructing = head[3] == "data"
            else:
                self.definitions[name].lines.append(number)
                if constructing:
                    for constructor in re.findall(WORD, line.partition(" : ")[0]):
                        self.names.setdefault(constructor, name)

    def text_of(self, name):
        return "\n".join(re.sub(r"--.*", "", self.body[number]) for number in self.definitions[name].lines)

    def specs(self):
        """The files of definitions that this one cites: key, names brought or none, name for the module or none."""
        for path, names, alias in self.uses:
            if key := written(path):
                yield key, names, alias


def believed():
    """The files of definitions by key, in the order of crates.txt and of each specs/Lib.antt."""
    paths = {path for path in ROOT.glob("crates/*/specs/[A-Z]*.antt") if path.stem != "Lib"}
    files = {}
    for crate in re.findall(r"^(\w+)(?: staticlib)?:", (ROOT / "crates.txt").read_text(), re.M):
        folder = ROOT / f"crates/{crate}/specs"
        modules = re.findall(r"^pub mod ([A-Z]\w*)", (folder / "Lib.antt").read_text(), re.M) if folder.exists() else []
        for module in modules:
            files[f"{crate}/{module}"] = File(folder / f"{module}.antt")
    if len(files) != len(paths) or not files:
        fail("a file of definitions is in no specs/Lib.antt")
    for file in files.values():
        for cited, _, _ in file.specs():
            if cited not in files:
                fail(f"{file.link} cites {cited}, which is no file of definitions but a bridge or none")
    return files


def cited_by(files, file, name):
    """The definitions that a definition cites: (key of the file, name)."""
    text = file.text_of(name)
    words = set(re.findall(rf"(?<![\w.])({WORD})", text))
    words |= {f"◌{word}◌" for word in words}
    for word in words & file.names.keys():
        yield file.key, file.names[word]
    for key, names, alias in file.specs():
        taken = words & set(names) if names is not None else set(re.findall(rf"(?<![\w.]){re.escape(alias)}\.({WORD})", text))
        for word in taken & files[key].names.keys():
            yield key, files[key].names[word]


def closure(files, starts):
    """The definitions that these stand on, themselves included."""
    reached, rest = set(), list(starts)
    while rest:
        key, name = rest.pop()
        if (key, name) not in reached:
            reached.add((key, name))
            rest += cited_by(files, files[key], name)
    return reached


def unused(files):
    """Public definitions that no other definition cites and no contract does."""
    cited = {target for file in files.values() for name in file.definitions for target in cited_by(files, file, name) if target != (file.key, name)}
    contracts = "\n".join(path.read_text() for path in ROOT.glob("crates/*/src/**/*.rt"))
    for file in files.values():
        for name, definition in file.definitions.items():
            used = (file.key, name) in cited or re.search(rf"(?<![\w·-]){re.escape(name)}(?![\w·-])", contracts)
            if definition.public and not used and name != "Promises":
                yield f"{name} of {file.link}"


def resolve(found, text):
    """The names of a text that `use` items bring: (name, path), in the text's order. Behind a dot stands a field, or what a module has."""
    brought = {}
    for word in re.findall(rf"{WORD}(?:\.{WORD})?", text):
        head = word.split(".")[0]
        for path, names, alias in found:
            if names is not None and head in names:
                brought.setdefault((head, path))
            elif alias == head:
                brought.setdefault((word, path))
    yield from brought


def promises(files):
    """The groups of promises: title and fields, each with its sentence, its definitions and its theorems."""
    spec, proof = files["promises/Promises"], THEOREM.read_text()
    shown = dict(re.findall(rf"^  ({WORD}) = (.*);$", proof, re.M))
    groups, sentence = [], []
    for line in map(str.strip, spec.text.splitlines()):
        if line.startswith("-- # "):
            groups.append((line[5:], []))
        elif line.startswith("-- "):
            sentence.append(line[3:])
        elif line.startswith("pub ") and groups:
            name, _, kind = line[4:].partition(" : ")
            said = re.sub(r"^.*→ ", "", kind)
            definitions = [(word, path) for word, path in resolve(spec.uses, said) if written(path) and ".lists." not in path]
            theorems = list(resolve(uses(proof), shown.get(name, "")))
            if not sentence or not definitions or not theorems:
                fail(f"the promise {name} has no sentence, no definition or no theorem")
            groups[-1][1].append((" ".join(sentence), definitions, theorems))
            sentence = []
        else:
            sentence = []
    if sum(len(fields) for _, fields in groups) != len(shown) or not shown:
        fail("the record of all promises and its theorem differ")
    return groups


def function(path, name):
    """A public function of a file of code, no method: its parameters, its result, its clauses with each name by its whole path, and its body."""
    text = re.sub(r"//.*", "", path.read_text())
    found = re.search(rf"^pub (?:extern \"C\" )?fn {name}\((.*?)\)(.*?)^\{{$(.*?)^\}}$", text, re.M | re.S)
    if not found:
        fail(f"{path.relative_to(ROOT)} has no public function {name}")
    whole = {}
    for module, names, alias in uses("\n".join(re.findall(r"^ghost (use [^;]*);$", text, re.M))):
        whole |= {alias: module} if alias else {brought: f"{module}.{brought}" for brought in names}
    whole |= {parameter: parameter for parameter in re.findall(r"(\w+):", found[1])}
    result, ensures, clauses = " ".join(found[2].split()).partition(" ensures ")
    said = re.sub(rf"(?<![\w.])({WORD})", lambda word: whole.get(word[0], word[0]), ensures + clauses)
    parameters, body = (re.sub(r",(?=\)|$)", "", re.sub(r"\s+", "", code)) for code in (found[1], found[3]))
    return parameters, result, said, body


def entry_points():
    """The number of stored contracts. Each is of the function that it is written down for; every C function calls one that has one, does nothing else
    and says the same; and no function that has one has a `requires`, nor has a C function."""
    spec = (ROOT / "crates/promises/specs/Promised.antt").read_text()
    stored = re.findall(rf"^  -- (?:(\w+)::(\w+)::)?(\w+)\n  pub {WORD} : EntryPoint ({WORD})\.ended ({WORD})\.name ({WORD})\.code$", spec, re.M)
    if len(stored) != len(re.findall(r"\bEntryPoint\b(?! *\})", spec.partition("pub record")[2])):
        fail("crates/promises/specs/Promised.antt has a stored contract without the name of its function")
    modules = {alias: path for path, names, alias in uses(spec) if names is None}
    exported = {}
    for path in sorted(ROOT.glob("crates/*/src/**/*.rt")):
        for name in re.findall(r'extern "C" fn (\w+)', path.read_text()):
            exported[name] = path
    for name in exported.keys() - {name for _, _, name, *_ in stored}:
        fail(f"no contract of {name} is stored in crates/promises/specs/Promised.antt")
    for crate, module, name, ended, named, coded in stored:
        where = re.match(rf"Rattle\.(\w+)\.specs\.contracts\.((?:\w+\.)*){name}$", modules.get(ended, ""))
        if not where or (crate and where.groups() != (crate, f"{module}.")) or (not crate and name not in exported):
            fail(f"the contract that is stored of {name} is of {modules.get(ended)}")
        owner, inner = where.groups()
        if named != coded or modules.get(named) != f"Rattle.{owner}.proofs.{inner}{name}.Symbol":
            fail(f"the contract that is stored of {name} is of the code of {modules.get(named)}")
        path = ROOT / f"crates/{owner}/src/{inner.replace('.', '/').rstrip('/') or 'lib'}.rt"
        asked = function(path, name)
        if "requires" in asked[1] + asked[2]:
            fail(f"{name} asks something of its caller")
        if not crate:
            given = ",".join(re.findall(r"(\w+):", asked[0]))
            if function(exported[name], name) != (*asked[:3], f"{owner}::{inner.replace('.', '::')}{name}({given})"):
                fail(f"{exported[name].relative_to(ROOT)} has {name} say or do something else than a call of {owner}'s")
    if not exported or len(stored) <= len(exported):
        fail("the stored contracts are not those of the C functions and of those in Rattle")
    return len(stored)


def place(path):
    """The file of a `use` path."""
    crate, kind, rest = re.match(r"Rattle\.(\w+)\.(specs|proofs)\.(.+)$", path).groups()
    return f"crates/{crate}/{kind}/{rest.replace('.', '/')}.antt"


def linked(pairs):
    for _, path in pairs:
        if not (ROOT / place(path)).exists():
            fail(f"there is no {place(path)}")
    return ", ".join(f"[`{word}`]({place(path)})" for word, path in pairs)


def promise_table(groups):
    rows = ["| promise | definition | theorem |", "|---|---|---|"]
    for title, fields in groups:
        rows.append(f"| **{title}** | | |")
        rows += [f"| {sentence} | {linked(definitions)} | {linked(theorems)} |" for sentence, definitions, theorems in fields]
    return rows


def stands_on(files, groups):
    rows = ["| promise | lines | files, with the lines of each that are needed |", "|---|---:|---|"]
    for title, fields in groups:
        starts = set()
        for _, pairs, _ in fields:
            for word, path in pairs:
                file = files[written(path)]
                starts.add((file.key, file.names[word.split(".")[-1]]))
        needed = {}
        for key, name in closure(files, starts):
            needed.setdefault(key, set()).update(files[key].definitions[name].lines)
        crates = {}
        for key, file in files.items():
            if key in needed:
                crates.setdefault(file.crate, []).append(f"{file.name} {len(needed[key])}")
        listed = "; ".join(f"{crate}: {', '.join(names)}" for crate, names in crates.items())
        rows.append(f"| {title} | {sum(map(len, needed.values()))} | {listed} |")
    return rows


def file_table(files, keys):
    rows = ["| file | lines | what it says |", "|---|---:|---|"]
    return rows + [f"| [{file.crate} `{file.name}`](../{file.link}) | {len(file.body)} | {file.title} |" for key, file in files.items() if key in keys]


def declared(files):
    """The code's types that definitions cite, with the lines of their declarations: rows, lines in all, types in all."""
    types = set()
    for file in files.values():
        for path, _, _ in file.uses:
            match = re.match(r"Rattle\.(\w+)\.specs\.declared\.(.+)\.(\w+)$", path.removesuffix(".TheVariants"))
            if match:
                types.add(match.groups())
    rows, total = ["| type of the code | lines |", "|---|---:|"], 0
    for crate, module, name in sorted(types):
        source = ROOT / f"crates/{crate}/src/{module.replace('.', '/')}.rt"
        found = re.search(rf"^pub (?:struct|enum) {name}\b(?:\([^\n]*\);|.*?^\}})", source.read_text(), re.M | re.S)
        if not found:
            fail(f"{source.relative_to(ROOT)} declares no {name}")
        lines = sum(1 for line in found[0].splitlines() if not re.match(r"\s*(//|$)", line))
        total += lines
        rows.append(f"| [`{crate}::{module}::{name}`](../{source.relative_to(ROOT)}) | {lines} |")
    return rows, total, len(types)


def kit(files):
    """The kit's names that definitions cite, by module: rows, names in all, modules in all."""
    modules = {}
    for file in files.values():
        for path, names, alias in file.uses:
            match = re.match(r"Rattle\.(\w+)", path)
            if not match or not (ROOT / f"crates/{match[1]}").is_dir():
                modules.setdefault(path, set()).update(names or [alias])
    rows = ["| module of the kit | names |", "|---|---|"]
    rows += [f"| `{module}` | {' '.join(f'`{name}`'.replace('|', chr(92) + '|') for name in sorted(names))} |" for module, names in sorted(modules.items())]
    return rows, sum(map(len, modules.values())), len(modules)


def between(text, mark, rows):
    """The text with these rows between the marks."""
    begin, end = f"<!-- {mark} -->\n", f"<!-- end of {mark} -->\n"
    if text.count(begin) != 1 or text.count(end) != 1:
        fail(f"the marks of '{mark}' are not there")
    before, _, rest = text.partition(begin)
    return before + begin + "\n".join(rows) + "\n" + end + rest.partition(end)[2]


def main():
    files = believed()
    idle = list(unused(files))
    if idle:
        fail("used by no definition, contract or promise: " + "; ".join(idle))
    points = entry_points()
    groups = promises(files)
    parts = {"illustrations": ILLUSTRATIONS, "consequences": CONSEQUENCES, "believed": files.keys() - ILLUSTRATIONS - CONSEQUENCES}
    for key in (ILLUSTRATIONS | CONSEQUENCES) - files.keys():
        fail(f"there is no {key}")
    sums = {name: sum(len(files[key].body) for key in keys) for name, keys in parts.items()}
    types, type_lines, type_count = declared(files)
    names, name_count, module_count = kit(files)
    counts = [
        f"- {sums['believed']} lines of definitions and claims in {len(parts['believed'])} files, the contracts of the {points} entry points among them",
        f"- {type_lines} lines that declare the {type_count} types of the code of which they speak",
        f"- {name_count} names of {module_count} modules of the kit: numbers, lists, equality, and what a function's contract is",
        "",
        f"Beside them stand {sums['illustrations']} lines of illustration in {len(ILLUSTRATIONS)} files, which only show what the others say, and"
        f" {sums['consequences']} lines of consequences in {len(CONSEQUENCES)} files, claims that follow from what is said elsewhere.",
    ]
    readme, page = ROOT / "README.md", ROOT / "docs/PROMISES.md"
    stated = f"{sums['believed']} lines in {len(parts['believed'])} files"
    text = between(readme.read_text(), "promises", promise_table(groups))
    text, found = re.subn(r"\d+ lines in \d+ files", stated, text)
    if found != 1:
        fail("README does not say once how many lines have to be believed")
    made = {readme: text, page: page.read_text()}
    tables = {"counts": counts, "stands on": stands_on(files, groups), "types": types, "kit": names}
    tables |= {name: file_table(files, keys) for name, keys in parts.items()}
    for mark, rows in tables.items():
        made[page] = between(made[page], mark, rows)
    for path, text in made.items():
        if "--write" in sys.argv[1:]:
            path.write_text(text)
        elif path.read_text() != text:
            fail(f"{path.relative_to(ROOT)} is not as the sources have it: tests/believed/pages.py --write makes it anew")
    print(f"believed: {stated}, {points} contracts, {sum(len(fields) for _, fields in groups)} promises; no bridge cited, nothing unused")


main()
