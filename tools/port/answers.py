#!/usr/bin/env python3
"""Turns a function's Proof.antt of the older form, a list of answers for `tie.spec`, into Invariants.antt and Answers.antt.

usage: python3 tools/port/answers.py NAMES CRATE [FUNCTION..]

NAMES is the names.json that `rt check --generated DIR --old-names` writes for the crate in the folder CRATE; a FUNCTION is a folder below proofs/.
An answer that only says `search rules` or `omega arith` is left out, since the check tries both. What could not be turned is said on a line that
begins `left:`, with the file; the old file stays beside the new ones as Proof.antt.old.
"""

import json
import re
import sys
from pathlib import Path

NAME = r"[^\s(){}.;,@\"«»\[\]|]+"
PATH = re.compile(rf"(?<![^\s(){{}}\[\],;|])({NAME})((?:\.{NAME})+|)(?![^\s(){{}}\[\],;|.])")


# Words that port.py and respell.py turned although they stood for a step of the source.
TURNED = {"type_size": "size_of", "Mode_of": "mode_of"}


def plain(name):
    name = re.sub(r"_lem$", "", name.replace("-", "_"))
    return TURNED.get(name, name)


class Place:
    def __init__(self, row, i):
        self.old, self.parent, (self.field, self.new_field), self.callee, self.more = row[:5]
        self.i = i


class Function:
    def __init__(self, names, crate, folder, said):
        self.names, self.folder, self.said = names, folder, said
        self.path = ".".join(folder.relative_to(crate / "proofs").parts)
        self.crate = crate.name
        self.places = [Place(r, i) for i, r in enumerate(names["places"])]
        self.by_old = {plain(p.old): p for p in self.places}
        for p, new in zip(self.places, names["places_by_name"]):
            p.new = new
        self.needs = {plain(a): (b, plain(at[0])) for (a, b), at in zip(names["needs"], names["asked_at"])}
        self.asked = {plain(k): v for k, v in names["asked"].items()}
        self.places_used, self.negated = set(), False
        # where a path goes up more places than there are now, by how many
        self.skew, self.skews = 0, []
        # the place that each helper takes first
        self.firsts = {}

    def left(self, what):
        self.said.append(f"left: {self.path}: {what}")

    # places
    def whole(self, place):
        """Of a match's arm the record that has its names: In-X for In-X-1 and In-X-2."""
        m = re.fullmatch(r"(In[-_].*)-\d+", place.new)
        for p in self.places if m else []:
            above = self.up(p), self.up(self.up(p)) if self.up(p) else None
            if p.new == m[1] and place in above:
                return p
        return place

    def up(self, place):
        return self.by_old.get(plain(place.parent)) if place.parent else None

    def depth(self, place, above):
        n = 0
        while place is not above:
            place, n = self.up(place), n + 1
        return n

    def step(self, place, field):
        """The new name of the step that the record of `place` has under the old name `field`, with its place: its own or one above."""
        p = place
        while p is not None:
            if p.field and plain(p.field) == plain(field):
                return p
            p = self.up(p)
        return None

    def walk(self, root, place, segments, top):
        """The new text of root.segments, where root is at `place`; `top` if root is a goal's own `c`."""
        at = place
        rest = list(segments)
        steps = 0
        while rest and rest[0] == "before":
            steps += 1
            rest.pop(0)
        if rest:
            here = self.step(place, rest[0])
            if here is not None:
                self.skews.append(steps - self.depth(place, here))
        for _ in range(max(0, steps - self.skew)):
            at = self.up(at) or at
        if not rest:
            at = self.whole(at)
            self.places_used.add(at.new)
            if at is place:
                return root, ("place", at)
            return f"(goal.at.{top or place.new} {root}).{at.new}", ("place", at)
        field = rest.pop(0)
        if field in ("requires", "pre"):
            return self.fields(root + ".requires", ("requires",), rest)
        if field in ("args", "ranges", "well_formed", "lifetimes", "utf8"):
            return self.fields(root + "." + field, ("plain",), rest)
        found = self.step(at, field) or self.step(place, field)
        if found is None:
            self.left(f"field {field} at {at.old} in {root}.{'.'.join(segments)}")
            return ".".join([root, field] + rest), ("plain",)
        base = root + "." + found.new_field
        if rest and ["true", "true-raw"] in found.more and rest == ["true"] or ["false", "false-raw"] in found.more and rest == ["false"]:
            self.negated = True
            return f"(ap not {base}.{rest[0]})", ("plain",)
        arm = self.arm(place, found, rest)
        if arm:
            return self.fields(root + "." + arm[0], arm[2], arm[1])
        if rest and rest[0] == "given" and top:
            for var, fact in self.names["typed"][place.i] or []:
                if plain(fact) == plain(found.field):
                    return self.fields(f"{root}.type_inv.{var}", ("plain",), rest[1:])
        return self.fields(base, ("step", found), rest)

    def arm(self, place, found, rest):
        p = place
        while p is not None:
            entry = self.names["arms"][p.i]
            if entry:
                name, _, rows = entry
                best = None
                for new, old, path in rows:
                    if plain(old) == plain(found.field) and rest[: len(path)] == path:
                        if best is None or len(path) > len(best[1]):
                            best = (new, path)
                if best:
                    return f"{name}.{best[0]}", rest[len(best[1]) :], ("plain",)
            p = self.up(p)
        return None

    def fields(self, base, kind, rest):
        rest = list(rest)
        if kind[0] == "step" and len(rest) > 1 and rest[0] in ("new", "last", "auto", "kept") and rest[1].isdigit():
            params = self.names["params"].get(kind[1].callee or "", [])
            base += "." + {"last": "new", "kept": "auto"}.get(rest[0], rest[0])
            rest.pop(0)
            i = 0
            while rest and rest[0] == "1" and i < len(params) - 1:
                rest.pop(0)
                i += 1
            if rest and rest[0] == "0":
                rest.pop(0)
            if i < len(params):
                return self.fields(base + "." + params[i], ("plain",), rest)
            self.left(f"buffer {i} of {params} at {base}")
        if kind[0] == "step" and rest and rest[0] == "ensures":
            clause = self.names["clauses"][kind[1].i]
            base += ".ensures"
            rest.pop(0)
            return self.fields(base, ("clauses", clause["fields"] if clause else None), rest)
        if kind[0] == "requires":
            return self.fields(base, ("clauses", (self.names["pre"] or {}).get("fields")), rest)
        if kind[0] == "clauses" and kind[1]:
            fields = list(kind[1])
            while rest and rest[0].isdigit() and fields:
                i = int(rest[0])
                rest.pop(0)
                if i == 1 and len(fields) > 2 and rest and rest[0].isdigit():
                    fields = fields[1:]
                    continue
                if i < len(fields):
                    return self.fields(base + "." + fields[i], ("plain",), rest)
                self.left(f"clause {i} of {fields} at {base}")
                break
            if not rest:
                return base, kind if len(fields) == len(kind[1]) else ("clauses", fields)
        if kind[0] == "step" and rest in (["left"], ["taken"]) and kind[1].old.startswith(("Then", "Else")):
            rest = ["false" if rest == ["left"] else "true"]
        if kind[0] == "step" and rest and rest[0] == "inv" and kind[1].old.startswith("At-"):
            rest[0] = "invariant"
        if rest == ["branch"]:
            rest = ["branch-raw"]
        out = [re.sub(r"-(?!(?:is|bits|fits|end)$)", "_", s) if not s.startswith("in-") and s not in ("branch-raw",) else s for s in rest]
        return ".".join([base] + out), (kind if not rest and kind[0] in ("clauses", "step") else ("plain",))


def chunks(text):
    """The top-level declarations of a file: (comment lines, name, signature, unfolding lines, clauses)."""
    lines = text.split("\n")
    head, uses, out, i = [], [], [], 0
    while i < len(lines) and lines[i].startswith("--"):
        head.append(lines[i])
        i += 1
    while i < len(lines) and (lines[i].startswith("use ") or not lines[i].strip()):
        if lines[i].strip():
            uses.append(lines[i])
        i += 1
    block = []
    blocks = []
    for line in lines[i:]:
        if not line.strip():
            if block:
                blocks.append(block)
            block = []
        else:
            block.append(line)
    if block:
        blocks.append(block)
    # a declaration may go on over a blank line only where it is indented
    merged = []
    for b in blocks:
        if merged and b[0].startswith(" "):
            merged[-1] += [""] + b
        else:
            merged.append(b)
    return head, uses, merged


def split(block):
    comments, i = [], 0
    while block[i].startswith("--"):
        comments.append(block[i])
        i += 1
        if i == len(block):
            return comments, None, "", [], []
    m = re.match(r"(?:(?:abbrev|pub|unfoldable) )*(\S+)", block[i])
    name = m[1]
    sig = [block[i]]
    i += 1
    while i < len(block) and block[i].startswith(" "):
        sig.append(block[i])
        i += 1
    unfolding = []
    while i < len(block) and block[i].startswith("unfolding"):
        unfolding.append(block[i])
        i += 1
        while i < len(block) and block[i].startswith(" "):
            unfolding.append(block[i])
            i += 1
    return comments, name, "\n".join(sig), unfolding, block[i:]


def take_let(text, at):
    """From `let` at `at`: (name, value, the index behind ` in`), or None where the value holds no plain path."""
    m = re.compile(rf"let ({NAME}) = ((?:\({NAME}[^()]*\)|{NAME})(?:\.{NAME})*) in\b\s*").match(text, at)
    return m and (m[1], m[2], m.end())


class Body:
    """Turns a body, given the places of its variables."""

    def __init__(self, fn, env, aliases):
        self.fn, self.env, self.aliases = fn, dict(env), aliases

    def value(self, text):
        for _ in range(4):
            before = text
            for name, (place, target) in self.aliases.items():
                # helper x, where helper gives a place above x's
                word = re.escape(name)
                path = rf"{NAME}(?:\.before)*"
                text = re.sub(rf"\({word} ({path})\)", lambda m: self.jump(m[1], place, target), text)
                text = re.sub(rf"= {word} ({path}) in\b", lambda m: "= " + self.jump(m[1], place, target) + " in", text)
                text = re.sub(rf"\(({NAME}) ({word}) ({path})\)", lambda m: m[0], text)
            if text == before:
                break
        return text

    def jump(self, path, place, target):
        n = self.fn.depth(place, target)
        return path + ".before" * n

    def turn(self, text):
        """Once to see how far the old paths go beyond today's, and once for good."""
        kept = dict(self.env), set(self.fn.places_used), list(self.fn.said), self.fn.negated
        self.fn.skews, self.fn.skew = [], 0
        self.turned(text)
        found = [k for k in self.fn.skews if k > 0]
        self.env, self.fn.places_used, self.fn.said[:], self.fn.negated = dict(kept[0]), set(kept[1]), kept[2], kept[3]
        self.fn.skew = max(set(found), key=found.count) if found else 0
        out = self.turned(text)
        self.fn.skew = 0
        return out

    def turned(self, text):
        text = self.value(text)
        out, i = [], 0
        while i < len(text):
            if text.startswith("let ", i) and (i == 0 or not re.match(r"[\w.'-]", text[i - 1])):
                got = take_let(text, i)
                if got:
                    name, value, end = got
                    new, kind = self.path(value)
                    if value.endswith(".given") and kind is not None:
                        self.env[name] = ("alias", new, None, False, value)
                        i = end
                        continue
                    if kind is not None and kind[0] == "place":
                        root = value.split(".")[0]
                        self.env[name] = ("alias", new, kind[1], self.top_of(root), value)
                        i = end
                        continue
                    if kind is not None:
                        self.env[name] = ("part", name, kind)
                        out.append(f"let {name} = {new} in" + text[end - len(text[i:end]) + len(text[i:end].rstrip()) : end])
                        i = end
                        continue
            m = PATH.match(text, i)
            if m and (i == 0 or re.match(r"[\s(){}\[\],;|]", text[i - 1])):
                new, kind = self.path(m[0])
                before = re.search(rf"({NAME}) +$", text[:i])
                wanted = before and self.fn.firsts.get(before[1])
                if wanted is not None and kind is not None and kind[0] == "place":
                    new = self.at(m[0], wanted)
                out.append(new)
                i = m.end()
                continue
            out.append(text[i])
            i += 1
        return "".join(out)

    def at(self, path, wanted):
        """The record of the place that a helper wants, from the root that the path begins with."""
        root, *rest = path.split(".")
        while self.env[root][0] == "alias":
            root = self.env[root][4].split(".")[0]
        _, place, top = self.env[root]
        self.fn.places_used.add(wanted.new)
        if wanted is place:
            return root
        return f"(goal.at.{top or place.new} {root}).{wanted.new}"

    def top_of(self, root):
        e = self.env.get(root)
        return e is not None and e[0] == "place" and e[2]

    def path(self, text):
        root, *rest = text.split(".")
        e = self.env.get(root)
        if e is None:
            return text, None
        if e[0] == "place":
            return self.fn.walk(root, e[1], rest, e[2])
        if e[0] == "alias":
            _, new, place, _, value = e
            if not rest and place is not None:
                return new, ("place", place)
            # go on from the root that the alias began with
            first, *more = value.split(".")
            while self.env.get(first, ("",))[0] == "alias":
                first, *above = self.env[first][4].split(".")
                more = above + more
            return self.path(".".join([first] + more + rest))
        if e[0] == "part":
            return self.fn.fields(root, e[2], rest)
        return text, None


def convert(fn):
    old = fn.folder / "Proof.antt"
    text = old.read_text().replace(".«record»", ".record").replace(".«data»", ".data")
    head, uses, blocks = chunks(text)
    names = fn.names
    decls = []
    pending = []
    for b in blocks:
        if any(line.startswith("module _") for line in b):
            decls.append((pending, f"module{len(decls)}", "\n".join(b), [], []))
            pending = []
            continue
        comments, name, sig, unfolding, clauses = split(b)
        if name is None:
            pending += comments
            continue
        decls.append((pending + comments, name, sig, unfolding, clauses))
        pending = []
    loops = {plain(l[0][0]): (l[0][1], l[1], ch) for l, ch in zip(names["loops"], names["changed"])}
    # loop words of the types
    place_args = {}
    invariants, answers = [], []
    defined = {d[1] for d in decls}

    def loop_of(kind, sig):
        m = re.search(rf"tie\.{kind}-(\S+)", sig)
        return m and loops.get(plain(m[1]))

    inv_names = {}
    for d in decls:
        for kind in ("invariant", "decreases"):
            m = re.search(rf": tie\.{kind}-([^\s]+)\s*$", d[2])
            if m:
                inv_names[d[1]] = (kind, loops.get(plain(m[1])))
    # the definitions that the invariants use
    bodies = {d[1]: "\n".join([d[2]] + d[3] + d[4]) for d in decls}
    wanted, queue = set(), list(inv_names)
    while queue:
        n = queue.pop()
        own = re.match(rf"{re.escape(n)}((?:\s+(?!=\s){NAME})*)\s*=\s", bodies[n].split("\n", bodies[n].count("\n") and 1)[-1])
        bound = set(own[1].split()) if own else set()
        for w in re.findall(NAME, bodies[n]):
            w = w.split(".")[0]
            if w in defined and w not in wanted and w not in inv_names and w not in bound and "tie." not in bodies[w].split("\n")[0]:
                wanted.add(w)
                queue.append(w)

    def place_types(s):
        def one(m):
            p = fn.by_old.get(plain(m[1]))
            if p is None:
                fn.left(f"place {m[1]}")
                return m[0]
            p = fn.whole(p)
            fn.places_used.add(p.new)
            return p.new
        for n in inv_names:
            s = re.sub(rf"(?<=\S) {re.escape(n)}(?![\w-])", "", s)
        s = re.sub(rf"tie\.((?:Start|After|Else|Then|In|At|Joined)[^\s(){{}}]*)", one, s)
        return s

    aliases = {}
    for d in decls:
        comments, name, sig, unfolding, clauses = d
        if name.endswith("-spec") or name.endswith("_spec"):
            continue
        if name in inv_names:
            kind, loop = inv_names[name]
            if not loop:
                fn.left(f"loop of {name}")
                continue
            new, variables, changed = loop
            body = "\n".join(clauses)
            m = re.match(rf"{re.escape(name)}((?:\s+(?!=\s){NAME})*)\s*=\s+", body)
            args = m[1].split()
            rest = body[m.end() :]
            want = list(variables) + [v for v, c in zip(variables, changed) if c]
            if len(args) != len(want):
                fn.left(f"{name} has {len(args)} arguments and not {len(want)}: {want}")
            table = {}
            for k, (a, v) in enumerate(zip(args, want)):
                if a == "_":
                    continue
                table[a] = f"l.initial.{v}" if k < len(variables) and changed[k] else f"l.{v}"
            # a bound variable of the same name hides the argument: said, not handled
            rest = re.sub(rf"(?<![^\s(){{}}\[\],;|])({NAME})", lambda m: table.get(m[1], m[1]), rest)
            invariants.append(comments + [f"abbrev pub {kind}-{new} : goal.{kind}-{new}"] + unfolding + [f"{kind}-{new} l = {rest}"])
            continue
        if name in wanted:
            s = sig if re.match(r"(abbrev )?pub ", sig) or " pub " in sig.split(":")[0] else re.sub(r"^(abbrev )?", lambda m: (m[1] or "") + "pub ", sig, count=1)
            invariants.append(comments + [s] + unfolding + clauses)
            continue
        if sig.startswith("module _") or name.startswith("module") and "module _" in sig:
            answers.append((name, comments + [sig], ""))
            continue
        need = re.match(rf"\S+ :\s+tie\.Need-(\S+)", sig)
        if need:
            key = plain(need[1])
            for k in (key, re.sub(r"^(overflow|nonzero)_", "", key)):
                if k in fn.needs:
                    key = k
                    break
            else:
                fn.left(f"need {need[1]}: not asked" + (" (settled)" if names["settled"] else ""))
                continue
            new, at = fn.needs[key]
            body = "\n".join(clauses)
            m = re.match(rf"{re.escape(name)}((?:\s+(?!=\s){NAME})*)\s*=\s+", body)
            args = m[1].split()
            if len(args) > 1 and args[1] == "κs":
                del args[1]
            rest = body[m.end() :]
            if rest.strip() in ("search rules", "omega arith") and not unfolding:
                continue
            b = Body(fn, {args[0]: ("place", fn.by_old[at], new)}, aliases)
            rest = b.turn(rest).strip()
            fields = fn.asked.get(key)
            if fields:
                rest = by_tactic(fn, rest, fields) or as_record(rest, fields)
            answers.append((name, comments + [f"pub {new} : goal.{new}"] + unfolding + [f"{new} {' '.join(args)} ={gap(rest)}{rest}"], new))
            continue
        # a helper, perhaps over places
        params = re.findall(rf"tie\.((?:Start|After|Else|Then|In|At|Joined)[^\s(){{}}]*)", sig)
        if not params:
            answers.append((name, comments + [sig] + unfolding + clauses, None))
            continue
        body = "\n".join(clauses)
        m = re.match(rf"{re.escape(name)}((?:\s+(?!=\s)(?:{NAME}|\{{[^}}]*\}}))*)\s*=\s+", body)
        if not m:
            fn.left(f"helper {name}")
            answers.append((name, comments + [place_types(sig)] + unfolding + clauses, None))
            continue
        written = m[1].split()
        args = [a for a in written if not a.startswith("{")]
        rest = body[m.end() :]
        # explicit places in the signature, in order: (c : tie.X ..) or tie.X → ..
        sigtext = sig.split(":", 1)[1]
        order = re.findall(rf"\(({NAME}) : tie\.({NAME})[^()]*\)|(?<!: )\btie\.({NAME})(?=[^()]*→)|\(({NAME}(?: {NAME})*) : |([^\s→()][^→]*)→", sigtext)
        env, k = {}, 0
        for bound, typ, bare, others, plain_type in order:
            if bound:
                p = fn.by_old.get(plain(typ)) and fn.whole(fn.by_old[plain(typ)])
                if k < len(args) and p:
                    env[args[k]] = ("place", p, False)
                k += 1
            elif bare:
                p = fn.by_old.get(plain(bare)) and fn.whole(fn.by_old[plain(bare)])
                if k < len(args) and p:
                    env[args[k]] = ("place", p, False)
                k += 1
            elif others:
                k += len(others.split())
            else:
                k += 1
        first = next(iter(order), None)
        if first and (first[1] or first[2]):
            typ = fn.by_old.get(plain(first[1] or first[2]))
            if typ is not None:
                fn.firsts[name] = fn.whole(typ)
        # signature: the bound places' paths
        bound_env = {b: ("place", fn.whole(fn.by_old[plain(t)]), False) for b, t, *_ in order if b and plain(t) in fn.by_old}
        simple = re.fullmatch(rf"({NAME})((?:\.before)*)", rest.strip())
        last = re.search(rf"→\s*tie\.({NAME})[^→]*$", sigtext)
        if simple and last and len(args) == 1 and args[0] in env and simple[1] == args[0]:
            p = env[args[0]][1]
            target = p
            for _ in range(simple[2].count(".before")):
                target = fn.up(target)
            aliases[name] = (p, target)
        b = Body(fn, env, aliases)
        rest = b.turn(rest)
        head_part, tail_part = sig.split(":", 1)
        sb = Body(fn, bound_env, aliases)
        new_sig = head_part + ":" + place_types(sb.turn(tail_part))
        answers.append((name, comments + [new_sig] + unfolding + [f"{name} {' '.join(written)} = {rest}"], None))

    # what nothing cites goes
    def cited(name, texts):
        return any(re.search(rf"(?<![^\s(){{}}\[\],;|.]){re.escape(name)}(?![^\s(){{}}\[\],;|.])", t) for t in texts)

    texts = {n: "\n".join(b) for n, b, new in answers}
    while True:
        drop = [n for n, b, new in answers if new is None and not cited(n, [t for m, t in texts.items() if m != n])]
        if not drop:
            break
        answers = [a for a in answers if a[0] not in drop]
        texts = {n: "\n".join(b) for n, b, new in answers}
    base = f"Rattle.{fn.crate}.proofs.{fn.path}"
    uses = [u for u in uses if not u.startswith(f"use {base}.")]
    out = []
    if invariants:
        body = "\n\n".join("\n".join(b) for b in invariants)
        write(fn.folder / "Invariants.antt", head, uses + [f"use {base}.Given as goal"], body)
        out.append("Invariants")
    if answers:
        body = "\n\n".join("\n".join(b) for n, b, new in answers)
        u = list(uses)
        shared = sorted(w for w in wanted if cited(w, [body]))
        if shared:
            u.append(f"use {base}.Invariants.{{{', '.join(shared)}}}")
        if re.search(r"\btie\.", body):
            u.append(f"use {base}.Tie as tie")
        u.append(f"use {base}.Goals as goal")
        typed = [x for x in sorted(fn.places_used) if re.search(rf"(?<![^\s(){{}}\[\],;]){re.escape(x)}(?![^\s(){{}}\[\],;|.])", body)]
        if typed:
            u.append(f"use {base}.Goals.{{{', '.join(typed)}}}")
        if fn.negated:
            u = with_common(u)
        own = {n for n, b, new in answers if new is None}
        u = [without(x, own) for x in u]
        write(fn.folder / "Answers.antt", head, u, body)
        out.append("Answers")
    old.rename(fn.folder / "Proof.antt.old")
    return out


def without(use, own):
    m = re.match(r"use (\S+?)\.\{(.*)\}$", use)
    if not m:
        return use
    return f"use {m[1]}.{{{', '.join(n for n in m[2].split(', ') if n not in own)}}}"


def gap(rest):
    return "\n    " if "\n" in rest else " "


def with_common(uses):
    """The imports of `ap` and `not`, which a negated test needs."""
    for i, u in enumerate(uses):
        m = re.match(r"use Rattle\.std\.proofs\.Common\.\{(.*)\}$", u)
        if m:
            names = m[1].split(", ")
            return uses[:i] + [f"use Rattle.std.proofs.Common.{{{', '.join(names + [n for n in ('not', 'ap') if n not in names])}}}"] + uses[i + 1 :]
    return ["use Rattle.std.proofs.Common.{not, ap}"] + uses


def by_tactic(fn, rest, fields):
    """`simp e t`, where t is what a call ensures: clause by clause."""
    m = re.fullmatch(r"((?:let .*? in\s+)*)(simp|rw) (\((?:[^()]|\((?:[^()]|\([^()]*\))*\))*\)|\S+) (c\.(\S+)\.ensures)", rest, re.S)
    if not m:
        return None
    theirs = next((fn.names["clauses"][p.i]["fields"] for p in fn.places if p.new_field == m[5] and fn.names["clauses"][p.i]), None)
    if not theirs or len(theirs) != len(fields):
        return None
    rec = "; ".join(f"{f} = {m[2]} {m[3]} {m[4]}.{t}" for f, t in zip(fields, theirs))
    return f"{m[1]}record {{ {rec} }}"


def as_record(rest, fields):
    """The answer as a record of the clauses: the parts of its last pair, or the fields of its value."""
    m = re.search(r"\((?=[^()]*(?:\([^()]*(?:\([^()]*(?:\([^()]*(?:\([^()]*\)[^()]*)*\)[^()]*)*\)[^()]*)*\)[^()]*)*,)", rest)
    # the last top-level parenthesis that ends the text and has as many parts as there are clauses
    if rest.endswith(")"):
        depth, i = 0, len(rest) - 1
        while i >= 0:
            depth += {")": 1, "(": -1}.get(rest[i], 0)
            if depth == 0:
                break
            i -= 1
        before = rest[:i].rstrip()
        if before == "" or before.endswith(" in") or before.endswith("\nin"):
            parts = [x for x in parts_of(rest[i + 1 : -1]) if x.strip()]
            while len(parts) == 2 and len(fields) > 2 and parts[1].strip().startswith("("):
                inner = parts[1].strip()[1:-1]
                more = [x for x in parts_of(inner) if x.strip()]
                parts = [parts[0]] + more
                if len(parts) >= len(fields):
                    break
            if len(parts) == len(fields):
                rec = "; ".join(f"{f} = {p.strip()}" for f, p in zip(fields, parts))
                return f"{rest[:i]}record {{ {rec} }}"
    # a value with as many parts
    lets = re.match(r"((?:let .*? in\s+)*)", rest, re.S)
    k = rest.rfind(" in\n") + 4 if " in\n" in rest else (rest.rfind(" in ") + 4 if " in " in rest else 0)
    path = ["both.0"] if len(fields) == 2 else [f"both.{i}" for i in range(len(fields))]
    rec = "; ".join(f"{f} = both.{i}" for i, f in enumerate(fields))
    return f"{rest[:k]}{'    ' if k else ''}let both = {rest[k:].strip()} in\n    record {{ {rec} }}"


def parts_of(text):
    depth, out, last = 0, [], 0
    for i, ch in enumerate(text):
        if ch in "([{":
            depth += 1
        elif ch in ")]}":
            depth -= 1
        elif ch == "," and depth == 0:
            out.append(text[last:i])
            last = i + 1
    return out + [text[last:]]


def write(path, head, uses, body):
    kept = []
    for u in uses:
        m = re.match(r"use (\S+?)\.\{(.*)\}$", u)
        if m:
            names = [n.strip() for n in m[2].split(",")]
            used = [n for n in names if uses_name(n.split(" as ")[-1].strip(), body)]
            if used:
                kept.append(f"use {m[1]}.{{{', '.join(used)}}}")
        else:
            kept.append(u)
    path.write_text("\n".join(head + kept) + "\n\n" + body + "\n")


def uses_name(name, body):
    parts = [p for p in name.split("◌") if p]
    if "◌" in name:
        return all(re.search(rf"(?<![^\s(){{}}\[\],;]){re.escape(p)}(?![^\s(){{}}\[\],;.])", body) for p in parts) or name in body
    return re.search(rf"(?<![^\s(){{}}\[\],;|←]){re.escape(name)}(?![^\s(){{}}\[\],;|.])", body) or re.search(rf"(?<![^\s(){{}}\[\],;|←]){re.escape(name)}\.", body)


def main():
    names = json.load(open(sys.argv[1]))
    crate = Path(sys.argv[2])
    wanted = sys.argv[3:]
    said = []
    for old in sorted((crate / "proofs").rglob("Proof.antt")):
        folder = old.parent
        path = ".".join(folder.relative_to(crate / "proofs").parts)
        if wanted and path not in wanted and path.replace(".", "/") not in wanted:
            continue
        key = f"Rattle-{crate.name}-proofs.{path}.Lts"
        if key not in names:
            said.append(f"left: {path}: no names")
            continue
        if "tie.close" not in old.read_text():
            said.append(f"left: {path}: a walk")
            continue
        try:
            convert(Function(names[key], crate, folder, said))
        except Exception as e:
            said.append(f"left: {path}: {type(e).__name__} {e}")
            import traceback
            if "-v" in sys.argv:
                traceback.print_exc()
    print("\n".join(said))


main()
