#!/usr/bin/env python3
"""Turns proofs of the older form into today's: proofs/F/Proof.antt that closes by tie.close becomes Invariants.antt and Answers.antt.

usage: python3 tools/turn_proofs.py NAMES.json [FUNCTION..]      in a crate's folder

NAMES.json is what `rt check --generated FOLDER --old-names` writes in that crate: each goal's older and newer name. Answers
that only said `search rules` are left out, since the check makes them itself. Invariants take the loop's record; steps are
named as today. The older files go to out/older-proofs/. What is left by hand is printed as 'look: ..': rt check decides.
It was made for the port (docs/PORT.md) and waits for the join's patch, which is still in the older form.
"""

import json
import os
import re
import sys

WORD = r"[A-Za-z_][\w'\-₀-₉]*"
FIELDS_OF_ALL = ("args", "requires", "ranges", "lifetimes", "type_inv", "well_formed", "auto", "utf8")


def alike(a, b):
    return a.replace("_", "-") == b.replace("_", "-")


class Function:
    """One function's older proof, and what names.json says of its goals, steps and loops."""

    def __init__(self, name, names, text):
        self.name, self.names, self.text = name, names, text
        self.goals = names["needs"]
        self.places = {p[0]: p for p in names["places"]}
        self.place_names = dict(zip([p[0] for p in names["places"]], names["places_by_name"]))
        self.constructors = set()

    def look(self, what):
        print(f"look: {self.name}: {what}")

    def goal(self, older):
        """The goal that an older name means, by its place in names.json."""
        for want in (older, re.sub(r"^overflow-", "", older), re.sub(r"^(slice-)?bounds-", "", older)):
            for i, (old, _) in enumerate(self.goals):
                if alike(old, want):
                    return i
        return None

    def step(self, older, place):
        """Today's name of a step, looked for from a place upwards and then anywhere."""
        while place is not None and place in self.places:
            old, new = self.places[place][2]
            if old and alike(old, older):
                return new
            place = self.places[place][1]
        found = {p[2][1] for p in self.places.values() if p[2][0] and alike(p[2][0], older)}
        if len(found) > 1:
            self.look(f"step {older} may be {sorted(found)}")
        return found.pop() if len(found) == 1 else None

    def steps(self, text, place):
        """`c.before.before.step.field` as `c.step.field`."""

        def one(m):
            chain = m.group(1).split(".")[1:]
            while chain and chain[0] == "before":
                chain = chain[1:]
            if not chain:
                return m.group(0)
            if chain[0] in FIELDS_OF_ALL:
                return ".".join(["c"] + chain)
            new = self.step(chain[0], place)
            return ".".join(["c", new] + chain[1:]) if new else m.group(0)

        return re.sub(r"\bc((?:\.[A-Za-z0-9_'-]+)+)", one, text)

    def branches(self, text):
        """A case split on how a branch went, with the names of its two ways."""
        m = re.search(r"⊎_elim \(", text)
        if not m:
            return text
        first = m.end() - 1
        middle = closing(text, first)
        if middle is None or text[middle : middle + 2] != " (":
            return text
        last = closing(text, middle + 1)
        rest = re.match(r" c\.(?:before\.)*(if-[\w'-]+)\.branch", text[last:]) if last else None
        ways = [re.match(r"\(λ (\w+)\. (.*)\)$", s, re.S) for s in (text[first:middle], text[middle + 1 : last or middle + 1])]
        if not rest or not all(ways):
            return text
        then, other = "then" + rest.group(1)[2:], "else" + rest.group(1)[2:]
        self.constructors |= {then, other}
        split = f"elim c.{rest.group(1)}.branch [ {then} {ways[0][1]} ↦ {ways[0][2]} | {other} {ways[1][1]} ↦ {ways[1][2]} ]"
        return text[: m.start()] + split + self.branches(text[last + rest.end() :])

    def answer(self, i, lines, older):
        """The lines of an answer, or none where the check makes it."""
        new, place = self.goals[i][1], self.names["asked_at"][i][0]
        for _ in range(6):
            aliases = {v for l in lines for v in re.findall(r"let (\w+) = c(?:\.before)+ in", l)}
            if not aliases:
                break
            lines = [re.sub(r"let \w+ = c(?:\.before)+ in ?", "", l) for l in lines]
            for v in aliases:
                lines = [re.sub(r"(?<![\w.'-])" + v + r"(?=\.)", "c", l) for l in lines]
            lines = [l for l in lines if l.strip()]
        lines = [re.sub("^" + re.escape(older) + r" c( κs)?( _)?\b", new + " c", l) for l in lines]
        text = self.branches("\n".join(self.steps(l, place) for l in lines))
        text = re.sub(r"\(not-(?:false|true) _ (c\.if-not-[\w'-]+\.(?:true|false))\)", r"\1", text)
        return "" if re.fullmatch(re.escape(new) + r" c = search rules\s*", text) else f"pub {new} : goal.{new}\n{text}"

    def invariant(self, kind, older_loop, older, lines):
        """An invariant or a measure as a function of the loop's record."""
        for ((old, new), live), changed in zip(self.names["loops"], self.names["changed"]):
            if alike(old, older_loop):
                break
        else:
            return self.look(f"loop {older_loop}")
        m = re.match(re.escape(older) + r"\s+((?:[^\s=]+\s+)*)=\s*(.*)$", "\n".join(lines), re.S)
        if not m:
            return self.look(f"{kind}-{older_loop} cannot be read")
        parameters, term, changes = m.group(1).split(), m.group(2), dict(zip(live, changed))
        plain = lambda p: re.sub(r"[₀-₉']+$", "", p).replace("-", "_")
        by_place = live + [v for v in live if changes[v]]
        to = {}
        if not all(p == "_" or plain(p) in changes for p in parameters) and len(parameters) == len(by_place):
            to = {p: f"l.initial.{v}" if k < len(live) and changes[v] else f"l.{v}" for k, (p, v) in enumerate(zip(parameters, by_place))}
        else:
            to = {p: f"l.initial.{plain(p)}" if p.endswith("₀") and changes.get(plain(p)) else f"l.{plain(p)}" for p in parameters}
        term = re.sub(r"(?<![\w.'-])" + WORD + r"(?! = )", lambda t: to.get(t.group(0), t.group(0)), term)
        return f"abbrev pub {kind}-{new} : goal.{kind}-{new}\n{kind}-{new} l = {term}"


def closing(text, i):
    """The place after the parenthesis that closes the one at i."""
    depth = 0
    for k in range(i, len(text)):
        depth += {"(": 1, ")": -1}.get(text[k], 0)
        if depth == 0:
            return k + 1
    return None


def blocks(text):
    """The file's `use` lines, its opening comment, and its declarations with the comments before each."""
    uses, found, comment, block = [], [], [], None
    lines = text.rstrip("\n").split("\n")
    opening = []
    while lines and lines[0].startswith("--"):
        opening.append(lines.pop(0))
    for line in lines:
        if line.startswith("use "):
            uses.append(line)
        elif line.startswith("--"):
            comment.append(line)
            block = None
        elif not line.strip():
            block = None if block is None else block
        elif line[0] in " \t" or (block is not None and not re.match(r"(abbrev |unfoldable |pub )*[^\s:]+\s*:(\s|$)", line)):
            block.append(line)
        else:
            block = [line]
            found.append((comment, block))
            comment = []
    return uses, opening, found


def spec_answers(text):
    """The arguments of tie.spec, in order."""
    i = text.find("tie.spec")
    out, word, depth = [], "", 0
    for ch in text[i + len("tie.spec") :] if i >= 0 else "":
        depth += {"(": 1, ")": -1}.get(ch, 0)
        if depth < 0:
            break
        if ch.isspace() and depth == 0:
            out, word = out + [word] * bool(word), ""
        else:
            word += ch
    return [a for a in out + [word] * bool(word) if not re.match(r"(invariant|decreases)-", a)]


def turn(crate, folder, f):
    uses, opening, found = blocks(f.text)
    answers, invariants, others, spec, local = [], [], [], "", {}
    for comment, block in found:
        m = re.match(r"(?:abbrev |pub |unfoldable )*([^\s:]+)\s*:\s*(.*)$", block[0])
        name, kind = (m.group(1), m.group(2).strip()) if m else ("", "")
        loop, goal = re.match(r"tie\.(invariant|decreases)-([\w'-]+)$", kind), re.match(r"tie\.Need-([\w'-]+)", kind)
        if "statement M" in kind:
            spec = " ".join(block)
        elif loop:
            text = f.invariant(loop.group(1), loop.group(2), name, block[1:])
            invariants += ["\n".join(comment + [text])] if text else []
        elif goal and "→" not in kind:
            local[name] = [comment, block[1:], f.goal(goal.group(1)), goal.group(1)]
        else:
            others.append("\n".join(comment + block))
    by_place = spec_answers(spec)
    if len(by_place) == len(f.goals):
        for i, a in enumerate(by_place):
            inline = re.match(r"λ c( κs)?\. (.*)$", re.sub(r"\s+", " ", a[1:-1])) if a.startswith("(") else None
            if a in local:
                local[a][2] = i
            elif inline and inline.group(2).strip() != "search rules":
                local[f"inline {i}"] = [[], [f"inline {i} c = {inline.group(2)}"], i, ""]
    else:
        f.look(f"{len(by_place)} answers by place, {len(f.goals)} goals now")
    for name, (comment, lines, i, older) in local.items():
        if i is None:
            f.look(f"no goal for {older}")
        else:
            text = f.answer(i, lines, name)
            answers += ["\n".join(comment + [text])] if text else []

    def place(m):
        new = next((n for o, n in f.place_names.items() if alike(o, m.group(1))), None)
        return "goal." + (new or m.group(1))

    others = [re.sub(r"tie\.([A-Z][\w'-]*)", place, o) for o in others]
    keep = [u for u in uses if not re.search(r"\.(Statement|Tie)\b", u)]
    path = f"Rattle.{crate}.proofs.{f.name}"
    aside = os.path.join("out", "older-proofs", folder)
    os.makedirs(aside, exist_ok=True)
    os.replace(os.path.join(folder, "Proof.antt"), os.path.join(aside, "Proof.antt"))
    if invariants:
        head = [u for u in keep if not u.startswith("use borrow.")] + [f"use {path}.Given as goal", "", ""]
        with open(os.path.join(folder, "Invariants.antt"), "w", encoding="utf-8") as out:
            out.write("\n".join(head) + "\n\n".join(invariants) + "\n")
    if answers or others:
        ways = [f"use {path}.Goals.{{{', '.join(sorted(f.constructors))}}}"] if f.constructors else []
        with open(os.path.join(folder, "Answers.antt"), "w", encoding="utf-8") as out:
            out.write("\n".join(opening + keep + [f"use {path}.Goals as goal"] + ways + ["", ""]) + "\n\n".join(others + answers) + "\n")
    print(f"turned {f.name}: {len(invariants)} invariants and measures, {len(answers)} answers, {len(others)} others")


def main(argv):
    if not argv:
        print(__doc__)
        return 2
    with open(argv[0], encoding="utf-8") as file:
        names = {k.split("-proofs.")[1].removesuffix(".Lts"): v for k, v in json.load(file).items() if "-proofs." in k}
    for folder, _, files in sorted(os.walk("proofs")):
        name = os.path.relpath(folder, "proofs").replace("/", ".")
        if "Proof.antt" not in files or (argv[1:] and name not in argv[1:]):
            continue
        with open(os.path.join(folder, "Proof.antt"), encoding="utf-8") as file:
            text = file.read()
        if "tie.close" not in text or name not in names:
            print(f"look: {name}: " + ("not in the table of names" if name not in names else "a walk by hand"))
            continue
        turn(os.path.basename(os.getcwd()), folder, Function(name, names[name], text))
    return 0


if __name__ == "__main__":
    sys.exit(main(sys.argv[1:]))
