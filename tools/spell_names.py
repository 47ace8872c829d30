#!/usr/bin/env python3
"""Brings this repository's own names to today's spelling, once, right after port.py and before the commit that takes both.

usage: python3 tools/spell_names.py [--write]      at the top, with port.py's changes in the work tree and the older state at HEAD

Definitions, lemmas, fields and constructors of specs/ and proofs/ are written in snake case: `sizeWhere` is `size_where`,
`claims-kept` is `claims_kept`. A lemma that would then have a definition's name gets `_lem`. port.py has respelled some names
already, also pairs that fall together by it; those are told apart again by the older text. Names of goals in the folders of
functions are Rattle's and stay. Pages and edits follow, by both renamings together. Without --write it only says what it
would do, and what falls together. The table of all names is written to docs/port/names.tsv.
"""

import collections
import os
import re
import subprocess
import sys

DECLARED = re.compile(r"^(\s*)((?:(?:abbrev|unfoldable|pub|opaque|data|record|constructor|mutual)\s+)*)([^\s(){}:;.,\"=λ]+)\s*((?:[({].*?)?):(?:\s|$)")
TOKEN = re.compile(r"[^\s(){}\[\],;:.λ\"@|«»&!`]+")
GOALS = ("Proof.antt", "Answers.antt", "Invariants.antt")
# Names that today's tactics or library take.
BY_HAND = {"firstOf": "first_given", "first-of": "first_given_lem"}


def spelled(name):
    if name in BY_HAND:
        return BY_HAND[name]
    new = name.replace("′", "'")
    if new[0].islower():
        new = re.sub(r"(?<=[a-z0-9])([A-Z])", lambda m: "_" + m.group(1).lower(), new)
    return re.sub(r"(?<=[^-])-(?=[^-])", "_", new)


def declarations(path, text):
    """The names that a file declares, in order, and which of them are Rattle's names of goals."""
    found = []
    for line in text.splitlines():
        m = None if line.lstrip().startswith("--") else DECLARED.match(line)
        # only a record or a type has parameters before the colon; elsewhere that is a call
        if m and (re.fullmatch(r"(\{[^:{}]*\})?", m.group(4).strip()) or "record" in m.group(2) or "data" in m.group(2)):
            goal = os.path.basename(path) in GOALS and (re.search(r":\s*tie\.", line) is not None or re.search(r":.*\bstatement M$", line) is not None)
            found.append((m.group(3), goal))
    return found


def aliases(text):
    """The names that a file gives what it imports."""
    lines = [l for l in text.splitlines() if l.startswith("use ")]
    return {w for l in lines for w in re.findall(r"\bas ([a-z][\w'-]*)", l)} - {"tie", "goal"}


def antt_files():
    for crate in sorted(os.listdir("crates")):
        for part in ("specs", "proofs"):
            for folder, dirs, files in os.walk(f"crates/{crate}/{part}"):
                dirs.sort()
                for f in sorted(files):
                    if f.endswith(".antt"):
                        yield os.path.join(folder, f)


def text_of(path):
    with open(path, encoding="utf-8") as f:
        return f.read()


def older(path):
    r = subprocess.run(["git", "show", "HEAD:" + path], capture_output=True, text=True)
    return r.stdout if r.returncode == 0 else None


def main(argv):
    write = argv == ["--write"]
    old_texts, new_texts = {}, {}
    by_port = collections.defaultdict(collections.Counter)  # older name to port.py's, by place
    names = set()  # older names
    goals = collections.defaultdict(set)  # names of goals by file
    homes = collections.defaultdict(set)  # the crates that declare a name
    for path in antt_files():
        new_texts[path] = text_of(path)
        old_texts[path] = older(path)
        if old_texts[path] is None:
            sys.exit(f"spell_names: {path} is not at HEAD")
        a, b = declarations(path, old_texts[path]), declarations(path, new_texts[path])
        for x in aliases(new_texts[path]):
            names.add(x)
            by_port[x][x] += 1
            homes[x].add(path.split("/")[1])
        if len(a) != len(b):
            sys.exit(f"spell_names: {path}: {len(a)} declarations at HEAD, {len(b)} now")
        for (x, goal), (y, _) in zip(a, b):
            if goal:
                goals[path].update((x, y))
            else:
                names.add(x)
                by_port[x][y] += 1
                homes[x].add(path.split("/")[1])
    # the new spelling of each older name; what falls together is told apart
    families = collections.defaultdict(set)
    for x in names:
        families[spelled(x)].add(x)
    final = {}
    for new, olds in sorted(families.items()):
        plain = [x for x in olds if "-" not in x]
        for x in olds:
            final[x] = new if len(olds) == 1 or "-" not in x else new + "_lem"
        if len(plain) > 1:
            print(f"falls together: {sorted(olds)} as {new}")
    taken = collections.defaultdict(set)
    for x, new in final.items():
        taken[new].add(x)
    for new, olds in sorted(taken.items()):
        if len(olds) > 1:
            print(f"falls together: {sorted(olds)} as {new}")
    # an operator's places are port.py's
    for x, ys in by_port.items():
        for y in ys:
            if "◌" in y:
                final[x] = y
    # what stands in the files now: a name of port.py's, or the older one
    now = collections.defaultdict(set)
    for x, ys in by_port.items():
        for y in ys:
            now[y].add(x)
    merged = {y: xs for y, xs in now.items() if len(xs) > 1}

    def turn(path, text, old_text):
        told = collections.defaultdict(list)
        if old_text is not None:
            for y, xs in merged.items():
                told[y] = [t for t in TOKEN.findall(old_text) if t in xs or t == y]
        count = collections.Counter(t for t in TOKEN.findall(text) if t in merged)
        for y in merged:
            if count[y] != len(told[y]) and count[y]:
                # some of the older names may not have been respelled here: then what stands is told by itself
                told[y] = [t for t in told[y] if t not in TOKEN.findall(text)]
                if count[y] != len(told[y]):
                    print(f"look: {path}: {y} stands {count[y]} times, {sorted(merged[y])} stood {len(told[y])} times")
                    told[y] = None
        here = goals.get(path, set())
        at = collections.Counter()

        def one(m):
            t = m.group(0)
            # a step of the code, as in `c.words-at.result`, keeps its name
            if t in here or (path.endswith(GOALS) and "-" in t and m.string[m.start() - 1 : m.start()] == "."):
                return t
            if t in merged:
                k = at[t]
                at[t] += 1
                if told[t] is None:
                    x = sorted(merged[t], key=lambda n: "-" in n)[0]
                else:
                    x = told[t][k]
                return final.get(x, t)
            if t in now:
                return final[next(iter(now[t]))]
            return final.get(t, t)

        out = []
        for line in text.split("\n"):
            # a comment's words are names only where they are quoted; a camel-cased one is a name anywhere
            code, mark, comment = line, "", ""
            if path.endswith(".antt"):
                i = line.find("--") if line.lstrip().startswith("--") else line.find(" -- ")
                if i >= 0:
                    code, comment = line[:i], line[i:]
            out.append(TOKEN.sub(one, code) + in_words(comment))
        return "\n".join(out)

    both = {x: final[x] for x in names if final[x] != x}
    both.update({y: final[next(iter(xs))] for y, xs in now.items() if len(xs) == 1 and final[next(iter(xs))] != y})

    def in_words(text):
        text = re.sub(r"`([^`\n]+)`", lambda m: "`" + TOKEN.sub(lambda t: both.get(t.group(0), t.group(0)), m.group(1)) + "`", text)
        return re.sub(r"(?<![\w'-])[a-z]+[A-Z][\w']*(?![\w'-])", lambda m: both.get(m.group(0), m.group(0)), text)

    changed = 0
    for path, text in new_texts.items():
        t = turn(path, text, old_texts[path])
        changed += t != text
        if write and t != text:
            with open(path, "w", encoding="utf-8") as f:
                f.write(t)
    for folder, dirs, files in os.walk("crates"):
        dirs[:] = [d for d in dirs if d != "out"]
        for f in sorted(files):
            path = os.path.join(folder, f)
            if not f.endswith((".rt", ".edit")):
                continue
            text = text_of(path)
            if f.endswith(".rt"):
                t = "\n".join(l if l.lstrip().startswith("//") else TOKEN.sub(lambda m: both.get(m.group(0), m.group(0)), l) for l in text.split("\n"))
                t = re.sub(r"(?m)^(\s*//.*)$", lambda m: in_words(m.group(1)), t)
            else:
                t = re.sub(r"(?m)^((?:old|new|fails): ?)(.*)$", lambda m: m.group(1) + TOKEN.sub(lambda w: both.get(w.group(0), w.group(0)), m.group(2)), text)
                t = re.sub(r"(?m)^(?!old:|new:|fails:|file:|edit:)(.*)$", lambda m: in_words(m.group(1)), t)
            changed += t != text
            if write and t != text:
                with open(path, "w", encoding="utf-8") as f2:
                    f2.write(t)
    for page in ["README.md"] + sorted("docs/" + p for p in os.listdir("docs") if p.endswith(".md")):
        text = text_of(page)
        t = in_words(text)
        changed += t != text
        if write and t != text:
            with open(page, "w", encoding="utf-8") as f:
                f.write(t)
    if write:
        os.makedirs("docs/port", exist_ok=True)
        with open("docs/port/names.tsv", "w", encoding="utf-8") as f:
            f.write("# crate, name of the older spelling, and what it is now: by port.py and tools/spell_names.py together\n")
            for crate, x in sorted((crate, x) for x in names if x in both for crate in homes[x]):
                f.write(f"{crate}\t{x}\t{both[x]}\n")
    print(f"spell_names: {len(both)} names, {changed} files" + ("" if write else "; nothing written"))
    # names that a file has twice over: imported or declared beside one of another module, or one of the code
    if write:
        for path in antt_files():
            seen = collections.Counter()
            text = text_of(path)
            for m in re.finditer(r"(?m)^use [\w.+-]+\.\{([^}]*)\}", text):
                for w in m.group(1).split(","):
                    seen[w.split(" as ")[-1].strip()] += 1
            for n, goal in set(declarations(path, text)):
                if not goal and seen[n]:
                    print(f"look: {path}: {n} is imported and declared")
            for n, k in seen.items():
                if k > 1:
                    print(f"look: {path}: {n} is imported {k} times")
        for folder, dirs, files in os.walk("crates"):
            for f in files:
                if f.endswith(".rt"):
                    text = text_of(os.path.join(folder, f))
                    ghost = set()
                    for m in re.finditer(r"ghost use [\w.+-]+\.\{([^}]*)\}", text):
                        ghost |= {w.split(" as ")[-1].strip() for w in m.group(1).split(",")}
                    code = set(re.findall(r"\b([a-z_]+):", text)) | set(re.findall(r"\blet (?:mut )?([a-z_]+)", text))
                    for n in sorted(ghost & code):
                        print(f"look: {os.path.join(folder, f)}: {n} is a word of clauses and a name of the code")
    return 0


if __name__ == "__main__":
    sys.exit(main(sys.argv[1:]))
