#!/usr/bin/env python3
"""Counts, in crates/*/src, the lines among which the places of docs/DESIGN-PASS.md are found.

usage: tools/design_places.py [--show] [COMMIT]     of the files as they stand, or of a commit's
Prints for each search its name and how many lines it finds; with --show each line too, as FILE:LINE: TEXT. A line found is
a place to look; which of them are places of a point, the page says.
"""
import glob
import re
import subprocess
import sys

SEARCHES = [
    ("1 enums", r"^(pub )?enum "),
    ("1 flags in structs", r"^ +(pub )?[a-z_]+: bool,$"),
    ("1 small numbers in structs that may be kinds or refusals", r"^ +(pub )?(last|fault|mark|kind|class|letter|refusal): u8,$"),
    ("1 constants that may stand for nothing", r"^(pub )?const (NO_|UNKNOWN|MALFORMED|CLASSES)"),
    ("1 comparisons of a class or mark with a number", r"\b(class|mark|last|fault)(_of\(.*\))? [!=]= [0-9]"),
    ("2 functions from one type of numbers to another", r"fn (u8|u16|u32|u64|usize|i16|i32|i64)_to_"),
    ("2 uses of these", r"widths::"),
    ("3 while and loop", r"^ *('[a-z]+: )?(while|loop)\b"),
    ("4 arms that only say true or false", r"=> (true|false),$"),
    ("4 wrapped answers taken apart and put together again", r"(\w+::\w+)\((\w*)\) => \1\(\2\)"),
    ("5 contracts of class tables", r"requires.*\bClasses "),
    ("5 contracts of signatures that are safe", r"requires.*\bSafeSignatures "),
    ("5 contracts of claims that are safe", r"requires.*\bSafeClaims "),
    ("5 contracts of rows that are safe", r"requires.*\bSafeRows "),
    ("5 contracts of the length of an array", r"requires.*\blength \w+\.old ≡ [0-9]"),
    ("6 tables by flat places", r"\[[^\]]*(2 \* \w+|32 \+ |64 \+ |128 \+ |\* 9 \+|base \+ 1)[^\]]*\]"),
    ("6 tables as one array of numbers", r"^pub type \w+ = \[[ui]\d+; \d+\]|= \[0u?\w*; (64|96|128|256|512|1224|81|4608)\]"),
]


def files(commit):
    """Each source file's name and text."""
    if commit is None:
        for path in sorted(glob.glob("crates/*/src/*.rt")):
            yield path, open(path, encoding="utf-8").read()
        return
    listed = subprocess.run(["git", "ls-tree", "-r", "--name-only", commit], capture_output=True, text=True, check=True).stdout
    for path in sorted(line for line in listed.splitlines() if re.fullmatch(r"crates/[^/]+/src/[^/]+\.rt", line)):
        yield path, subprocess.run(["git", "show", f"{commit}:{path}"], capture_output=True, text=True, check=True).stdout


def parameters(text):
    """Each function with six parameters or more: its line, its name and how many."""
    for match in re.finditer(r"fn (\w+)(?:<[^>]*>)?\(([^)]*)\)", text):
        count = sum(":" in part or part.strip() in ("self", "&self", "&mut self") for part in match[2].split(","))
        if count >= 6:
            yield text.count("\n", 0, match.start()) + 1, match[1], count


def main():
    words = sys.argv[1:]
    show = "--show" in words
    commits = [word for word in words if word != "--show"]
    if len(commits) > 1 or any(word.startswith("-") for word in commits):
        sys.exit(__doc__)
    sources = list(files(commits[0] if commits else None))
    for name, pattern in SEARCHES:
        found = [(path, number, line.strip()) for path, text in sources for number, line in enumerate(text.split("\n"), 1) if re.search(pattern, line)]
        print(f"{len(found):4} {name}")
        for place in found if show else []:
            print("       {}:{}: {}".format(*place))
    found = [(path, *place) for path, text in sources for place in parameters(text)]
    print(f"{len(found):4} 5 functions of six parameters or more")
    for place in found if show else []:
        print("       {}:{}: {} has {}".format(*place))


main()
