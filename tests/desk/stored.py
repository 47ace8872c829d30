"""The stored outputs in tests/desk/expected: the JSON is JSON, its numbers and answers are those of the pack's .out file, and
docs/packdesk.1 names every key; sheets are those of the rules that are counted here from the pack's lines. Imports have the
numbers and lines of the files beside the clause texts, and these lines are those of the packs of the same names. Run from
the project's folder."""
import glob
import json
import os
import sys

LETTERS = {"bound": "B", "no bound": "N", "impossible": "I", "refused": "R"}
faults = []
keys = set()


def collect(value):
    """Gathers the keys of objects, but for the variables' names under "coefficients"."""
    if isinstance(value, list):
        for part in value:
            collect(part)
    elif isinstance(value, dict):
        keys.update(value)
        for key, part in value.items():
            if key != "coefficients":
                collect(part)


def fields(answer):
    """An answer as the terminal's program prints it."""
    middle = {"bound": answer["bound"], "refused": answer["number"]}.get(answer["answer"]) or 0
    return f"{LETTERS[answer['answer']]},{middle},{answer['claim'] or 0}"


def rules_of(pack):
    """For each rule its number, its head's name and arity, how many subgoals and how many M lines it has."""
    rules = []
    with open(pack, encoding="ascii") as file:
        for fields in (line.rstrip("\n").split(",") for line in file):
            if fields[0] == "H":
                rules.append({"rule": len(rules) + 1, "head": fields[1], "arity": len(fields) - 2, "subgoals": 0, "multiplier_lines": 0})
            elif fields[0] in ("B", "M"):
                rules[-1]["subgoals" if fields[0] == "B" else "multiplier_lines"] += 1
    return rules


def sheet_of(rules):
    """Four columns with a space between them, none of them the arity, then spaces up to 64."""
    widths = {"rule": str.rjust, "head": str.ljust, "subgoals": str.rjust, "multiplier_lines": str.rjust}
    rows = [[align(str(rule[key]), width) for (key, align), width in zip(widths.items(), (4, 16, 2, 3))] for rule in rules]
    return "".join(" ".join(row).ljust(64) + "\n" for row in rows)


def import_faults(path, stored):
    """An import's numbers and lines are those of the file .lines beside the text, or of .out if it is refused."""
    text, front = read(stored["file"]).split("\n"), stored["file"].removesuffix(".pl")
    if not os.path.exists(front + ".lines"):
        wanted = list(map(int, read(front + ".out").split(",")))
        return [] if stored["numbers"] == wanted else [f"{path}: {stored['numbers']} stands there, {wanted} in {front}.out"]
    lines = read(front + ".lines")
    found = []
    if stored["numbers"] != [0, lines.count("H,"), len(lines), 0]:
        found.append(f"{path}: {stored['numbers']} are not the numbers of {front}.lines")
    if "".join(line + "\n" for clause in stored["clauses"] for line in clause["lines"]) != lines:
        found.append(f"{path}: its lines are not those of {front}.lines")
    for number, clause in enumerate(stored["clauses"], 1):
        if clause["clause"] != number or not text[clause["line"] - 1].startswith(clause["lines"][0].split(",")[1]):
            found.append(f"{path}: clause {number} does not start on that line of {stored['file']}")
    return found


def lines_of_pack(name, given):
    """The G, H and B lines of a pack, those of this given predicate as a clause text has them."""
    lines = [line for line in read(f"packs/{name}.pack").splitlines() if line[0] in "GHB"]
    return [line.replace(f"G,{given},", f"H,{given},", 1) for line in lines]


def read(path):
    with open(path, encoding="ascii") as file:
        return file.read()


paths = sorted(glob.glob("tests/desk/expected/*.json"))
if len(paths) < 20:
    faults.append(f"there are only {len(paths)} stored files")
for path in paths:
    with open(path, encoding="utf-8") as file:
        stored = json.load(file)
    collect(stored)
    if stored["command"] == "measure":
        continue
    if stored["command"] == "import":
        faults += import_faults(path, stored)
        continue
    with open(stored["pack"].removesuffix(".pack") + ".out", encoding="utf-8") as file:
        wanted = file.read().splitlines()
    found = [",".join(map(str, stored["numbers"]))] + [fields(answer) for answer in stored.get("answers", [])]
    if stored["command"] == "sheet":
        rules = rules_of(stored["pack"])
        with open(path.removesuffix(".json") + ".txt", encoding="ascii") as file:
            if stored["entries"] != rules or file.read() != sheet_of(rules):
                faults.append(f"{path}, or the .txt beside it, is not the sheet of {stored['pack']}")
    if found != wanted[: None if stored["command"] == "reserve" else 1]:
        faults.append(f"{path}: {found} stands there, {wanted} in the .out of the pack")
for path in glob.glob("packs/*.pack") + glob.glob("packs/refused/*.pack"):
    name = path.removeprefix("packs/").removesuffix(".pack").replace("/", "-")
    kinds = ["check"] if name.startswith("refused-") else ["check", "sheet"]
    missing = [kind for kind in kinds if not os.path.exists(f"tests/desk/expected/{name}.{kind}.json")]
    faults += [f"there is no stored output of {kind} for {path}" for kind in missing]
for path in glob.glob("packs/clauses/*.pl") + glob.glob("packs/clauses/refused/*.pl"):
    name = path.removeprefix("packs/").removesuffix(".pl").replace("/", "-")
    if not os.path.exists(f"tests/desk/expected/{name}.import.json"):
        faults.append(f"there is no stored output of import for {path}")
for name, given in {"join": None, "accumulator": None, "tree": None, "sorter": "next"}.items():
    if read(f"packs/clauses/{name}.lines").splitlines() != lines_of_pack(name, given):
        faults.append(f"packs/clauses/{name}.lines are not the lines of packs/{name}.pack")
with open("docs/packdesk.1", encoding="utf-8") as file:
    page = file.read()
faults += [f"docs/packdesk.1 does not name the key {key}" for key in sorted(keys) if f".B {key}\n" not in page]
print("\n".join(faults), end="\n" if faults else "")
sys.exit(1 if faults else 0)
