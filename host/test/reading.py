#!/usr/bin/env python3
"""reading [--write]: the reading list at the head of docs/PROOFS.md has every file of definitions that a demand's statements rest on, each
after those it uses, with its lines: without imports, comments and blank lines. --write puts the present list there."""
import pathlib
import re
import sys

ROOT = pathlib.Path(__file__).resolve().parents[2]
PAGE = ROOT / "docs" / "PROOFS.md"
# what is read for, and the files in which its statements stand
LIST = {
    "demand 2, the bytes and verdicts": ["rules/Part", "rules/Sums"],
    "demand 1, the calls and their numbers": ["rules/Calls", "rules/Listed", "edge/Edge"],
    "demand 3, moved about": ["rules/Demand3"],
    "the journal, the whole output": ["verdicts/Output"],
    "the journal, in pieces": ["verdicts/Turning"],
}
BEYOND = {
    "catching up": ["rules/CatchUp"],
    "two windows on one key": ["rules/Windows"],
    "the fair-day cache": ["fair/Day", "fair/Listed", "edge/EdgeFair"],
    "the plain engine": ["plain_rules/Equal", "plain_rules/Listed", "edge/EdgePlain"],
    "what a card has had": ["summary/Listed", "summary/History", "edge/EdgeCards"],
    "one signature, one step": ["reuse/OneStep", "reuse/Singly"],
    "a header in full": ["headers/InFull"],
    "the quarter": ["accounts/Quarter"],
    "salvage": ["saving/Salvage", "saving/Alone", "saving/Again", "salvaging/Turning"],
    "the running hash": ["blake2b/Running"],
}
# the kit's own definitions: lists, numbers, truth values
KIT = ("Rattle.std.", "mathlib.Core.", "Prim.", "denote.")
IMPORT = re.compile(r"^(?:pub )?use ([^\n{]*)(?:\{[^}]*\})?", re.M)


def spec(name):
    return (ROOT / "crates" / name.split("/")[0] / "specs" / f"{name.split('/')[1]}.antt").read_text()


def used(name, seen):
    """The file and what it rests on that was not seen yet, the lowest first."""
    if name in seen:
        return
    seen.add(name)
    for source in IMPORT.findall(spec(name)):
        if source.startswith(KIT):
            continue
        file = re.match(r"Rattle\.(\w+)\.specs\.(\w+)", source)
        if not file:
            sys.exit(f"reading: {name} uses what is neither a file of definitions nor the kit's: {source}")
        # an enum or a struct, which stands in src/
        if file[2] != "declared":
            yield from used(f"{file[1]}/{file[2]}", seen)
    yield name


def lines(name):
    return sum(1 for line in IMPORT.sub("", spec(name)).splitlines() if line.strip() and not line.lstrip().startswith("--"))


def rows(parts, seen):
    """A row for each thing that is read for, with its files and its sum; the sums."""
    for words, roots in parts.items():
        names = [name for root in roots for name in used(root, seen)]
        files = ", ".join(f"{name} {lines(name)}" for name in names)
        yield f"| {words} | {files} | {sum(map(lines, names)):,} |", sum(map(lines, names))


def table():
    seen = set()
    main, beyond = list(rows(LIST, seen)), list(rows(BEYOND, seen))
    total = f"| **in all** | | **{sum(count for _, count in main):,}** |"
    return "\n".join(["| to believe | files, in this order, with their lines | sum |", "|---|---|---|", *(row for row, _ in main), total, *(row for row, _ in beyond)]) + "\n"


page = PAGE.read_text()
found = re.search(r"^\| to believe .*?\n(?=\n)", page, re.M | re.S)
if "--write" in sys.argv:
    PAGE.write_text(page.replace(found[0], table()))
elif found[0] != table():
    sys.exit("reading: docs/PROOFS.md has another list; host/test/reading.py --write puts the present one there")
print("reading: the reading list of docs/PROOFS.md is that of the files")
