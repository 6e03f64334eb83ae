#!/usr/bin/env python3
"""docs/PROOFS.md names every public function that asks for something by `requires`, crate by crate, and no other."""
import pathlib
import re
import sys

ROOT = pathlib.Path(__file__).resolve().parents[2]
HEADING = "## What functions ask for\n"


def clauses(text):
    """The words of the clauses of a contract, which stand between a function's name and its body, each with or without a name of its own."""
    depth = 0
    for part in re.finditer(r"[{}]", text):
        if part[0] == "}":
            depth -= 1
            continue
        if depth == 0:
            word = re.search(r"\b(requires|ensures|ghost)\b[^{}]*$", text[: part.start()])
            if not word:
                return
            yield word[1]
        depth += 1


def asking():
    """The public functions that ask, by the sources."""
    for path in (ROOT / "crates").glob("*/src/**/*.rt"):
        text = re.sub(r"//.*", "", path.read_text())
        for function in re.finditer(r'^ *pub (?:[\w"]+ )*fn (\w+)', text, re.M):
            if "requires" in clauses(text[function.end() :]):
                yield path.relative_to(ROOT / "crates").parts[0], function[1]


def told():
    """The same by the page's table, whose first two columns are a crate and its functions."""
    section = (ROOT / "docs" / "PROOFS.md").read_text().split(HEADING)[1].split("\n## ")[0]
    for crate, functions in re.findall(r"^\| `(\w+)` \| ([^|]*) \|", section, re.M):
        for name in re.findall(r"`(\w+)`", functions):
            yield crate, name


there, page = set(asking()), set(told())
if there != page:
    sys.exit(f"asks: not in docs/PROOFS.md: {sorted(there - page)}; there, but not in the crates: {sorted(page - there)}")
print(f"asks: docs/PROOFS.md names the {len(there)} functions that ask for something")
