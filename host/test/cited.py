#!/usr/bin/env python3
"""Every name that docs/PROOFS.md, RULES.md, SECURITY.md and ASSUMPTIONS.md give in `code` stands in the repository: as a word that specs/ or proofs/ declare,
an item, field, case or clause of src/, a must-fail edit, a crate, a word of kes.h; and every file that they name is there."""
import pathlib
import re
import sys

ROOT = pathlib.Path(__file__).resolve().parents[2]
PAGES = ["PROOFS.md", "RULES.md", "SECURITY.md", "ASSUMPTIONS.md"]
# what is no name of the repository: words of the language, of the journal's text, of the tables of the pages, and names of other libraries, the kit's among them
OTHERS = set("requires std ab match kes kes2 M O S B H total all rt sigaltstack read write close open memcpy memmove memset foldr flatten sets".split())
NAME = re.compile(r"`([A-Za-z][\w'-]*)`")


def texts(*patterns):
    return {path: path.read_text() for pattern in patterns for path in ROOT.glob(pattern)}


def declared():
    """The names that the repository declares."""
    for text in texts("crates/*/specs/**/*.antt", "crates/*/proofs/**/*.antt", "desk/module/*.antt.extern").values():
        # a declaration; a field or a case, which is indented: its name, and then its type
        yield from re.findall(r"^ *(?:[a-z]+ )*([^\s:(){}]+)(?: [^:\n=]*)? : ", text, re.M)
        yield from re.findall(r"^ +(?:pub )?([^\s:(){}]+) : ", text, re.M)
    for text in texts("crates/*/src/**/*.rt", "desk/module/*.rt.extern").values():
        yield from re.findall(r"\b(?:fn|struct|enum|trait|const|mod|requires|ensures) (\w+)", text)
        yield from re.findall(r"^\s*(?:pub )?(\w+):", text, re.M)
        yield from re.findall(r"^ +(\w+)(?:\([^()]*\)| \{)?,$", text, re.M)
    yield from re.findall(r"\b(?:kes|KES)\w+", (ROOT / "include" / "kes.h").read_text())
    yield from (path.stem for path in ROOT.glob("crates/*/must-fail/*.edit"))
    yield from (path.name for path in (ROOT / "crates").iterdir())


def main():
    there = set(declared()) | OTHERS
    files = {path.relative_to(ROOT).as_posix() for top in ("crates", "desk", "docs", "host", "include") for path in (ROOT / top).rglob("*") if "out" not in path.parts}
    ends = {"/".join(file.split("/")[-n:]) for file in files for n in (1, 2, 3)} | files
    wrong, count = [], 0
    for page in PAGES:
        text = (ROOT / "docs" / page).read_text()
        names = set(NAME.findall(text))
        wrong += [f"{page}: {name}" for name in sorted(names - there)]
        named = set(re.findall(r"[\w./-]*\w\.(?:antt|rt|md|py|c|h|txt)(?:\.extern)?\b", text))
        wrong += [f"{page}: {file}" for file in sorted(named - ends)]
        count += len(names) + len(named)
    if wrong:
        sys.exit("cited: not in the repository: " + "; ".join(wrong))
    print(f"cited: the {count} names and files of {', '.join(PAGES)} are in the repository")


main()
