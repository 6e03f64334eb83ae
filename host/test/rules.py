#!/usr/bin/env python3
"""docs/RULES.md resolves both ways: each definition that it names stands in the file named after it, and it has every rule, request and
quoted heading of document 01, or of the page itself, that the repository cites. A request is a row that names its heading, and the heading."""
import pathlib
import re
import sys

ROOT = pathlib.Path(__file__).resolve().parents[2]
PAGE = (ROOT / "docs" / "RULES.md").read_text()
SUFFIXES = {".antt", ".rt", ".md", ".py", ".c", ".h"}


def named():
    """The definitions of the page with their files, and the files alone."""
    yield from ((name, path) for names, path in re.findall(r"((?:`\w+`, )+)(crates/[\w/]+\.\w+)", PAGE) for name in re.findall(r"\w+", names))
    yield from ((None, path) for path in re.findall(r"crates/[\w/]+\.\w+", PAGE))


def stands(name, path):
    file = ROOT / path
    return file.exists() and (name is None or re.search(rf"^ *(\w+ )?pub ((record|data) )?{name}\b", file.read_text(), re.M))


def cited():
    """What the repository cites, each as the page has to have it."""
    for top in ("crates", "docs", "host", "include"):
        for path in (path for path in (ROOT / top).rglob("*") if path.suffix in SUFFIXES):
            text = path.read_text()
            yield from re.findall(r'[Dd]ocument 01, "([A-Z][^"]+)"', text)
            yield from (words[0].upper() + words[1:] for words in re.findall(r'RULES\.md(?:, | \()"([^"]+)"', text))
            yield from (f"| rule {n} |" for pair in re.findall(r"\b[Rr]ules? (\d)(?: (?:to|and) (\d))?\b", text) for n in pair if n)
            yield from (f"| Request {n} |" for n in re.findall(r"\b(?:[Rr]equest|CR) (\d+)", text))


definitions, citations = set(named()), set(cited())
wrong = [f"{path} has no {name}" if name else f"there is no {path}" for name, path in sorted(definitions, key=str) if not stands(name, path)]
wrong += [f"nothing for {words}" for words in sorted(citations) if words not in PAGE]
wrong += [f"no heading for request {n}" for n, words in re.findall(r"^\| Request (\d+) \| (.+) \|$", PAGE, re.M) if f"\n### {words}\n" not in PAGE]
if wrong:
    sys.exit("rules: docs/RULES.md: " + "; ".join(wrong))
print(f"rules: docs/RULES.md names {len(definitions)} definitions and files that are there, and has the {len(citations)} places that are cited")
