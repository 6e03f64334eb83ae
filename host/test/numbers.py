#!/usr/bin/env python3
"""The numbers that a caller can get have one name each, in the same order, in crate refusal, kes.h, the man page and docs/HOST.md."""
import pathlib
import re
import sys

ROOT = pathlib.Path(__file__).resolve().parents[2]
# These two are no refusals, so crate refusal has them not.
DONE, NOT_ACCEPTED = ("KES_DONE", 0), ("KES_NOT_ACCEPTED", 100)


def found(path, pattern):
    """The names and numbers that the lines of a file give."""
    return [(m["name"], int(m["number"])) for m in re.finditer(pattern, (ROOT / path).read_text(), re.M)]


def c_name(variant):
    """SeedOrKey as C has it: KES_SEED_OR_KEY."""
    return "KES" + re.sub(r"(?=[A-Z])", "_", variant).upper()


def main():
    proved = found("crates/refusal/specs/Numbers.antt", r"^number_of (?P<name>\w+) = (?P<number>\d+)$")
    expected = [DONE, *((c_name(variant), number) for variant, number in proved), NOT_ACCEPTED]
    places = {
        "include/kes.h": r"^    (?P<name>KES_\w+) = (?P<number>\d+)\b",
        "docs/kes.3": r"^\.It Dv (?P<name>KES_\w+) No (?P<number>\d+)$",
        "docs/HOST.md": r"^\| (?P<number>\d+) \| `(?P<name>KES_\w+)` \|",
    }
    for path, pattern in places.items():
        if (there := found(path, pattern)) != expected:
            sys.exit(f"numbers: {path} has {there}, crate refusal {expected}")
    print(f"numbers: {len(expected)} numbers have one name each in crate refusal and {', '.join(places)}")


main()
