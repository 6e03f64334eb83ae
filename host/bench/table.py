#!/usr/bin/env python3
"""Prints what the races found, read from standard input, as a table."""
import sys

sys.dont_write_bytecode = True
import results

HEADING = "work                  pairs  signs  checks     library     plain C       floor  / floor  / plain C   aim"


def row(work):
    met = "met" if work.of_floor <= work.aim and work.of_plain <= results.PEER_AIM else "missed"
    counts = f"{work.pairs:6.0f} {work.signatures:6.0f} {work.verifications:7.0f}"
    times = " ".join(f"{ns / 1000:11.1f}" for ns in (work.library, work.plain, work.floor))
    return f"{work.name:20} {counts} {times} {work.of_floor:8.3f} {work.of_plain:10.3f}  {work.aim:.2f} {met}"


def main():
    remarks, works = results.read(sys.stdin)
    print(*remarks, "", f"Ed25519 calls, microseconds, each round's ratios; aim: / floor as told, / plain C at most {results.PEER_AIM}", HEADING, sep="\n")
    print(*map(row, works), sep="\n")
    for work in works:
        if work.name.startswith("journal"):
            library, plain, floor = (1e9 / ns for ns in (work.library, work.plain, work.floor))
            print(f"\njournal lines a second: library {library:,.0f}, plain C {plain:,.0f}, floor of {work.verifications:.0f} a line {floor:,.0f}")


main()
