#!/usr/bin/env python3
"""Random journals made with real keys, whole and damaged, judged by build/journal and by the independent model, byte for byte.
Reproducible: journals.py [SEED [JOURNALS [PROGRAM]]], where PROGRAM is judged in place of build/journal. Needs desk/build before."""
import pathlib
import random
import re
import subprocess
import sys
import time

ROOT = pathlib.Path(__file__).resolve().parents[2]
sys.dont_write_bytecode = True
sys.path.insert(0, str(ROOT / "host" / "model"))
import ed25519
import kes
from desk import Desk
from journal import Judge

SCHEME = kes.Scheme(kes.Module(ed25519))
HEIGHTS = [(0, 0), (1, 2), (2, 1)]
WORDS = [b"kes", b"kes2"]


class Day:
    """A key, its header line, and the lines of its day: serials from 1 on, each signed at a step that never falls."""

    def __init__(self, draw, h1, h2, lines, word, scheme=SCHEME):
        desk = Desk(scheme, h1, h2, draw.randbytes(32), word)
        self.header = desk.header
        self.lines = []
        for serial in range(1, lines + 1):
            step = serial * kes.steps(h1, h2) // (lines + 1)
            card, amount = draw.randrange(10**16), draw.randrange(1, 2_000_001)
            self.lines.append(desk.line(step, b"%016d" % card, serial, amount))


def field_changed(draw, line):
    """A line with one of its fields written otherwise."""
    fields = line.split(b"\t")
    at = draw.randrange(len(fields))
    ways = [b"0" + fields[at], fields[at].upper(), b"", b"+" + fields[at], fields[at] + b" ", b"9" * 2000, b"2000001", b"4294967296", b"0"]
    fields[at] = draw.choice(ways)
    return b"\t".join(fields)


def forged(draw, line):
    """A well-formed line that nobody signed: another amount, or an earlier step."""
    fields = line.split(b"\t")
    if len(fields) == 5:
        fields[draw.choice([0, 3])] = b"%d" % draw.randrange(0, 3)
    return b"\t".join(fields)


def damaged(draw, lines):
    """The lines of a journal after one damage, mostly of a later line."""
    at = draw.randrange(len(lines)) if draw.random() < 0.2 else len(lines) - 1 - draw.randrange(len(lines)) // 2
    line = lines[at]
    if draw.random() < 0.05:
        return lines[:at] + [b"".join(lines[at : at + 2])] + lines[at + 2 :]
    byte = draw.randrange(len(line)) if line else 0
    changed = draw.choice([
        [line[:byte] + bytes([draw.randrange(256)]) + line[byte + 1 :]],
        [line[:byte]], [line, line], [], [b""], [line + b"\r"], [line[:byte] + b"\0" + line[byte:]],
        [line + b"x" * (2047 - len(line))], [line + b"x" * (2048 - len(line))], [line + b"\t" + b"y" * 5000],
        [line[:byte], line[byte:]], [field_changed(draw, line)], [forged(draw, line)], [forged(draw, line)], [forged(draw, line)],
    ])
    return lines[:at] + changed + lines[at + 1 :]


def drawn(draw, days):
    day = draw.choice(days)
    lines = [day.header] + day.lines[: draw.choice([len(day.lines), draw.randrange(len(day.lines) + 1)])]
    if draw.random() < 0.1:
        lines[0] = b"\t".join(day.header.split(b"\t")[::3])
    if draw.random() < 0.1:
        lines[0] = b"\t".join([draw.choice([*WORDS, b"KES2", b"kes1", b"kes3", b"kes22", b"kes 2"]), *lines[0].split(b"\t")[1:]])
    if draw.random() < 0.1:
        lines[1:] = draw.sample(lines[1:], len(lines) - 1)
    for _ in range(draw.choice([0, 1, 1, 1, 2, 3])):
        lines = damaged(draw, lines) if lines else lines
    data = b"".join(line + b"\n" for line in lines)
    return data[:-1] if draw.random() < 0.1 else data


def main():
    seed = int(sys.argv[1]) if len(sys.argv) > 1 else 1
    count = int(sys.argv[2]) if len(sys.argv) > 2 else 1000
    program = sys.argv[3] if len(sys.argv) > 3 else ROOT / "build" / "journal"
    began, draw, judge, seen = time.time(), random.Random(seed), Judge(SCHEME), {}
    days = [Day(draw, h1, h2, 6, word) for h1, h2 in HEIGHTS for word in WORDS]
    for n in range(count):
        data = drawn(draw, days)
        wrote = subprocess.run([program], input=data, stdout=subprocess.PIPE, check=True).stdout
        expected = judge.output(data)
        if wrote != expected:
            sys.exit(f"journals: journal {n} of seed {seed} is judged otherwise\n{data!r}\nprogram {wrote!r}\nmodel {expected!r}")
        for letter in re.findall(rb"^\d+\t([A-Z])$", expected, re.M):
            seen[letter.decode()] = seen.get(letter.decode(), 0) + 1
    letters = ", ".join(f"{letter} {seen[letter]}" for letter in "HMOSBG" if letter in seen)
    print(f"journals: {count} journals are judged as by the model: {letters} ({time.time() - began:.0f} s)")


if __name__ == "__main__":
    main()
