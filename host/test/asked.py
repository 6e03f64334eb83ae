#!/usr/bin/env python3
"""What host/cards.c answers of journals, against the model: days made with real keys, damaged, judged by build/journal; 1,024 cards and
1,025; the wrong verdict, or a verdict cut off, is refused. Reproducible: asked.py [SEED]. Needs desk/build before."""
import pathlib
import random
import subprocess
import sys
import tempfile
import time

ROOT = pathlib.Path(__file__).resolve().parents[2]
sys.dont_write_bytecode = True
sys.path.insert(0, str(ROOT / "host" / "model"))
import cards
import ed25519
import kes
from desk import Desk

SCHEME = kes.Scheme(kes.Module(ed25519))


class Asked:
    """The program, and the folder in which it reads."""

    def __init__(self, folder):
        self.folder, self.program = pathlib.Path(folder), pathlib.Path(folder) / "cards"
        subprocess.run([ROOT / "host" / "desk" / "compile", self.program], check=True)

    def ask(self, journal, verdict, asked):
        """Status, output, and whether something was said."""
        (self.folder / "journal").write_bytes(journal)
        (self.folder / "verdict").write_bytes(verdict)
        ran = subprocess.run([self.program, self.folder / "journal", self.folder / "verdict", *asked], capture_output=True)
        return ran.returncode, ran.stdout, ran.stderr


def judged(journal):
    return subprocess.run([ROOT / "build" / "journal"], input=journal, capture_output=True, check=True).stdout


def told(lines, asked):
    """What is to be answered of (card, cents)."""
    had = {card: (count, total) for card, count, total in cards.summary(lines)}
    return b"".join(b"%s\t%d\t%d\n" % (card, *had[int(card)]) if int(card) in had else card + b"\tnone\n" for card in asked)


def good_lines(journal, verdict):
    """Card and cents of each line that the verdict calls good."""
    lines, letters = journal.split(b"\n"), dict(line.split(b"\t")[:2] for line in verdict.splitlines()[:-1])
    fields = [lines[int(n) - 1].split(b"\t") for n, letter in letters.items() if letter == b"G"]
    return [(int(card), int(cents)) for _, card, _, cents, _ in fields]


def day(draw, word):
    """A small day over few cards, with a damaged line, an empty one and an over-long one among the good."""
    desk = Desk(SCHEME, 1, 1, draw.randbytes(32), word)
    pool = [b"%016d" % draw.choice([draw.randrange(10**16), draw.randrange(10)]) for _ in range(4)]
    lines = [desk.line(0, draw.choice(pool), serial, draw.choice([1, 2_000_000, draw.randrange(1, 2_000_001)])) for serial in range(1, 9)]
    for broken in (b"", b"9" * 3000, lines[0] + b"0", b"\0\t\t\t\t"):
        lines.insert(draw.randrange(len(lines)), broken)
    return desk.header + b"\n" + b"".join(line + b"\n" for line in lines) + draw.choice([b"", b"unended"]), pool


def days(program, draw):
    for _ in range(6):
        journal, pool = day(draw, draw.choice([b"kes", b"kes2"]))
        verdict, asked = judged(journal), [*pool, b"%016d" % draw.randrange(10**16)]
        assert program.ask(journal, verdict, asked) == (0, told(good_lines(journal, verdict), asked), b""), journal
    for wrong in (verdict[:-2], b"".join(verdict.splitlines(True)[:-1]), verdict + b"2\tG\n", verdict.replace(b"3\t", b"4\t", 1), b"1\tH\n", b""):
        status, out, said = program.ask(journal, wrong, asked)
        assert (status, out) == (1, b"") and said, wrong
    assert program.ask(b"", judged(b""), asked)[0] == 1
    assert program.ask(journal, verdict, [b"123"])[0] == 2


def many(program, draw, n):
    """A journal of n cards, and a verdict that calls each line good, as the program only reads what `journal` said."""
    lines = [(card, draw.randrange(1, 2_000_001)) for card in draw.sample(range(10**16), n)]
    journal = b"kes2\t" + b"0" * 64 + b"\n" + b"".join(b"0\t%016d\t%d\t%d\t00\n" % (card, i, cents) for i, (card, cents) in enumerate(lines, 1))
    verdict = b"".join(b"%d\tG\n" % i for i in range(2, n + 2)) + b"total\t%d\t%d\n" % (n, sum(cents for _, cents in lines))
    asked = [b"%016d" % card for card, _ in (lines[0], lines[-1], lines[n // 2])]
    status, out, said = program.ask(journal, verdict, asked)
    assert (status, out) == (int(n > cards.CARDS), told(lines[: cards.CARDS], asked)), n
    assert (b"before line %d\n" % (cards.CARDS + 2) in said) if n > cards.CARDS else not said, said


def main():
    seed = int(sys.argv[1]) if len(sys.argv) > 1 else int(time.time())
    draw = random.Random(seed)
    with tempfile.TemporaryDirectory() as folder:
        program = Asked(folder)
        days(program, draw)
        for n in (1, cards.CARDS, cards.CARDS + 1, cards.CARDS + 200):
            many(program, draw, n)
    print(f"asked: what a card has had is answered as the model has it, also of 1,024 cards and more (seed {seed})")


main()
