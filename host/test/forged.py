#!/usr/bin/env python3
"""What document 01's message lets through, now and for ever under the header `kes`: its digits run together, so within one step a signature
on serial 1 and 199,999 cents is also good on serial 11 and 99,999 cents. Lines are changed and added here with no key at hand, and
build/journal calls them all good, as document 01 has it; under `kes2` each of them is B. docs/SECURITY.md tells how far this reaches.
Needs desk/build before."""
import pathlib
import subprocess
import sys

ROOT = pathlib.Path(__file__).resolve().parents[2]
sys.dont_write_bytecode = True
sys.path.insert(0, str(ROOT / "host" / "model"))
import ed25519
from desk import Desk
from kes import Module, Scheme

OLD, NEW = (Desk(Scheme(Module(ed25519)), 1, 2, range(32), word) for word in (b"kes", b"kes2"))
FIRST, LATER = (1, 199_999), (11, 99_999)  # serials and cents whose digits, run together, are the same


def signed(desk, last, moved_after=0, **cents):
    """Records 1 to last as a desk signs them, 100 cents each but for those named, at step 0 and from a serial on at step 1."""
    return [desk.line(int(0 < moved_after < serial), serial=serial, amount=cents.get(f"of_{serial}", 100)) for serial in range(1, last + 1)]


def with_digits(line, serial, cents, step=None):
    """The line with other numbers and the signature that it has."""
    fields = line.split(b"\t")
    return b"\t".join([fields[0] if step is None else b"%d" % step, fields[1], b"%d" % serial, b"%d" % cents, fields[4]])


def need(desk, what, lines, letters, cents):
    """The letters that journal gives these lines of the desk's, and its total."""
    what, journal = f"{desk.word.decode()}: {what}", b"".join(line + b"\n" for line in [desk.header, *lines])
    said = subprocess.run([ROOT / "build" / "journal"], input=journal, stdout=subprocess.PIPE, check=True).stdout.decode()
    expected = "".join(f"{n}\t{letter}\n" for n, letter in enumerate(letters, 2)) + f"total\t{letters.count('G')}\t{cents}\n"
    if said != expected:
        sys.exit(f"forged: {what}: journal says {said!r}, not {expected!r}")
    print(f"forged: {what}: {letters}, {cents} cents")


# the first line's signature on a later line, which follows ten good ones; and a later one's on the first line
for desk, taken in (OLD, "G"), (NEW, "B"):
    honest, good = signed(desk, 12, of_1=FIRST[1]), taken == "G"
    added = 99_999 if good else 0
    need(desk, "as signed", honest, "G" * 12, 199_999 + 11 * 100)
    forged = honest[:10] + [with_digits(honest[0], *LATER)] + honest[11:]
    need(desk, "a later line changed, by the first one's signature", forged, "G" * 10 + taken + ("G" if good else "S"), 199_999 + 9 * 100 + added + 100 * good)
    need(desk, "a line added at the end of ten", honest[:10] + [forged[10]], "G" * 10 + taken, 199_999 + 9 * 100 + added)
    honest = signed(desk, 11, of_11=LATER[1])
    changed = [with_digits(honest[10], *FIRST), *honest[1:]]
    need(desk, "the first line changed, by a later one's signature", changed, taken + ("G" if good else "S") * 10, (199_999 + 9 * 100 + 99_999) * good)

# not across a move: the signature is good at its own step alone, and that step is then out of order
moved = signed(OLD, 12, moved_after=5, of_1=FIRST[1])
for step, letter in (1, "B"), (0, "O"):
    need(OLD, f"after a move, as of step {step}", moved[:10] + [with_digits(moved[0], *LATER, step), moved[11]], "G" * 10 + letter + "S", 199_999 + 9 * 100)

# nor from one word to the other, under the same key
need(NEW, "a line signed below kes", [signed(OLD, 1)[0], signed(NEW, 1)[0]], "BG", 100)
need(OLD, "a line signed below kes2", [signed(NEW, 1)[0], signed(OLD, 1)[0]], "BG", 100)
