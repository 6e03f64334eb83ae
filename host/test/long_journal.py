#!/usr/bin/env python3
"""A journal of 100,000 good lines is judged right, added up and, with every tenth line damaged, salvaged, in memory that does not grow with it; and lines
that are malformed, out of order or of another serial ask Ed25519 nothing, counted. long_journal.py [LINES]. Needs desk/build before."""
import pathlib
import re
import subprocess
import sys
import tempfile
import time

ROOT = pathlib.Path(__file__).resolve().parents[2]
BUILD = ROOT / "build"
sys.dont_write_bytecode = True
sys.path.insert(0, str(ROOT / "host" / "model"))
import ed25519
import kes
from journal import Judge, message
from lib.counted import counting
from lib.library import MAKE, MOVE, READ_KEY, RELEASE, SIGN, Library

HEIGHTS = 6, 6
PAGES = 256  # KiB: the kernel counts a process's pages in batches


class Desk:
    """A key in the library that writes a journal, a good line at a time."""

    def __init__(self, library, lines):
        self.library, self.lines = library, lines
        _, _, (_, self.table, _) = library.call(MAKE, *HEIGHTS, 0, [bytes(range(32)), bytes(kes.table_size(*HEIGHTS)), b""])
        for window in (0, 1):
            _, _, (self.table, _, _) = library.call(RELEASE, window, 0, kes.steps(*HEIGHTS), [self.table, b"", b""])
        _, _, (_, key, _) = library.call(READ_KEY, 0, 0, 0, [self.table, bytes(32), b""])
        self.header = b"kes2\t%d\t%d\t%s\n" % (*HEIGHTS, key.hex().encode())
        self.step = self.cents = 0

    def fields(self, serial):
        """The fields of a record with this serial, at the step whose turn it is."""
        step = serial * (kes.steps(*HEIGHTS) - 1) // self.lines
        if step > self.step:
            _, _, (self.table, _, _) = self.library.call(MOVE, 0, 0, step, [self.table, b"", b""])
            self.step = step
        card, amount = b"%016d" % (serial * 7919), b"%d" % (serial % 2_000_000 + 1)
        self.cents += int(amount)
        signed, room = message(b"kes2", card, b"%d" % serial, amount), bytes(kes.signature_size(*HEIGHTS))
        _, _, (_, _, signature) = self.library.call(SIGN, 0, 0, 0, [self.table, signed, room])
        return [b"%d" % self.step, card, b"%d" % serial, amount, signature.hex().encode()]


def joined(fields):
    return b"\t".join(fields) + b"\n"


def peak(process):
    """The most memory that the process has held, in KiB."""
    return int(re.search(r"VmHWM:\s+(\d+)", pathlib.Path(f"/proc/{process.pid}/status").read_text())[1])


def long_journal(library, lines, folder):
    desk, early, last = Desk(library, lines), lines // 100, lines
    data = [desk.header] + [joined(desk.fields(serial)) for serial in range(1, lines + 1)]
    began, peaks = time.time(), []
    with open(folder / "out", "wb") as out:
        process = subprocess.Popen([BUILD / "journal"], stdin=subprocess.PIPE, stdout=out)
        for part in data[: early + 1], data[early + 1 :]:
            process.stdin.write(b"".join(part))
            process.stdin.flush()
            peaks.append(peak(process))
        process.stdin.close()
        process.wait()
    took, size = time.time() - began, sum(map(len, data))
    expected = b"".join(b"%d\tG\n" % n for n in range(2, lines + 2)) + b"total\t%d\t%d\n" % (lines, desk.cents)
    if (folder / "out").read_bytes() != expected:
        sys.exit("long_journal: a good line is judged otherwise")
    if peaks[1] > peaks[0] + PAGES:
        sys.exit(f"long_journal: {peaks[0]} KiB at line {early}, {peaks[1]} KiB at line {last}")
    (folder / "journal").write_bytes(b"".join(data))
    added_up(desk, lines, folder)
    salvaged(data, folder)
    print(f"long_journal: {lines} good lines, {size >> 20} MiB, {lines / took:.0f} lines a second, peak {peaks[0]} KiB then {peaks[1]} KiB")


def added_up(desk, lines, folder):
    """The same journal through build/quarter, in no more memory than a journal of one line takes."""
    header, first, *_ = (folder / "journal").read_bytes().splitlines(keepends=True)
    (folder / "short").write_bytes(header + first)
    said, peaks = [], []
    with subprocess.Popen([BUILD / "quarter"], stdin=subprocess.PIPE, stdout=subprocess.PIPE, cwd=folder) as process:
        for name in b"short\n", b"journal\n":
            process.stdin.write(name)
            process.stdin.flush()
            said.append(process.stdout.readline())
            peaks.append(peak(process))
        process.stdin.close()
    mean, left = divmod(desk.cents, lines)
    if said[1] != b"journal\t%d\t%d\t%d\t2\t%d\t%d\t%d\t%d\n" % (lines, lines, desk.cents, lines + 1, mean, left, lines):
        sys.exit(f"long_journal: the good lines are added up otherwise: {said[1]}")
    if peaks[1] > peaks[0] + PAGES:
        sys.exit(f"long_journal: quarter holds {peaks[0]} KiB after one line, {peaks[1]} KiB after {lines}")
    print(f"long_journal: {lines} good lines added up, peak {peaks[0]} KiB after one line and {peaks[1]} KiB after all")


def salvaged(data, folder):
    """The same journal with every tenth line damaged through build/salvage, whose memory at the end is that after a hundredth."""
    damaged = [line if n % 10 else b"#" + line[1:] for n, line in enumerate(data, 1)]
    early, peaks = len(data) // 100, []
    with open(folder / "saved", "wb") as saved, open(folder / "list", "wb") as listed:
        process = subprocess.Popen([BUILD / "salvage"], stdin=subprocess.PIPE, stdout=saved, stderr=listed)
        for part in damaged[:early], damaged[early:]:
            process.stdin.write(b"".join(part))
            process.stdin.flush()
            peaks.append(peak(process))
        process.stdin.close()
        process.wait()
    if (folder / "saved").read_bytes() != b"".join(line for n, line in enumerate(data, 1) if n % 10):
        sys.exit("long_journal: other lines are saved")
    if (folder / "list").read_bytes() != b"".join(b"%d\tM\n" % n for n in range(10, len(data) + 1, 10)):
        sys.exit("long_journal: other lines are listed")
    if peaks[1] > peaks[0] + PAGES:
        sys.exit(f"long_journal: salvage holds {peaks[0]} KiB at line {early}, {peaks[1]} KiB at line {len(data)}")
    print(f"long_journal: {len(data)} lines salvaged, peak {peaks[0]} KiB then {peaks[1]} KiB")


def judged_for_nothing(good):
    """Lines after a good one, well signed or nearly, that are M, O or S."""
    step, card, serial, amount, signature = good
    tails = [signature[:-1], signature.upper(), signature + b"0", signature[:-1] + b"g", b""]
    yield from (joined([step, card, serial, amount, tail]) for tail in tails)
    yield from (joined([step, card, serial, other, signature]) for other in [b"0", b"2000001", b"9" * 400, b"01", b"-1"])
    yield from (joined([other, card, serial, amount, signature]) for other in [b"4096", b"00", b"9" * 400, b""])
    yield from [b"\n", joined([step, card]), b"x" * 5000 + b"\n", joined(good)[:-1] + b"\r\n"]
    yield joined([b"0", card, b"3", amount, signature])
    yield from (joined([step, card, other, amount, signature]) for other in [b"1", b"2", b"4", b"4294967295"])


def count_calls(library, folder):
    desk, program = Desk(library, 4), counting(folder)
    good = [desk.fields(serial) for serial in (1, 2, 3)]
    idle = list(judged_for_nothing(good[2]))
    data = desk.header + joined(good[0]) + joined(good[1]) + b"".join(idle) + joined(good[2])
    run = subprocess.run([program], input=data, capture_output=True, check=True)
    letters = re.findall(rb"^\d+\t(.)$", run.stdout, re.M)
    if run.stdout != Judge(kes.Scheme(kes.Module(ed25519))).output(data) or set(letters[2:-1]) != set(b"M O S".split()) or letters.count(b"G") != 3:
        sys.exit(f"long_journal: the counted journal is judged otherwise: {run.stdout}")
    if int(run.stderr) != 2 * 3:
        sys.exit(f"long_journal: {int(run.stderr)} Ed25519 calls for 3 good lines of three children and {len(idle)} lines that are M, O or S")
    print(f"long_journal: 3 good lines of three children asked Ed25519 six times, {len(idle)} lines that are M, O or S never")


def main():
    lines = int(sys.argv[1]) if len(sys.argv) > 1 else 100_000
    with tempfile.TemporaryDirectory() as name:
        library, folder = Library(name), pathlib.Path(name)
        count_calls(library, folder)
        long_journal(library, lines, folder)


main()
