#!/usr/bin/env python3
"""Random sets of journals, whole and damaged, through build/quarter: what it writes is the model's, byte for byte, and the order of up to 64
names changes nothing in the last line. Where a journal cannot be read on, it is refused whole; where the names cannot be read on or a line not
be written, no line of all is written. Reproducible: quarters.py [SEED [SETS]]. Needs desk/build before."""
import os
import pathlib
import random
import resource
import signal
import subprocess
import sys
import tempfile

ROOT = pathlib.Path(__file__).resolve().parents[2]
BUILD = ROOT / "build"
sys.dont_write_bytecode = True
sys.path.insert(0, str(ROOT / "host" / "model"))
import kes
import quarter
import sodium
from journal import Judge
from journals import WORDS, Day, drawn

JUDGE = Judge(kes.Scheme(sodium))
HEIGHTS = [(0, 0), (1, 2), (6, 6), (8, 4)]


def ran(data, folder, **more):
    given = {"input": data} if isinstance(data, bytes) else {"stdin": data}
    return subprocess.run([BUILD / "quarter"], **given, stdout=subprocess.PIPE, cwd=folder, check=True, timeout=600, **more).stdout


def need(holds, why):
    if not holds:
        sys.exit(f"quarters: {why}")


def read(folder):
    """Files by name, as the model reads them; a name that is not UTF-8 leads to none."""
    def found(name):
        try:
            return (folder / name.decode()).read_bytes() if name else None
        except (OSError, ValueError):
            return None
    return found


def named(draw, n):
    """A name for the n-th journal of a set."""
    return draw.choice([b"day-%d", b"a day %d", b"tab\t%d", b"\xc3\xa4%d", b"\xff%d", b"./././%d", b"%d" + b"x" * 200]) % n


def chosen(draw, files):
    """Names of a set: its journals, some twice, and some that lead to none."""
    others = [b"", b".", b"missing", b"no\0name", b"x" * 255, b"y" * 256, b"z" * 5000, b"all"]
    names = draw.choices([*files, *draw.sample(others, 3)], k=draw.choice([0, 1, 3, 20, 63, 64, 65, 70]))
    # a name of more than 255 bytes that leads to a file where it is cut
    return [b"./" * ((255 - len(name)) // 2) + name + b"more" if name in files and len(name) % 2 and draw.random() < 0.1 else name for name in names]


def compared(seed, count, folder):
    draw, lines, refused = random.Random(seed), 0, 0
    days = [Day(draw, h1, h2, 6, word, kes.Scheme(sodium)) for h1, h2 in HEIGHTS for word in WORDS]
    for n in range(count):
        room = folder / str(n)
        room.mkdir()
        files = {named(draw, k): drawn(draw, days) for k in range(draw.choice([1, 5, 20]))}
        for name, data in files.items():
            pathlib.Path(os.fsdecode(os.path.join(os.fsencode(room), name))).write_bytes(data)
        names = chosen(draw, files)
        data = b"\n".join(names) + draw.choice([b"", b"\n"])
        wrote, expected = ran(data, room), quarter.output(JUDGE, data, read(room))
        need(wrote == expected, f"set {n} of seed {seed} is written otherwise\n{data!r}\nprogram {wrote!r}\nmodel {expected!r}")
        lines, refused = lines + wrote.count(b"\n"), refused + wrote.count(b"\tH\n")
        if len(quarter.names(data)) <= 64:
            shuffled = ran(b"".join(name + b"\n" for name in draw.sample(quarter.names(data), len(quarter.names(data)))), room)
            need(shuffled.splitlines()[-1] == wrote.splitlines()[-1], f"set {n} of seed {seed} in another order comes to something else")
    need(count < refused < lines - 2 * count, "too few journals are refused, or too many")
    print(f"quarters: {count} sets of names are written as by the model, {lines} lines, {refused} of them refused; another order changes no last line")
    return days[1]


def cut_off(day, folder):
    """A journal of which a read fails, after every number of reads, is refused whole and adds nothing; read to its end it is as ever."""
    shim = folder / "failing.so"
    subprocess.run(["gcc", "-std=c99", "-O1", "-shared", "-fPIC", ROOT / "host" / "test" / "lib" / "failing.c", "-o", shim], check=True)
    (folder / "day").write_bytes(b"\n".join([day.header, *day.lines, b""]))
    whole, none = ran(b"day\n", folder), b"day\tH\nall\t0\t0\t0\t-\t-\t-\t-\t0\n"
    reads = -(-(folder / "day").stat().st_size // 100) + 1
    said = [ran(b"day\n", folder, env={**os.environ, "LD_PRELOAD": str(shim), "FAIL_AFTER": str(k)}) for k in range(reads + 1)]
    need(whole.startswith(b"day\t6\t6\t") and said == [none] * reads + [whole], "a journal that cannot be read on is not refused")
    print(f"quarters: a journal of which a read fails is refused, after each of {reads} reads")


def unopened(folder):
    """A name after the 64th is not even opened: opening a pipe that nobody writes to would wait."""
    os.mkfifo(folder / "pipe")
    said = ran(b"day\n" * 64 + b"pipe\n", folder).splitlines()
    need(said[64] == b"pipe\tH" and not any(line.endswith(b"\tH") for line in said[:64]), "the 65th name is not refused")
    print("quarters: a name after the 64th is not opened")


def names_cut_off(day, folder):
    whole = ran(b"day\nmissing\n", folder)
    for told in b"", b"day\n", b"day\nmiss":
        pipe, write = os.pipe()
        os.set_blocking(pipe, False)
        os.write(write, told)
        need(whole.startswith(ran(pipe, folder)) and b"all" not in ran(pipe, folder), "names that cannot be read on come to a line of all")
        os.close(pipe)
        os.close(write)
    for room in 0, 1, 10, len(whole) - 1:
        with open(folder / "out", "wb") as out:
            full = lambda: (signal.signal(signal.SIGXFSZ, signal.SIG_IGN), resource.setrlimit(resource.RLIMIT_FSIZE, (room, room)))
            subprocess.run([BUILD / "quarter"], input=b"day\nmissing\n", stdout=out, cwd=folder, timeout=60, preexec_fn=full, check=True)
        need((folder / "out").read_bytes() == whole[:room], f"with room for {room} bytes something else is written")
    print("quarters: where names cannot be read on or lines not be written, no line of all is written")


seed = int(sys.argv[1]) if len(sys.argv) > 1 else 1
with tempfile.TemporaryDirectory() as name:
    folder = pathlib.Path(name)
    day = compared(seed, int(sys.argv[2]) if len(sys.argv) > 2 else 200, folder)
    cut_off(day, folder)
    unopened(folder)
    names_cut_off(day, folder)
