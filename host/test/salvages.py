#!/usr/bin/env python3
"""Random journals, damaged by scribbles of every kind, through build/salvage: what it saves and lists is the model's, byte for byte; what is saved
and listed adds up to the lines of the input; what stands behind the damage is saved whole; and a second run over what was saved gives it back and lists
nothing. Where it cannot read or write, it stops, and the count of lines tells. Reproducible: salvages.py [SEED [JOURNALS]]. Needs desk/build before."""
import os
import pathlib
import random
import resource
import signal
import subprocess
import sys
import tempfile

ROOT = pathlib.Path(__file__).resolve().parents[2]
BUILD = ROOT / "build"
sys.dont_write_bytecode = True
sys.path.insert(0, str(ROOT / "host" / "model"))
import kes
import salvage
import sodium
from journal import Judge
from journals import WORDS, Day, drawn

SCHEME = kes.Scheme(sodium)
JUDGE = Judge(SCHEME)
HEIGHTS = [(0, 0), (1, 2), (6, 6), (8, 4)]


def ran(data, **more):
    """What is saved and what is listed of an input."""
    given = {"input": data} if isinstance(data, bytes) else {"stdin": data}
    done = subprocess.run([BUILD / "salvage"], **given, capture_output=True, check=True, timeout=600, **more)
    return done.stdout, done.stderr


def need(holds, why):
    if not holds:
        sys.exit(f"salvages: {why}")


def count(data):
    """The lines of an input; an unended last line counts."""
    return data.count(b"\n") + (data[-1:] not in (b"", b"\n"))


def scribble(draw, size):
    """Bytes as a card slot leaves them."""
    return draw.choice([draw.randbytes(size), bytes(size), b"\xff" * size, b"\n" * size, b"0" * size, bytes(draw.choice(b"\n\t0a\0") for _ in range(size))])


def scribbled(draw, data):
    """An input with part of it overwritten, taken out or put in."""
    first, size = draw.randrange(len(data) + 1), draw.choice([1, 1, 2, 10, 100, 700, 3000])
    left = draw.choice([first, first, first + size, first + draw.randrange(size + 1)])
    return data[:first] + (b"" if left > first and draw.random() < 0.2 else scribble(draw, size)) + data[left:]


def repeated(draw, day):
    """A journal of good lines in any order, some of them twice."""
    return b"".join(line + b"\n" for line in [day.header, *draw.choices(day.lines, k=draw.choice([0, 3, 8, 30]))])


def compared(seed, journals):
    draw, saved, listed, empty = random.Random(seed), 0, 0, 0
    days = [Day(draw, h1, h2, 6, word, SCHEME) for h1, h2 in HEIGHTS for word in WORDS]
    for n in range(journals):
        data = drawn(draw, days) if draw.random() < 0.5 else repeated(draw, draw.choice(days))
        for _ in range(draw.choice([0, 1, 1, 2, 5])):
            data = scribbled(draw, data)
        wrote, expected = ran(data), salvage.outputs(JUDGE, data)
        need(wrote == expected, f"journal {n} of seed {seed} is salvaged otherwise\n{data!r}\nprogram {wrote!r}\nmodel {expected!r}")
        if wrote[0]:
            need(count(wrote[0]) + count(wrote[1]) == count(data), f"journal {n} of seed {seed} does not add up")
            need(ran(wrote[0]) == (wrote[0], b""), f"a second run over journal {n} of seed {seed} changes it")
        saved, listed, empty = saved + wrote[0].count(b"\n"), listed + wrote[1].count(b"\n"), empty + (not wrote[0])
    need(min(saved, listed) > 2 * journals and journals // 20 < empty < journals // 2, f"too little is saved, listed or empty: {saved}, {listed}, {empty}")
    print(f"salvages: {journals} journals are salvaged as by the model, {saved} lines saved, {listed} listed, {empty} headers wrong; a second run changes none")
    return days


def behind(seed, days, rounds):
    """Whatever is scribbled over lines below the header: every line behind the next LF is saved, as it was."""
    draw = random.Random(seed)
    for _ in range(rounds):
        day = draw.choice(days)
        lines = [line + b"\n" for line in draw.choices(day.lines, k=8)]
        front, damage, back = lines[: draw.randrange(4)], scribble(draw, draw.randrange(1, 3000)), lines[draw.randrange(4, 8) :]
        head, found = day.header + b"\n" + b"".join(front), ran(day.header + b"\n" + b"".join(front) + damage + b"\n" + b"".join(back))[0]
        need(found == head + b"".join(back), f"damage costs a line: {damage!r}")
    print(f"salvages: {rounds} damages cost no line behind the next LF")


def unread(*parts):
    """What is written of an input that gives these parts and then cannot be read on."""
    read, write = os.pipe()
    os.set_blocking(read, False)
    for part in parts:
        os.write(write, part)
    wrote = ran(read)
    os.close(read)
    os.close(write)
    return wrote


def reading(day):
    """A failed read stops it: all of the lines before is written, and nothing of the line that was not read whole."""
    whole = day.header + b"\n" + b"x\n" + day.lines[0] + b"\n"
    saved, listed = day.header + b"\n" + day.lines[0] + b"\n", b"2\tM\n"
    for part, expected in (b"", (b"", b"")), (day.header, (b"", b"")), (whole, (saved, listed)), (whole + day.lines[1], (saved, listed)):
        need(unread(part) == expected, f"a read that failed after {len(part)} bytes leaves something else")
    need(ran(whole + day.lines[1]) == (saved, listed + b"4\tM\n"), "an unended line is not listed")
    print("salvages: a failed read stops it, and lists no line that was not read whole")


def writing(day, folder):
    """A failed write to either output stops it: neither goes on by itself for long."""
    data = day.header + b"\n" + (day.lines[0] + b"\nx\n") * 5000
    saved, listed = salvage.outputs(JUDGE, data)
    (folder / "long").write_bytes(data)
    for name, whole in ("saved", saved), ("listed", listed):
        for room in 0, 1, 1000, len(whole) // 2:
            full = lambda: (signal.signal(signal.SIGXFSZ, signal.SIG_IGN), resource.setrlimit(resource.RLIMIT_FSIZE, (room, room)))
            with open(folder / "long", "rb") as told, open(folder / name, "wb") as out, subprocess.Popen(["cat"], stdin=subprocess.PIPE, stdout=subprocess.PIPE) as cat:
                outputs = {"stdout": out, "stderr": cat.stdin} if name == "saved" else {"stdout": cat.stdin, "stderr": out}
                with subprocess.Popen([BUILD / "salvage"], stdin=told, preexec_fn=full, **outputs) as process:
                    cat.stdin.close()
                    other = cat.stdout.read()
                read = os.lseek(told.fileno(), 0, os.SEEK_CUR)
            need(process.returncode == 0 and (folder / name).read_bytes() == whole[:room], f"with room for {room} bytes something else is {name}")
            need(read < len(data) and (listed if name == "saved" else saved).startswith(other), f"with room for {room} bytes of what is {name} it reads on")
    print("salvages: a failed write to either output stops it")


seed = int(sys.argv[1]) if len(sys.argv) > 1 else 1
days = compared(seed, int(sys.argv[2]) if len(sys.argv) > 2 else 500)
behind(seed, days, 60)
reading(days[2])
with tempfile.TemporaryDirectory() as name:
    writing(days[2], pathlib.Path(name))
