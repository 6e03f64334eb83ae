#!/usr/bin/env python3
"""Random journals, whole and damaged, through build/fullheader: what it writes is the model's, byte for byte; build/journal judges it as the
model judged the journal before request 10, when the short form meant 6 and 6 under either word; and a second run changes nothing. Where it
cannot read or write, it stops, and the size tells. Reproducible: fullheaders.py [SEED [JOURNALS]]. Needs desk/build before."""
import os
import pathlib
import random
import resource
import signal
import subprocess
import sys
import tempfile
from unittest.mock import patch

ROOT = pathlib.Path(__file__).resolve().parents[2]
BUILD = ROOT / "build"
sys.dont_write_bytecode = True
sys.path.insert(0, str(ROOT / "host" / "model"))
import kes
import sodium
from fullheader import in_full
from journal import SHORT_HEIGHTS, Judge
from journals import WORDS, Day, drawn

SCHEME = kes.Scheme(sodium)
BEFORE = patch.dict(SHORT_HEIGHTS, {word: (6, 6) for word in WORDS})
HEADER, TAIL = b"kes2\t" + b"0" * 64 + b"\n", b"x" * 99 + b"\n"


def ran(program, data, **more):
    return subprocess.run([BUILD / program], input=data, stdout=subprocess.PIPE, check=True, **more).stdout


def need(holds, why):
    if not holds:
        sys.exit(f"fullheaders: {why}")


def short(draw, data):
    """A journal with the two-field form of its header, mostly."""
    head, lf, rest = data.partition(b"\n")
    return b"\t".join(head.split(b"\t")[::3]) + lf + rest if draw.random() < 0.7 else data


def compared(seed, count):
    draw, judge, written = random.Random(seed), Judge(SCHEME), 0
    days = [Day(draw, h1, h2, 6, word, SCHEME) for h1, h2 in ((1, 2), (6, 6), (8, 4)) for word in WORDS]
    for n in range(count):
        data = short(draw, drawn(draw, days))
        wrote = ran("fullheader", data)
        need(wrote == in_full(data), f"journal {n} of seed {seed} is written otherwise\n{data!r}\nprogram {wrote!r}")
        need(ran("fullheader", wrote) == wrote, f"a second run over journal {n} of seed {seed} changes it")
        with BEFORE:
            before = judge.output(data)
        need(ran("journal", wrote) == before, f"journal {n} of seed {seed} is judged otherwise than before\n{data!r}")
        written += wrote != data
    print(f"fullheaders: {count} journals are written as by the model, {written} of them with heights, and judged as before")


def unread(*parts, ended=False):
    """What is written of an input that gives these parts and then cannot be read on, or ends."""
    read, write = os.pipe()
    os.set_blocking(read, False)
    for part in parts:
        os.write(write, part)
    if ended:
        os.close(write)
    wrote = subprocess.run([BUILD / "fullheader"], stdin=read, stdout=subprocess.PIPE, timeout=60, check=True).stdout
    os.close(read)
    return wrote


def reading():
    long = HEADER + TAIL * 100
    need(unread(long, ended=True) == in_full(long), "a pipe that ends is written otherwise")
    need(unread(long) == in_full(long), "what was read before a read failed is not all there")
    for part in b"", HEADER[:3], HEADER[:-1], HEADER, HEADER + TAIL * 19:
        need(unread(part) == b"", f"a read that failed within 2,048 bytes leaves something, after {len(part)}")
    print("fullheaders: a failed read stops it, and a front that was not read whole writes nothing")


def writing(folder):
    long = HEADER + TAIL * 1000
    (folder / "long").write_bytes(long)
    for room in 0, 1, 6, 2052, 50_000:
        with open(folder / "long", "rb") as told, open(folder / "out", "wb") as out:
            full = lambda: (signal.signal(signal.SIGXFSZ, signal.SIG_IGN), resource.setrlimit(resource.RLIMIT_FSIZE, (room, room)))
            subprocess.run([BUILD / "fullheader"], stdin=told, stdout=out, timeout=60, preexec_fn=full, check=True)
        need((folder / "out").read_bytes() == in_full(long)[:room], f"with room for {room} bytes something else is written")
    print("fullheaders: a failed write stops it, and the size tells")


seed = int(sys.argv[1]) if len(sys.argv) > 1 else 1
compared(seed, int(sys.argv[2]) if len(sys.argv) > 2 else 500)
reading()
with tempfile.TemporaryDirectory() as name:
    writing(pathlib.Path(name))
