#!/usr/bin/env python3
"""No trace of yesterday: in a process of its own (trace.c) a key, or a fair's cache, is made, moved about and made to sign, each call also
with a module that does not answer. All memory that the process can write is searched, at every byte, for every word of 8 bytes of the
past: before kes_wipe some of a key's has to be found, and after it none. Needs desk/build before."""
import pathlib
import random
import re
import struct
import subprocess
import sys
import tempfile
import time

ROOT = pathlib.Path(__file__).resolve().parents[2]
sys.dont_write_bytecode = True
sys.path.insert(0, str(ROOT / "host" / "model"))
import fair
import kes
import sodium
from lib.library import COUNTED, program
from past import FairPast, Past, number_of
from planted import MiddleSecretLeft, SecretKept, SeedKept

MAKE, MAKE3, MOVE, SIGN, WIPE, FAIR_MAKE, FAIR_MOVE, FAIR_SIGN = range(8)
# heights, and the steps moved to: singly, in jumps, over one and over many steps of the trees above
HISTORIES = [
    ((0, 0), []),
    ((0, 3), [1, 2, 3, 7]),
    ((3, 0), [1, 2, 5]),
    ((2, 2), range(1, 16)),
    ((1, 3), [3, 7, 8, 14]),
    ((3, 2), [4, 5, 6, 21, 31]),
    ((6, 6), [1, 63, 64, 65, 700, 2048, 3000]),
    ((0, 0, 0), []),
    ((1, 1, 1), range(1, 8)),
    ((2, 1, 2), [1, 3, 4, 7, 8, 22, 31]),
    ((4, 4, 4), [1, 15, 16, 17, 255, 256, 700, 3000]),
]
# entries of a fair, and the steps moved to
FAIRS = [(1, []), (3, [1, 2]), (24, [1, 5, 23]), (256, [1, 128, 255])]


class Host:
    def __init__(self, driver):
        self.process = subprocess.Popen([driver], stdin=subprocess.PIPE, stdout=subprocess.PIPE, bufsize=0)

    def ask(self, op, h1=0, h2=0, h3=0, step=0, data=b"", size=0, silent=0):
        """Has the host do a call, which has to be done, or where an asking is silent not, and answers the size bytes that it hands out."""
        self.process.stdin.write(struct.pack("=BBBBIII", op, h1, h2, h3, step, silent, len(data)) + data)
        number, _ = struct.unpack("=II", self.read(8))
        if number != (kes.UNANSWERED if silent else kes.DONE):
            sys.exit(f"trace: the host answers a call with {number}")
        return self.read(size)

    def read(self, size):
        data = b""
        while len(data) < size:
            more = self.process.stdout.read(size - len(data))
            if not more:
                sys.exit("trace: the host ended without an answer")
            data += more
        return data

    def memory(self):
        """All that the process can write: each mapping's first address, name and bytes."""
        folder = pathlib.Path("/proc") / str(self.process.pid)
        with open(folder / "mem", "rb") as mem:
            for start, end, name in re.findall(r"^(\w+)-(\w+) .w.. \S+ \S+ \d+ *(.*)$", (folder / "maps").read_text(), re.M):
                mem.seek(int(start, 16))
                yield int(start, 16), name or "no name", mem.read(int(end, 16) - int(start, 16))

    def end(self):
        self.process.stdin.close()
        self.process.wait()


def found(data, words):
    """Each place at which one of the words stands, at whatever byte, with its name."""
    places = []
    for shift in range(8):
        numbers = memoryview(data)[shift : len(data) - (len(data) - shift) % 8].cast("Q")
        hits = words.keys() & numbers
        places += [(shift + 8 * i, words[n]) for i, n in enumerate(numbers) if n in hits] if hits else []
    return places


def search(host, words):
    """Each place at which one of the words stands, in words."""
    return [f"{name} in {mapping} at {start + at:x}" for start, mapping, data in host.memory() for at, name in found(data, words)]


class Life:
    """A life in a host, searched after each call."""

    def __init__(self, driver, draw):
        self.host, self.draw, self.step, self.signatures, self.before = Host(driver), draw, 0, [], 0

    def searched(self, past):
        """Searches, wipes, and searches again."""
        self.before += len(search(self.host, past.words()))
        self.host.ask(WIPE)
        after = search(self.host, past.words())
        if after:
            sys.exit("\n".join([f"trace: at step {self.step} of {self.name} there is still", *after]))

    def silences(self, askings):
        """The first asking, one in the middle, and the last, as silent counts them."""
        return sorted({1, (askings + 1) // 2, askings})

    def fail_to_make(self, askings, seed, make):
        """Makes that are not answered leave the seed where the host has it, and nothing else of the past."""
        for silent in self.silences(askings):
            make(silent)
            past = self.past()
            del past.names[seed]
            self.searched(past)

    def fail(self, askings, call):
        """A call that is not answered leaves no more than one that is done."""
        for silent in self.silences(askings):
            call(silent)
            self.wipe()

    def wipe(self):
        past = self.past()
        self.searched(past)
        if not search(self.host, {number_of(past.present[:8]): "the present secret"}):
            sys.exit("trace: the search does not even find the table")


class KeyLife(Life):
    def __init__(self, driver, draw, *heights):
        super().__init__(driver, draw)
        self.heights, self.seed, self.name = heights, draw.randbytes(32), "heights " + " and ".join(map(str, heights))
        self.size = kes.signature_size(*heights)

    def make(self, silent=0):
        self.host.ask(MAKE if len(self.heights) == 2 else MAKE3, *self.heights, data=self.seed, silent=silent)

    def askings(self, step):
        """How often a move to this step asks Ed25519: for the half that the topmost tree that moves enters, and for all and a root of each below."""
        now, then = kes.steps_of(self.heights, self.step), kes.steps_of(self.heights, step)
        top = next(n for n, (a, b) in enumerate(zip(now, then)) if a != b)
        return 2 ** kes.highest_difference(now[top], then[top]) + sum(2**h + 1 for h in self.heights[top + 1 :])

    def fail_each(self, step):
        """The calls that come next."""
        self.fail(self.askings(step), lambda silent: self.host.ask(MOVE, step=step, silent=silent))
        self.fail(1, lambda silent: self.host.ask(SIGN, data=self.draw.randbytes(40), size=self.size, silent=silent))

    def fail_first(self):
        self.fail_to_make(sum(2**h + 1 for h in self.heights) - 1, self.seed, self.make)

    def move(self, step):
        self.host.ask(MOVE, step=step)
        self.step = step

    def sign(self):
        message = self.draw.randbytes(40)
        signature = self.host.ask(SIGN, data=message, size=self.size)
        self.signatures.append((self.step, message, signature))

    def past(self):
        return Past(self.seed, self.heights, self.step, self.signatures)


class FairLife(Life):
    def __init__(self, driver, draw, n):
        super().__init__(driver, draw)
        self.master, self.seeds, self.name = draw.randbytes(32), [draw.randbytes(32) for _ in range(n)], f"a fair of {n}"
        self.vks = [sodium.public_key(seed) for seed in self.seeds]

    def make(self, silent=0):
        self.host.ask(FAIR_MAKE, step=len(self.seeds), data=self.master + b"".join(self.seeds), silent=silent)

    def fail_each(self, step):
        """Signing; a move asks nothing."""
        self.fail(1, lambda silent: self.host.ask(FAIR_SIGN, data=self.draw.randbytes(40), size=fair.SIGNATURE, silent=silent))

    def fail_first(self):
        self.fail_to_make(2 * len(self.seeds) + 1, self.master, self.make)

    def move(self, step):
        self.host.ask(FAIR_MOVE, step=step)
        self.step = step

    def sign(self):
        message = self.draw.randbytes(40)
        self.host.ask(FAIR_SIGN, data=message, size=fair.SIGNATURE)
        self.signatures.append((self.step, message))

    def past(self):
        return FairPast(self.master, self.seeds, self.vks, self.step, self.signatures)


def wiped_after_each_call(life, steps):
    """Answers how many words of the past were found before a wipe."""
    life.fail_first()
    life.make()
    life.wipe()
    for step in steps:
        life.fail_each(step)
        life.move(step)
        life.wipe()
        life.sign()
        life.wipe()
    life.host.end()
    return life.before


def wiped_at_the_end(life, steps):
    life.make()
    life.sign()
    for step in steps:
        life.move(step)
        life.sign()
    life.wipe()
    life.host.end()


class Blank:
    """In Ed25519's place where only seeds matter."""

    public_key = staticmethod(lambda secret: kes.H(b"key" + secret))
    sign = staticmethod(lambda secret, message: bytes(64))


def table(scheme, seed, heights, step):
    made = bytearray(kes.table_size(*heights))
    scheme(Blank).make_with(heights, bytearray(seed), made)
    scheme(Blank).free(made)
    scheme(Blank).move(made, step)
    return bytes(made)


def planted():
    """The model's table holds nothing of the past; with an error of 01's "Errors that look right" in it, or the middle leaf's secret, it does."""
    seed = bytes(range(32))
    for heights, step, errors in [((2, 2), 6, (SeedKept, SecretKept)), ((1, 2, 1), 13, (SeedKept, SecretKept, MiddleSecretLeft))]:
        words = Past(seed, heights, step).words()
        if found(table(kes.Scheme, seed, heights, step), words):
            sys.exit("trace: what is called past stands in a right table")
        for wrong in errors:
            if not found(table(wrong, seed, heights, step), words):
                sys.exit(f"trace: {wrong.__name__} is not noticed")


def fair_planted():
    """The same of a cache: one that is moved holds nothing of the past, one that only says so does, and so does the master seed."""
    master, seeds = bytes(range(32)), [bytes([i + 1]) * 32 for i in range(3)]
    made, key, model = bytearray(fair.cache_size(3)), bytearray(32), fair.Fair(Blank)
    model.make(3, bytearray(master), bytearray(b"".join(seeds)), made, key)
    stale = fair.header(3, 2) + made[4:]
    model.move(made, 2)
    words = FairPast(master, seeds, [bytes(32)] * 3, 2).words()
    if found(bytes(made), words) or not found(stale, words) or not found(master, words):
        sys.exit("trace: what is past of a cache is not told from what is not")


def lived(driver, draw, kind, *size, steps):
    """Lives twice, and says what was found."""
    began, name = time.time(), driver.name.replace("_", ": ")
    life = kind(driver, draw, *size)
    before = wiped_after_each_call(life, steps)
    wiped_at_the_end(kind(driver, draw, *size), steps)
    if kind is KeyLife and steps and before == 0:
        sys.exit(f"{name}: nothing is found even before the wipe, at {life.name}")
    print(f"{name}: {life.name}, {len(steps)} moves: {before} words before wiping, none after ({time.time() - began:.1f} s)")


def main():
    planted()
    fair_planted()
    draw = random.Random(1)
    with tempfile.TemporaryDirectory() as folder:
        for adapter in ("sodium", "openssl"):
            driver = program(folder, "trace", adapter, *(f"-Wl,--wrap={asking}" for asking in COUNTED[:2]))
            for heights, steps in HISTORIES:
                lived(driver, draw, KeyLife, *heights, steps=steps)
            for n, steps in FAIRS:
                lived(driver, draw, FairLife, n, steps=steps)


main()
