#!/usr/bin/env python3
"""Writes what the program fair_cases must print under the gate, from the model with the stand-in.
With --check it writes nothing and says whether the file is that."""
import itertools

import standin
from fair import SIGNATURE, Fair, cache_size
from filed import keep_lines
from kes import H, Module

# from this tally on the stand-in answers for long; from SILENT - k on the k-th call is not answered
ANSWERED, SILENT = 1000, 2**32 + 100
# a make at N = 3 asks seven times
EDGES = [0, 94, 2**32 - 3, 2**64 - 2**32 + 96, 2**64 - 7, 2**64 - 3, 2**64 - 1]
MODULE = Module(standin, standin.answered, ANSWERED)
MODEL = Fair(MODULE)
LONGEST = 32900
WIDE = 2**64 - 1
# the bytes of step 1 at N = 3 that are signed and verified
SALE = b"\x09" * 40


def nines(size):
    return bytearray(b"\x09" * size)


def chained(data):
    """The digests of pieces of 4,096 bytes, each hashed onto those before it."""
    chain = bytes(32)
    for at in range(0, len(data), 4096):
        chain = H(chain + H(data[at : at + 4096]))
    return chain.hex()


def lend(master, seeds, cache, key):
    """Buffers of these lengths. Seeds rise; what is written to is nines."""
    return bytearray(range(9, 9 + master)), bytearray(at % 251 for at in range(seeds)), nines(cache), nines(key)


def make(n, *lengths):
    """What making answers at these lengths, and what it leaves."""
    lent = lend(*lengths)
    return MODEL.make(n, *lent), lent


def show_made(*numbers):
    number, left = make(*numbers)
    return " ".join([str(number), *map(chained, left)])


def fresh(n=3):
    """A fresh cache and its key."""
    return make(n, 32, 32 * n, cache_size(n), 32)[1][2:]


def show_moves(cache, steps):
    return " ".join([*(str(MODEL.move(cache, step)) for step in steps), chained(cache)])


def show_signed(cache, message, size=SIGNATURE):
    """What signing answers, the output, and the same in words."""
    signature = nines(size)
    number = MODEL.sign(cache, message, signature)
    return signature, f"{number} {chained(signature)}"


def day(n, stride):
    yield f"made {n} {show_made(n, 32, 32 * n, cache_size(n), 32)}"
    cache, key = fresh(n)
    for t in range(0, n, stride):
        moves = show_moves(cache, [t, t, n])
        signature, signed = show_signed(cache, b"top-up")
        tries = [(t, b"top-up"), (t + 1, b"top-up"), (t, b"refund")]
        yield " ".join(["step", str(t), moves, signed, *(str(MODEL.verify(n, key, at, message, signature)) for at, message in tries)])


def all_moves():
    for a, b in itertools.product(range(4), repeat=2):
        yield f"moves {a} {b} {show_moves(fresh()[0], [a, b])}"


def mixes(*choices):
    """Every mix of a right and a wrong choice; the first changes fastest."""
    return (mix[::-1] for mix in itertools.product(*choices[::-1]))


def makes():
    lengths = (32, 31), (96, 97), (388, 387), (32, 33)
    tries = [(n, *mix) for n in (3, 0, 257) for mix in mixes(*lengths)]
    tries += [(0, 32, 0, 4, 32), (257, 32, 8224, LONGEST, 32), (2**59, 32, 0, 4, 32), (WIDE, 32, 96, 388, 32)]
    tries += [(3, 33, 96, 388, 32), (3, 32, 95, 388, 32), (3, 32, 96, 389, 32), (3, 32, 96, 388, 31)]
    for case in tries:
        yield " ".join(["make", *map(str, case), show_made(*case)])


def caches():
    sound, lengths = (3, 1, 388), [(3, 1, 387), (3, 1, 389), (3, 1, 0), (3, 1, 3)]
    headers = [(0, 0, 4), (257, 1, LONGEST), (259, 1, 388), (3, 3, 388), (3, 257, 388)]
    for n, step, size in [sound, *lengths, *headers]:
        room = fresh()[0] + nines(LONGEST - 388)
        room[:4] = n.to_bytes(2, "little") + step.to_bytes(2, "little")
        cache = room[:size]
        signs = [show_signed(cache, nines(message), out)[1] for message, out in [*mixes((4096, 4097), (160, 159)), (0, 161)]]
        moves = show_moves(cache, [0, 1, 3, 258, 2**16 + 2, 2**32 + 2, WIDE]), show_moves(cache, [2])
        yield " ".join(["cache", str(n), str(step), str(size), *signs, *moves])


def verdicts():
    cache, key = fresh()
    MODEL.move(cache, 1)
    signature = show_signed(cache, SALE)[0]

    def verify(n=3, step=1, own=32, size=SIGNATURE, message=40, key=key, signature=signature):
        """At lengths that may be longer than what is lent, with nines behind it."""
        return str(MODEL.verify(n, (key + nines(1))[:own], step, nines(message), (signature + nines(1))[:size]))

    for n in (3, 0, 257):
        tries = mixes((32, 31), (160, 161), (40, 4097), (1, 3))
        yield " ".join(["verify", str(n), *(verify(n, step, own, size, message) for own, size, message, step in tries)])
    yield " ".join(["steps", *(verify(step=step) for step in (0, 2, 4, 257, 2**32 + 1, WIDE))])
    others = [verify(n) for n in (1, 256, WIDE)] + [verify(own=33), verify(size=159), verify(message=39), verify(key=nines(32))]
    yield " ".join(["other", *others])
    spoiled = [signature[:at] + bytes([found + 1 if found < 250 else 0]) + signature[at + 1 :] for at, found in enumerate(signature)]
    yield " ".join(["spoiled", *(verify(signature=other) for other in spoiled)])


def twice(name, tally, call, *lent):
    """A call from this tally on, and the same again with the tally left: each time its answer, the tally, and what was lent."""
    MODULE.tally, words = tally, [name, str(tally)]
    for _ in range(2):
        words += [str(call()), str(MODULE.tally), *map(chained, lent)]
    return " ".join(words)


def unanswered_make(n, tally):
    lent = lend(32, 32 * n, cache_size(n), 32)
    return twice(f"unanswered {n}", tally, lambda: MODEL.make(n, *lent), *lent)


def unanswered_sign(tally):
    MODULE.tally = ANSWERED
    cache, signature = fresh()[0], nines(SIGNATURE)
    return twice("unsigned", tally, lambda: MODEL.sign(cache, b"top-up", signature), signature)


def unanswered():
    """Every place at which making a cache of three entries or signing with it can fail, and the edges of the tally."""
    for tally in [SILENT - k for k in range(8)] + EDGES:
        yield unanswered_make(3, tally)
    # silent at 100, after the tally has begun anew
    yield unanswered_make(256, 2**64 - 300)
    for tally in (SILENT, SILENT - 1, 2**64 - 1):
        yield unanswered_sign(tally)


def lines():
    for n, stride in [(1, 1), (3, 1), (256, 51)]:
        yield from day(n, stride)
    for group in (all_moves, makes, caches, verdicts, unanswered):
        yield from group()


keep_lines("fair_cases", lines())
