#!/usr/bin/env python3
"""Writes what the program key_cases must print under the gate, from the model with the stand-in.
With --check it writes nothing and says whether the file is that."""
import standin
from filed import keep_lines
from kes import H, Module, Scheme, signature_size, steps, table_size

HEIGHTS = [(2, 2), (1, 0), (0, 1), (3, 2), (0, 0, 0), (1, 1, 1), (0, 1, 0), (2, 1, 2)]
# of 16 steps
WINDOWS = [(2, 2), (1, 1, 2)]
# byte 2 says how many trees there are, and byte 3 how high the third is; each table has the length that its heights have, but for one
HEADERS = [((2, 2, 1, 0), 720), ((2, 2, 1, 1), 720), ((2, 2, 0, 0), 720), ((2, 2, 3, 0), 720), ((9, 0, 1, 0), 1424), ((1, 2, 1, 0), 592), ((1, 0, 2, 0), 592)]
HEADERS += [((1, 0, 2, 0), 591), ((2, 2, 2, 0), 976), ((8, 8, 2, 8), 3280), ((9, 0, 2, 0), 1616), ((0, 9, 2, 0), 1616), ((0, 0, 2, 9), 1328), ((0, 0, 3, 0), 464)]
# from this tally on the stand-in answers for long; from SILENT - k on the k-th call is not answered
ANSWERED, SILENT = 1000, 2**32 + 100
# a make at (2, 2) asks nine times
EDGES = [0, 92, 2**32 - 4, 2**64 - 2**32 + 96, 2**64 - 9, 2**64 - 4, 2**64 - 1]
MODULE = Module(standin, standin.answered, ANSWERED)
SCHEME = Scheme(MODULE)


def grown(answer):
    """A number, and the count where it is 0."""
    number, count = answer
    return f"0 {count}" if number == 0 else f"{number}"


def told(*words):
    """A line."""
    return " ".join(map(str, words))


def make(heights, table):
    return SCHEME.make_with(heights, bytearray(range(1, 33)), table)


def read_key(table):
    key = bytearray(32)
    return SCHEME.read_key(table, key), bytes(key)


def made(heights, table):
    answer = make(heights, table)
    number, key = read_key(table)
    return told("made", *heights, grown(answer), H(table).hex(), number, key.hex())


def windows(heights):
    """Two windows: releases refused and done, and moves that wait for one of them."""
    table = bytearray(table_size(*heights))
    make(heights, table)

    def release(window, to):
        return SCHEME.release(table, window, to)

    def move(to):
        return grown(SCHEME.move(table, to))

    def catch_up(to):
        return grown(SCHEME.catch_up(table, to))

    words = [move(1), release(2, 1), release(2**32, 1), release(0, 17), release(0, 5), move(1), release(1, 3), catch_up(4), catch_up(3), release(0, 4)]
    return told("windows", *heights, *words, release(0, 5), release(1, 16), move(6), move(5), H(table).hex())


def step(heights, t, table):
    key = read_key(table)[1]
    end = steps(*heights)
    moves = [grown(SCHEME.move(table, to)) for to in (t, t, end)] + [grown(SCHEME.catch_up(table, to)) for to in (t, 0, end)]
    signature = bytearray(signature_size(*heights))
    signed = SCHEME.sign(table, b"top-up", signature)
    tries = [(t, b"top-up"), (t + 1, b"top-up"), (t, b"refund")]
    verdicts = [SCHEME.judge(heights, key, at, message, signature) for at, message in tries]
    return told("step", t, *moves, H(table).hex(), signed, H(signature).hex(), *verdicts)


def at(heights, t):
    """The table of a step, made and moved where the module answers."""
    MODULE.tally, table = ANSWERED, bytearray(table_size(*heights))
    make(heights, table)
    SCHEME.free(table)
    SCHEME.move(table, t)
    return table


def jumps(heights):
    chain, total = bytes(32), 0
    end = steps(*heights)
    for a in range(end):
        for b in range(a, end):
            table = at(heights, a)
            total += SCHEME.move(table, b)[1]
            chain = H(chain + H(table))
    return told("jumps", chain.hex(), total)


def messages():
    table, signature = bytearray(272), bytearray(224)
    words = [grown(make((0, 0), table))]
    for message in (b"", b"\7" * 4096, b"\7" * 4097):
        words += [SCHEME.sign(table, message, signature), H(signature).hex()]
    return told("messages", *words)


def taller(heights):
    """Neither made nor judged."""
    lent = bytearray(table_size(8, 8, 8))
    return told("taller", *heights, grown(make(heights, lent)), SCHEME.judge(heights, bytes(32), 0, b"top-up", lent))


def tallest(heights):
    """Made, moved to the last step and not past it, signed with and verified."""
    table, signature = bytearray(table_size(*heights)), bytearray(signature_size(*heights))
    words, last = [grown(make(heights, table))], steps(*heights) - 1
    SCHEME.free(table)
    words += [grown(SCHEME.move(table, last)), grown(SCHEME.move(table, last + 1)), H(table).hex()]
    words += [SCHEME.sign(table, b"top-up", signature), H(signature).hex()]
    words += [SCHEME.judge(heights, read_key(table)[1], step, b"top-up", signature) for step in (last, last + 1)]
    return told("tallest", *heights, *words)


def damaged(heights, t):
    """A signature with a bit of each 32 bytes changed."""
    table, signature = at(heights, t), bytearray(signature_size(*heights))
    SCHEME.sign(table, b"top-up", signature)
    key, words = read_key(table)[1], []
    for place in range(0, len(signature), 32):
        signature[place] ^= 1
        words.append(SCHEME.judge(heights, key, t, b"top-up", signature))
        signature[place] ^= 1
    return told("damaged", *heights, t, *words, SCHEME.judge(heights, key, t, b"top-up", signature))


def headers():
    """Whether the key of a table is read that begins with these four bytes, and else is zeros."""
    return told("headers", *(read_key(bytearray(first).ljust(size, b"\0"))[0] for first, size in HEADERS))


def twice(tally, call, *lent):
    """A call from this tally on, and the same again with the tally left: each time its answer, the tally, and what was lent."""
    MODULE.tally, words = tally, [tally]
    for _ in range(2):
        words += [call(), MODULE.tally, *(H(data).hex() for data in lent)]
    return told(*words)


def make_at(heights, tally):
    MODULE.tally, seed, table = ANSWERED, bytearray(b"\7" * 32), bytearray(table_size(*heights))
    make(heights, table)
    return told("make", *heights, twice(tally, lambda: grown(SCHEME.make_with(heights, seed, table)), seed, table))


def move_at(heights, a, b, tally):
    table = at(heights, a)
    return told("move", *heights, a, b, twice(tally, lambda: grown(SCHEME.move(table, b)), table))


def catch_up_at(heights, a, b, tally):
    """A third time it stays."""
    table = at(heights, a)
    line = told("catch-up", *heights, a, b, twice(tally, lambda: grown(SCHEME.catch_up(table, b)), table))
    return told(line, grown(SCHEME.catch_up(table, b)), MODULE.tally, H(table).hex())


def sign_at(heights, tally):
    table, signature = at(heights, 5), bytearray(signature_size(*heights))
    SCHEME.sign(table, b"refund", signature)
    return told("sign", *heights, twice(tally, lambda: SCHEME.sign(table, b"top-up", signature), signature))


def unanswered(heights, across, catch_up):
    """Every place at which a make, a move to the next step and one across, a catch-up or signing can fail."""
    for k in range(10):
        yield make_at(heights, SILENT - k)
    for a, b in [(a, a + 1) for a in range(steps(*heights) - 1)] + [across]:
        for k in range(8):
            yield move_at(heights, a, b, SILENT - k)
    for k in range(8):
        yield catch_up_at(heights, *catch_up, SILENT - k)
    for tally in (SILENT, SILENT - 1, 2**64 - 1):
        yield sign_at(heights, tally)


def edges():
    """Of the tally."""
    for tally in EDGES:
        yield make_at((2, 2), tally)
    yield move_at((2, 2), 7, 8, 2**64 - 3)
    # silent at 100, after the tally has begun anew
    yield make_at((12, 12), 2**64 - 8000)


def lines():
    for heights in HEIGHTS:
        table = bytearray(table_size(*heights))
        yield made(heights, table)
        SCHEME.free(table)
        for t in range(steps(*heights)):
            yield step(heights, t, table)
        yield jumps(heights)
    yield from map(windows, WINDOWS)
    yield from map(tallest, [(12, 12), (8, 8, 8)])
    yield from map(taller, [(13, 0), (0, 13), (9, 0, 0), (0, 9, 0), (0, 0, 9)])
    yield messages()
    yield damaged((2, 1, 2), 22)
    yield headers()
    yield from unanswered((2, 2), (1, 14), (3, 8))
    yield from unanswered((1, 1, 1), (1, 6), (3, 4))
    yield from edges()


keep_lines("key_cases", lines())
