#!/usr/bin/env python3
"""Hostile calls of the C library between guard pages, each answer and each byte left behind as the independent model has it.
Both sides ask libsodium for Ed25519, so what is compared is this library. Needs desk/build before.
    hostile_calls.py [--seed S] [--seconds N] [--case N] [--planted]"""
import functools
import pathlib
import sys
import tempfile

HOST = pathlib.Path(__file__).resolve().parents[1]
sys.dont_write_bytecode = True
sys.path[:0] = [str(HOST / "test"), str(HOST / "model")]
import corpus
import fair
import fair_calls
import kes
import plain
import plain_calls
import sodium
from lib.library import CATCH_UP, FAIR_MAKE, FAIR_MOVE, FAIR_SIGN, HASH, MAKE, MAKE3, MOST, MOVE, PLAIN_FILL, READ_KEY, RELEASE, SIGN, VERIFY, VERIFY3, Ended, Library
from lib.modelled import NAMES, Model, show
from mutate import edge, spoiled
from planted import FAIR, HOSTILE, PLAIN, PLANTED, TRIPLE, WINDOWS
from rounds import Different, NoAnswer, main
from silences import FAIR_SILENCES, PLAIN_SILENCES, SILENCES

SIZES = [0, 1, 31, 32, 33, 127, 128, 129, kes.LONGEST - 1, kes.LONGEST, kes.LONGEST + 1, 2 * kes.LONGEST]
# key pairs that a case may grow, at 0.1 ms or so each
CHEAP, DEAR = 64, 2 ** (kes.TALLEST + 1)


def small(draw, trees):
    return tuple(draw.choice([0, 1, 2, 3] if trees == 2 else [0, 1, 1, 2]) for _ in range(trees))


def any_height(draw, trees):
    return tuple(draw.randrange(kes.LIMITS[trees] + 1) for _ in range(trees))


def some_message(draw):
    return draw.randbytes(draw.choice([draw.choice(SIZES), draw.randrange(64)]))


def some_table(draw):
    """An honest table, one whose header says another step, or any bytes behind a good header."""
    way, trees = draw.random(), draw.choice([2, 3])
    heights = small(draw, trees) if way < 0.7 else any_height(draw, trees)
    end, seed = kes.steps(*heights), draw.randrange(4)
    step = draw.randrange(end)
    if way < 0.6:
        return corpus.table(heights, seed, step)
    if way < 0.7:
        return kes.header(heights, step) + corpus.table(heights, seed, draw.randrange(end))[kes.HEADER :]
    numbers = [draw.choice([end, draw.randrange(end + 1)]) for _ in range(2)]
    return kes.header(heights, step, *numbers) + draw.randbytes(kes.part_size(*heights))


def called(op, heights, step, buffers):
    """A request; the third height, or 0, comes last."""
    h1, h2, h3 = (*heights, 0)[:3]
    return [op, h1, h2, step, buffers, h3]


def made(draw, op, trees):
    heights = small(draw, trees) if draw.random() < 0.9 else any_height(draw, trees)
    return called(op, heights, 0, [bytes([draw.randrange(4)]) * 32, draw.randbytes(kes.table_size(*heights)), b""])


def make(draw):
    return made(draw, MAKE, 2)


def make3(draw):
    return made(draw, MAKE3, 3)


def read_key(draw):
    return [READ_KEY, 0, 0, 0, [some_table(draw), draw.randbytes(32), b""]]


def move(draw):
    """To a later step, often one that is near: the taller the tree, the nearer must it be for the move to be cheap. Or to the last that both
    windows have released."""
    table = some_table(draw)
    heights, now = kes.read_header(table)
    near = now + draw.randrange(1, 5)
    far = draw.randrange(now, kes.steps(*heights))
    return [MOVE, 0, 0, draw.choice([near, far, min(kes.numbers_in(table))]), [table, b"", b""]]


def catch_up(draw):
    """As a move; at times to a step that is not later."""
    request = move(draw)
    now = kes.read_header(request[4][0])[1]
    return [CATCH_UP, 0, 0, draw.choice([request[3], request[3], now, draw.randrange(now + 1)]), request[4]]


def release(draw):
    table = some_table(draw)
    end = kes.steps(*kes.heights_in(table))
    stood = draw.choice(kes.numbers_in(table))
    return [RELEASE, draw.choice([0, 0, 1, 1, 2]), 0, draw.choice([stood, max(0, stood - 1), end, end + 1, draw.randrange(end + 1)]), [table, b"", b""]]


def sign(draw):
    """At times into a byte too many."""
    table = some_table(draw)
    size = kes.signature_size(*kes.heights_in(table)) + (draw.random() < 0.1)
    return [SIGN, 0, 0, 0, [table, some_message(draw), draw.randbytes(size)]]


def signed(draw, step, message, heights):
    """An honest signature and its key; at times with one of its sum signatures, or roots, of another step."""
    seed = draw.randrange(4)
    signature = corpus.signature(heights, seed, step, message)
    if draw.random() < 0.2:
        mixed = [*sum(corpus.SCHEME.taken(signature, heights), [])]
        other = [*sum(corpus.SCHEME.taken(corpus.signature(heights, seed, draw.randrange(kes.steps(*heights)), b""), heights), [])]
        at = draw.randrange(len(mixed))
        signature = b"".join(mixed[:at] + other[at : at + 1] + mixed[at + 1 :])
    return signature, corpus.key(heights, seed)


def verified(draw, op, trees):
    message, heights = some_message(draw), draw.choice([small, any_height])(draw, trees)
    step = draw.randrange(kes.steps(*heights))
    honest = max(heights) <= 3 and draw.random() < 0.9
    signature, key = signed(draw, step, message, heights) if honest else corpus.chosen(draw, heights, step, message)
    return called(op, heights, step, [key, message, signature])


def verify(draw):
    return verified(draw, VERIFY, 2)


def verify3(draw):
    return verified(draw, VERIFY3, 3)


def hashed(draw):
    return [HASH, 0, 0, 0, [some_message(draw), draw.randbytes(32), b""]]


def fair_sign(draw):
    return fair_calls.sign(draw, some_message(draw))


def fair_verify(draw):
    return fair_calls.verify(draw, some_message(draw))


def plain_sign(draw):
    return plain_calls.sign(draw, some_message(draw))


# in the order of their numbers: the calls, how often each is drawn, and how many buffers it is lent
CALLS = [make, read_key, move, catch_up, release, sign, verify, make3, verify3, hashed, fair_calls.make, fair_calls.move, fair_sign, fair_verify]
WEIGHTS, BUFFERS = [2, 1, 4, 3, 2, 2, 3, 2, 4, 1, 1, 1, 1, 2], [2, 2, 1, 1, 1, 3, 3, 2, 3, 2, 4, 1, 3, 3]
CALLS += [plain_calls.fill, plain_calls.root, plain_calls.path, plain_sign]
WEIGHTS, BUFFERS = WEIGHTS + [1, 1, 1, 1], BUFFERS + [2, 2, 2, 3]


def heights_spoiled(draw, table):
    """Another height in the header, or another number of trees; mostly with a length that fits it, so that the same bytes are read otherwise."""
    first = bytearray(table[:4])
    first[draw.choice([0, 1, 3])] = draw.choice([0, 1, 2, 3, 8, 9, kes.TALLEST, kes.TALLEST + 1, 255])
    first[2:] = draw.choice([first[2:], first[2:], bytes([2, first[3]]), b"\1\0"])
    heights = (first[0], first[1], first[3])[: 1 + first[2]] if first[2] in (1, 2) else (0, 0)
    table = bytes(first) + table[4:]
    if max(heights) > kes.TALLEST or draw.random() < 0.3:
        return table
    size = kes.table_size(*heights)
    return table[:size] + draw.randbytes(max(0, size - len(table)))


def header_spoiled(draw, request):
    """A field of a table's or a cache's header at an edge value."""
    table = request[4][0]
    if request[0] in (FAIR_MOVE, FAIR_SIGN):
        request[4][0] = fair_calls.header_spoiled(draw, table)
    if request[0] not in (READ_KEY, MOVE, CATCH_UP, RELEASE, SIGN) or len(table) < kes.HEADER:
        return
    end = kes.steps(*(kes.heights_in(table) or (0, 0)))
    step = edge(draw, int.from_bytes(table[4:8], "little"), end) % 2**32
    request[4][0] = draw.choice([
        heights_spoiled(draw, table), heights_spoiled(draw, table),
        table[:2] + draw.choice([b"\0\0", b"\1\0", b"\2\0", b"\3\0", b"\1\1", b"\2\1", b"\xff\xff"]) + table[4:],
        table[:4] + step.to_bytes(4, "little") + table[8:],
        table[:8] + step.to_bytes(4, "little") + table[12:],
        table[:12] + step.to_bytes(4, "little") + table[16:],
    ])


def number_spoiled(draw, request):
    at = draw.choice([1, 2, 3, 5] if len(request) > 5 else [1, 2, 3])
    if request[0] >= PLAIN_FILL:
        request[at] = edge(draw, request[at], 2 ** min(request[1], plain.HIGHEST) if at == 3 else plain.HIGHEST + 1)
        return
    if request[0] >= FAIR_MAKE:
        n = (fair.read_header(request[4][0]) or (0,))[0] if request[0] == FAIR_MOVE else request[1]
        request[at] = edge(draw, request[at], n if at == 3 else fair.MOST + 1)
        return
    found = kes.read_header(request[4][0]) if request[0] in (MOVE, CATCH_UP, RELEASE) else None
    limit = kes.TALLEST3 if request[0] in (MAKE3, VERIFY3) else kes.TALLEST
    heights, now = found or ([min(h, limit) for h in request[1:3] + request[5:]], request[3])
    request[at] = edge(draw, now, kes.steps(*heights)) if at == 3 else edge(draw, request[at], limit + 1)


def buffer_spoiled(draw, request):
    at = draw.randrange(BUFFERS[request[0]])
    request[4][at] = spoiled(draw, request[4][at], lambda: CALLS[request[0]](draw)[4][at])[:MOST]


def spoil(draw, request):
    draw.choice([number_spoiled, buffer_spoiled, buffer_spoiled, header_spoiled])(draw, request)


def grown(request):
    """How many key pairs a call grows at most."""
    op, h1, h2, step, (first, *_), *third = request
    found, heights = kes.read_header(first), (h1, h2) if op == MAKE else (h1, h2, *third)
    if op == FAIR_MAKE and fair.fits(h1):
        return h1 + 1
    if op == PLAIN_FILL and h1 <= plain.HIGHEST:
        return 2**h1
    if op in (MAKE, MAKE3) and kes.fit(heights):
        return sum(2**h for h in heights)
    if op in (MOVE, CATCH_UP) and found and found[1] < step < kes.steps(*found[0]):
        return moved_grows(*found, step)
    return 0


def moved_grows(heights, now, step):
    """The half that the topmost tree that moves enters, and all trees below."""
    steps = list(zip(kes.steps_of(heights, now), kes.steps_of(heights, step)))
    top = next(n for n, (a, b) in enumerate(steps) if a != b)
    return 2 ** kes.highest_difference(*steps[top]) + sum(2**h for h in heights[top + 1 :])


def some_module(draw):
    """A tally, mostly near an edge, and the numbers that the module leaves unanswered: mostly none, else one of the next few among them."""
    tally = (draw.choice([0, 100, 2**32, 2**63, 2**64]) + draw.randrange(-40, 40)) % 2**64 if draw.random() < 0.8 else draw.randrange(2**64)
    every = 0 if draw.random() < 0.6 else draw.choice([1, 2, 3, 5, 8, 13, 100, 2**32, 2**64 - 1])
    return tally, every, (tally + draw.randrange(8)) % every if every else 0


def hostile(draw):
    """A request, drawn again where it would grow too much: few may grow much."""
    limit = DEAR if draw.random() < 0.01 else CHEAP
    while True:
        (call,) = draw.choices(CALLS, WEIGHTS)
        request = call(draw)
        for _ in range(draw.choice([0, 0, 1, 1, 1, 2, 3])):
            spoil(draw, request)
        if grown(request) <= limit:
            return [*request[:5], some_module(draw), *request[5:]]


def told(outcome):
    answer, calls, buffers = outcome
    return f"answer {answer & 0xFFFFFFFF} count {answer >> 32} Ed25519 calls and tally {calls} left " + " ".join(b.hex() or "-" for b in buffers)


class Comparison:
    """The library beside a model."""

    def __init__(self, library, scheme=kes.Scheme, cache=fair.Fair, engine=plain.Plain):
        self.library, self.model = library, Model(sodium, scheme, cache, engine)
        self.case, self.show = hostile, show

    def check(self, request):
        try:
            given = self.library.call(*request)
        except (Ended, BrokenPipeError) as ended:
            raise NoAnswer(f"{show(request)}\n{ended}")
        expected = self.model.call(*request)
        if given != expected:
            raise Different(f"{show(request)}\nlibrary {told(given)}\nmodel   {told(expected)}")
        return [f"{NAMES[request[0]]}, answer {given[0] & 0xFFFFFFFF}"]


if __name__ == "__main__":
    with tempfile.TemporaryDirectory() as folder:
        compared = functools.partial(Comparison, Library(folder))
        errors = [(error, {"scheme": error}) for error in PLANTED + HOSTILE + WINDOWS + TRIPLE + SILENCES]
        errors += [(error, {"cache": error}) for error in FAIR + FAIR_SILENCES]
        errors += [(error, {"engine": error}) for error in PLAIN + PLAIN_SILENCES]
        main(__file__, compared, {error.__doc__.rstrip("."): functools.partial(compared, **planted) for error, planted in errors})
