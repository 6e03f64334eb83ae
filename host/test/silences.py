#!/usr/bin/env python3
"""A module that drops out, at every place at which a call can fail: each make, move and catch-up at heights 2 and 2 and at 1, 1 and 1, signing, a fair's make of three
entries and its signing, a plain tree of height 3 and its signing, from tallies near 0, 2^32 and 2^64. Each time the call is made again with the tally left. Every answer, every
buffer and the tally are the independent model's. And nothing but the stand-in and the desk's module stores to a tally. Needs desk/build before."""
import itertools
import pathlib
import re
import sys
import tempfile

sys.dont_write_bytecode = True
from lib.library import CATCH_UP, FAIR_MAKE, FAIR_SIGN, MOVE, PLAIN_FILL, PLAIN_SIGN, RELEASE, SIGN, Library, making
from lib.modelled import NAMES, Model, fair, kes, plain, show, sodium

ROOT = pathlib.Path(__file__).resolve().parents[2]
STARTS = [0, 2**32 - 4, 2**32 + 96, 2**64 - 4]
# of so many numbers one is silent, so that no call passes two; it divides 2^64, after which the numbers begin anew
EVERY = 2**32


def key_askings(model, heights, seed, nines):
    """Those of a key."""
    size, end = kes.table_size(*heights), kes.steps(*heights)
    _, _, (_, fresh) = model.call(*making(heights, [seed, bytes(size)]))
    for window in (0, 1):
        _, _, (fresh,) = model.call(RELEASE, window, 0, end, [fresh])
    tables = [fresh] + [model.call(MOVE, 0, 0, step, [fresh])[2][0] for step in range(1, end)]
    yield making(heights, [seed, nines * size])
    for a, b in itertools.combinations(range(end), 2):
        yield MOVE, 0, 0, b, [tables[a]]
        yield CATCH_UP, 0, 0, b, [tables[a]]
    yield SIGN, 0, 0, 0, [tables[end // 2 + 1], b"a top-up", nines * kes.signature_size(*heights)]


def askings(model):
    """Each call, over what it is lent. What it may write to is no zeros, so that clearing shows."""
    master, seeds, nines = bytes(range(32)), bytes(range(96)), b"\x09"
    for heights in ((2, 2), (1, 1, 1)):
        yield from key_askings(model, heights, master, nines)
    cache = model.call(FAIR_MAKE, 3, 0, 0, [master, seeds, bytes(fair.cache_size(3)), bytes(32)])[2][2]
    yield FAIR_MAKE, 3, 0, 0, [master, seeds, nines * fair.cache_size(3), nines * 32]
    yield FAIR_SIGN, 0, 0, 0, [cache, b"a sale", nines * fair.SIGNATURE]
    tree = model.call(PLAIN_FILL, 3, 0, 0, [master, bytes(plain.table_size(3))])[2][1]
    yield PLAIN_FILL, 3, 0, 0, [master, nines * plain.table_size(3)]
    yield PLAIN_SIGN, 3, 0, 5, [tree, b"a lesson", nines * kes.sum_size(3)]


def same(library, model, request):
    """What both answer and leave."""
    given, expected = library.call(*request), model.call(*request)
    if given != expected:
        sys.exit(f"silences: the library and the model differ at\n{show(request)}\nlibrary {given}\nmodel {expected}")
    return given


def at(asking, module):
    """A call over such a module."""
    return *asking[:5], module, *asking[6:]


def fail_and_retry(library, model, asking, start, k):
    """The k-th asking from start on is silent: 9, and then the same call, with the tally left, is done."""
    module = EVERY, (start + k) % EVERY
    answer, (*_, tally), left = same(library, model, at(asking, (start, *module)))
    if (answer, tally, left) != (kes.UNANSWERED, (start + k + 1) % 2**64, asking[4]):
        sys.exit(f"silences: {NAMES[asking[0]]}: a silence gives {answer} or leaves another thing than the tally")
    return same(library, model, at(asking, (tally, *module)))


def silent_places(library, model, asking):
    """Every failing place of a call; answers how many there were."""
    places = 0
    for start in STARTS:
        done = same(library, model, at(asking, (start, 0, 0)))
        for k in range((done[1][3] - start) % 2**64):
            again = fail_and_retry(library, model, asking, start, k)
            if (again[0], again[2]) != (done[0], done[2]):
                sys.exit(f"silences: {NAMES[asking[0]]}: after a silence the same call does something else")
            places += 1
    return places


def stores():
    """The files that store to a tally."""
    sources = [*ROOT.glob("crates/*/src/**/*.rt"), *ROOT.glob("desk/module/*.rt.extern")]
    return {str(path.relative_to(ROOT)) for path in sources if re.search(r"\*tally\s*[-+*/%&|^<>]*=[^=]", path.read_text())}


def main():
    expected = {"crates/standin/src/lib.rt", "desk/module/lib.rt.extern"}
    if stores() != expected:
        sys.exit(f"silences: a tally is stored to in {sorted(stores())}, not in {sorted(expected)}")
    places = {}
    with tempfile.TemporaryDirectory() as folder:
        library, model = Library(folder), Model(sodium)
        for asking in askings(model):
            name = NAMES[asking[0]]
            places[name] = places.get(name, 0) + silent_places(library, model, asking)
    for name, count in places.items():
        print(f"silences: {name}: {count} places at which it fails, and is done when tried again")
    print("silences: nothing but the stand-in and the desk's module stores to a tally")


main()
