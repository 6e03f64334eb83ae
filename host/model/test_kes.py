#!/usr/bin/env python3
"""The model against document 01's own sums and promises, and those of request 11, with the stand-in. A line for each group, with the cases it ran."""
import itertools

import kes
import standin
from kes import Module, Scheme, signature_size, steps, table_size, tree_size
from orders import order, refused
from planted import PLANTED, TRIPLE

MODEL = Scheme(Module(standin))
HEIGHTS = [(0, 0), (1, 0), (0, 1), (2, 2), (3, 2), (0, 0, 0), (0, 1, 0), (1, 1, 1), (1, 2, 1), (2, 1, 2)]
SEED = bytes(range(1, 33))
MESSAGE = b"1111222233334444" b"1" b"2500"


def made(heights, scheme=MODEL):
    table = bytearray(table_size(*heights))
    assert scheme.make_with(heights, bytearray(SEED), table)[0] == kes.DONE
    scheme.free(table)
    return table


def moved(table, step, scheme=MODEL):
    """The table after a move, and the count."""
    later = bytearray(table)
    number, count = scheme.move(later, step)
    assert number == kes.DONE
    return later, count


def at(heights, step, scheme=MODEL):
    """The table of a step, moved straight."""
    table = made(heights, scheme)
    return moved(table, step, scheme)[0] if step > 0 else table


def key_of(table, scheme=MODEL):
    key = bytearray(32)
    assert scheme.read_key(table, key) == kes.DONE
    return key


def signed(table, message=MESSAGE, scheme=MODEL):
    signature = bytearray(signature_size(*scheme.found(table)[0]))
    assert scheme.sign(table, message, signature) == kes.DONE
    return signature


def junk(size):
    return bytes(i * 37 % 256 for i in range(size))


def sums():
    """A1 to A14, the tables 8 bytes longer by request 8."""
    assert [table_size(h, h) for h in (0, 2, 12)] == [272, 720, 2960]
    assert [signature_size(h, h) for h in (0, 2, 12)] == [224, 352, 992]
    assert MODEL.make(0, 0, bytearray(SEED), bytearray(272)) == (kes.DONE, 2)
    assert MODEL.make(2, 2, bytearray(SEED), bytearray(720)) == (kes.DONE, 8)
    assert [moved(at((2, 2), a), b)[1] for a, b in [(0, 1), (0, 3), (3, 4), (4, 6), (0, 15)]] == [1, 3, 5, 2, 10]
    assert moved(made((1, 0)), 1)[1] == 2
    return 14


def triple_sums():
    """Request 11's: sizes by its own sums, the counts, and how often a move asks."""
    for h1, h2, h3 in itertools.product(range(9), repeat=3):
        assert table_size(h1, h2, h3) == 464 + 128 * h1 + 128 * h2 + 96 * h3
        assert signature_size(h1, h2, h3) == 352 + 32 * (h1 + h2 + h3)
    assert [table_size(h, h, h) for h in (0, 8)] == [464, 3280] and [signature_size(h, h, h) for h in (0, 8)] == [352, 1120]
    assert MODEL.make3(0, 0, 0, bytearray(SEED), bytearray(464)) == (kes.DONE, 3)
    grown = []
    for a, b in [(3, 4), (1, 2), (0, 7)]:
        table, before = at((1, 1, 1), a), MODEL.module.tally
        grown.append((moved(table, b)[1], MODEL.module.tally - before))
    # the new trees are grown at their steps in one pass, so a jump asks no more than the first move across
    assert grown == [(5, 7), (3, 4), (7, 7)]
    return 9**3 + 8


def leaf_seed(seed, h, t):
    """Rules 1 and 2, from the root down."""
    for bit in reversed(range(h)):
        seed = kes.right(seed) if t >> bit & 1 else kes.left(seed)
    return seed


def child_seed(seed, n):
    """Rule 7: the seed of the n-th tree or part below one that grows from this seed."""
    seed = kes.right(seed)
    for _ in range(n):
        seed = kes.right(seed)
    return kes.left(seed)


def naive_root(seed, h):
    """Rule 3, with all leaves in a list."""
    level = [kes.H(standin.public_key(leaf_seed(seed, h, t))) for t in range(2**h)]
    while len(level) > 1:
        level = [kes.H(a + b) for a, b in zip(level[::2], level[1::2])]
    return level[0]


def naive_sum(seed, h, t, message):
    """Rule 6, each witness as the root of the subtree beside the path."""
    secret = leaf_seed(seed, h, t)
    beside = [naive_root(leaf_seed(seed, h - k, t >> k ^ 1), k) for k in range(h)]
    return standin.public_key(secret) + standin.sign(secret, message) + b"".join(beside)


def naive():
    """Request 11 afresh: i, j and k from its formula, the three seeds from rule 7 at each seam, and each signature, key and present secret from them alone."""
    cases = 0
    for h1, h2, h3 in [heights for heights in HEIGHTS if len(heights) == 3]:
        tj, tk = 2**h2, 2**h3
        for i, j, k in itertools.product(range(2**h1), range(tj), range(tk)):
            middle = child_seed(SEED, i)
            left_tree, middle_tree, right_tree = kes.left(SEED), kes.left(middle), child_seed(middle, j)
            roots = [naive_root(middle_tree, h2), naive_root(right_tree, h3)]
            sums = [naive_sum(left_tree, h1, i, roots[0]), naive_sum(middle_tree, h2, j, roots[1]), naive_sum(right_tree, h3, k, MESSAGE)]
            table = at((h1, h2, h3), i * tj * tk + j * tk + k)
            assert signed(table) == b"".join(sums + roots) and key_of(table) == naive_root(left_tree, h1)
            assert table[-64:-32] == leaf_seed(right_tree, h3, k)
            below = kes.seam(kes.seam(bytes(table[kes.HEADER :]), (h1, h2, h3))[3], (h2, h3))
            assert kes.left(below[2]) == child_seed(middle, j + 1)
            cases += 1
    return cases


def trees():
    """A tree at a, moved to b, is the tree at b; every step has the root of the seed."""
    cases = 0
    for h in range(6):
        straight = [MODEL.tree_at(SEED, h, t) for t in range(2**h)]
        assert {MODEL.root(tree, h) for tree in straight} == {MODEL.subtree_hash(SEED, h)}
        for a, b in itertools.combinations(range(2**h), 2):
            assert MODEL.moved(straight[a], h, a, b) == straight[b]
            assert MODEL.count_move(a, b) <= 2**h - 1
            cases += 1
    return cases


def any_bytes():
    """Whatever a tree's bytes: levels above the parting one stay, it keeps its hashes, and its seed grows the rest and becomes zeros."""
    h, cases = 5, 0
    found = junk(tree_size(h))
    for a, b in itertools.combinations(range(2**h), 2):
        after = MODEL.moved(found, h, a, b)
        below = max(k for k in range(h) if a >> k != b >> k)
        parting = 96 * (h - 1 - below)
        above, seed, hashes = kes.cut(found, parting, 32, 64)
        assert after == above + kes.ZEROS + hashes + MODEL.tree_at(seed, below, b % 2**below)
        cases += 1
    return cases


def moves():
    """Moved about is moved straight, with one verification key, and the counts are within their bounds."""
    cases = 0
    for heights in HEIGHTS:
        straight = [at(heights, t) for t in range(steps(*heights))]
        assert {bytes(key_of(table)) for table in straight} == {bytes(key_of(made(heights)))}
        for a, b in itertools.combinations(range(steps(*heights)), 2):
            table, count = moved(straight[a], b)
            assert table == straight[b]
            assert count <= most_grown(heights, a, b)
            cases += 1
    last = steps(2, 1, 2) - 1
    assert moved(made((2, 1, 2)), last)[1] == most_grown((2, 1, 2), 0, last) == 2**2 + 2**2 + 2**3 - 3
    return cases


def most_grown(heights, a, b):
    """The bounds: 2^h - 1 in one tree, and with each new tree below it 2^(h+1) - 1: 2^h1 + 2^(h2+1) + 2^(h3+1) - 3 where the left of three moves."""
    moves = next(n for n, (t, u) in enumerate(zip(kes.steps_of(heights, a), kes.steps_of(heights, b))) if t != u)
    return 2 ** heights[moves] - 1 + sum(2 ** (h + 1) - 1 for h in heights[moves + 1 :])


def damaged_tables(heights, straight):
    """The tables of all steps, one whose body is anything at each step, and one that is not well formed."""
    yield from straight
    for step in range(steps(*heights)):
        yield bytearray(kes.header(heights, step) + junk(table_size(*heights) - kes.HEADER))
    yield straight[0][:-1]


def caught(table, *asked):
    """The table after these catch-ups, and the last answer."""
    later = bytearray(table)
    for step in asked:
        answer = MODEL.catch_up(later, step)
    return later, answer


def catches_up():
    """Request 1: it moves where the move is done, and else stays; any two give one table in either order; asking twice is asking once."""
    cases = 0
    for heights in HEIGHTS[:4] + [(1, 0, 1)]:
        end = steps(*heights)
        for table in damaged_tables(heights, [at(heights, t) for t in range(end)]):
            asked = [*range(end + 1), 2**40]
            for a in asked:
                once, (number, count) = caught(table, a)
                move = MODEL.move(bytearray(table), a)[0]
                assert number == (kes.DONE if move == kes.NOT_LATER else move)
                assert (count == 0) == (once == table)
                assert caught(once, a) == (once, (number, 0))
            for a, b in itertools.combinations(asked, 2):
                assert caught(table, a, b)[0] == caught(table, b, a)[0]
                cases += 1
    return cases


def windows():
    """Request 8: a window's number goes up to T and never down, both have to allow a move, and the two may release in either order, on
    good and damaged tables; a signature does not hang on them."""
    cases = 0
    for heights, body in [((1, 1), made((1, 1))), ((1, 1), junk(table_size(1, 1))), ((0, 0, 1), made((0, 0, 1)))]:
        end = steps(*heights)
        for step, first, second in itertools.product(range(end), range(end + 1), range(end + 1)):
            table = bytearray(kes.header(heights, step, first, second) + body[kes.HEADER :])
            signature = signed(table)
            for a, b in itertools.product(range(end + 2), repeat=2):
                orders = []
                for order_of in ([(0, a), (1, b)], [(1, b), (0, a)]):
                    after = bytearray(table)
                    orders.append(({window: MODEL.release(after, window, n) for window, n in order_of}, after))
                assert orders[0] == orders[1]
                answers, after = orders[0]
                assert answers == {w: kes.DONE if stood <= n <= end else kes.LOWERED for w, stood, n in ((0, first, a), (1, second, b))}
                assert kes.numbers_in(after) == [n if answers[w] == kes.DONE else stood for w, stood, n in ((0, first, a), (1, second, b))]
                assert after[:8] + after[16:] == table[:8] + table[16:] and signed(after) == signature
                cases += 1
            for to in range(step + 1, end):
                number = MODEL.move(bytearray(table), to)[0]
                assert number == (kes.DONE if to <= min(first, second) else kes.NOT_RELEASED)
    fresh = bytearray(table_size(2, 2))
    MODEL.make(2, 2, bytearray(SEED), fresh)
    assert kes.numbers_in(fresh) == [0, 0] and MODEL.move(bytearray(fresh), 1) == (kes.NOT_RELEASED, 0)
    assert MODEL.release(fresh, 2, 0) == MODEL.release(fresh, 2**32, 17) == kes.WINDOW
    for bad in (bytes([2, 2, 0, 0]) + fresh[4:], kes.header((2, 2), 0, 17, 0) + fresh[16:], kes.header((2, 2), 0, 0, 17) + fresh[16:]):
        assert MODEL.release(bytearray(bad), 2, 0) == kes.TABLE
    return cases


def signatures():
    """A signature is accepted at its step alone."""
    cases = 0
    for heights in HEIGHTS:
        key = key_of(made(heights))
        for t in range(steps(*heights)):
            signature = signed(at(heights, t))
            for u in range(steps(*heights)):
                assert MODEL.judge(heights, key, u, MESSAGE, signature) == (kes.DONE if t == u else kes.NOT_ACCEPTED)
                cases += 1
    return cases


def damaged():
    """A bit changed in any byte of key, message or signature is noticed."""
    cases = 0
    for heights in [(2, 2), (1, 2, 1)]:
        good = [key_of(made(heights)), bytearray(MESSAGE), signed(at(heights, 9))]
        for data in good:
            for i in range(len(data)):
                data[i] ^= 1
                assert MODEL.judge(heights, good[0], 9, good[1], good[2]) == kes.NOT_ACCEPTED
                data[i] ^= 1
                cases += 1
    return cases


def seeds_of(seed, h, first, leaf_steps):
    """Every seed of a tree, each with the steps that grow from it."""
    yield seed, range(first, first + leaf_steps * 2**h)
    if h > 0:
        yield from seeds_of(kes.left(seed), h - 1, first, leaf_steps)
        yield from seeds_of(kes.right(seed), h - 1, first + leaf_steps * 2 ** (h - 1), leaf_steps)


def key_seeds(heights, seed=SEED, first=0):
    """Every seed of a key, or of a part of it that begins at this step, each with the steps that grow from it."""
    if len(heights) == 1:
        yield from seeds_of(seed, heights[0], first, 1)
        return
    end, leaf_steps = first + steps(*heights), steps(*heights[1:])
    yield seed, range(first, end)
    yield from seeds_of(kes.left(seed), heights[0], first, leaf_steps)
    stored = kes.right(seed)
    for begins in range(first, end, leaf_steps):
        yield stored, range(begins, end)
        yield from key_seeds(heights[1:], kes.left(stored), begins)
        stored = kes.right(stored)


def knows():
    """Of the seeds that a past or the present step grows from, a table holds one: the present secret of the last tree's leaf."""
    cases = 0
    for heights in HEIGHTS:
        for t in range(steps(*heights)):
            table = at(heights, t)
            held = [grows for seed, grows in key_seeds(heights) if seed in table]
            assert [grows for grows in held if min(grows) <= t] == [range(t, t + 1)]
            cases += 1
    return cases


def too_tall(heights):
    """The same with one height above the limit, in each place."""
    limit = kes.LIMITS[len(heights)]
    return [tuple(limit + 1 if n == place else h for n, h in enumerate(heights)) for place in range(len(heights))]


def bad_tables(heights):
    """Each way in which a table of 16 steps is not one; of one that is too tall the length is right."""
    good = made(heights)
    cuts = [good[:size] for size in range(16)] + [good[:-1], good + b"\0"]
    tall = [kes.header(other, 0, 0, 0) + bytes(kes.part_size(*other)) for other in too_tall(heights)]
    values = [(0, 255), (0, 3), (1, 255), (1, 1), (2, 0), (2, 3), (2, 255), (2, 3 - good[2]), (3, 255), (3, 3), (4, 16), (5, 1), (6, 1), (7, 128)]
    values += [(8, 17), (11, 1), (12, 17), (15, 1)]
    return cuts + tall + [good[:i] + bytes([value]) + good[i + 1 :] for i, value in values]


def read_otherwise():
    """Byte 2 says how many trees there are: tables of heights 1, 0, 0 and of 1, 2 have one length, and either is read from the same bytes."""
    body = junk(table_size(1, 2) - kes.HEADER)
    assert table_size(1, 0, 0) == table_size(1, 2)
    for heights in ((1, 2), (1, 0, 0)):
        table = bytearray(kes.header(heights, 0) + body)
        assert MODEL.found(table) == (heights, 0) and MODEL.move(table, 1)[0] == kes.DONE
        assert len(signed(table)) == signature_size(*heights)
    return 2


def refusals_of(heights):
    """Every number, in every mix, of a key of 16 steps."""
    table, key, signature = at(heights, 9), key_of(made(heights)), signed(at(heights, 9))
    size, signed_size = len(table), len(signature)
    tall = [{"heights": other} for other in (*too_tall(heights), (2**64 - 1,) * len(heights))]
    tables = [{"table": bad} for bad in bad_tables(heights)]
    late = [{"step": 16}, {"step": 2**32 + 10}, {"step": 2**64 - 1}]
    long = [{"message": bytes(4097)}]

    def sizes(name, *wrong):
        return [{name: bytearray(size)} for size in wrong]

    make = {"heights": heights, "seed": bytearray(SEED), "table": bytearray(size)}
    cases = order(MODEL.make_with, make, {1: tall, 2: sizes("seed", 0, 31, 33), 4: sizes("table", 0, size - 8, size - 1, size + 1)})
    cases += order(MODEL.read_key, {"table": table, "key": bytearray(32)}, {3: tables, 4: sizes("key", 0, 31, 33)})
    cases += order(MODEL.move, {"table": table, "step": 10}, {3: tables, 6: late, 5: [{"step": step} for step in (0, 8, 9)]})
    held = bytes(table[:8]) + b"\x09\0\0\0" + bytes(table[12:])
    waits = {3: tables, 6: late, 12: [{"table": bytearray(held)}]}
    cases += order(MODEL.move, {"table": table, "step": 10}, waits) + order(MODEL.catch_up, {"table": table, "step": 10}, waits)
    release = {"table": bytearray(held), "window": 0, "step": 16}
    cases += order(MODEL.release, release, {3: tables, 10: [{"window": 2}, {"window": 2**64 - 1}], 11: [{"step": step} for step in (8, 17, 2**32 + 9)]})
    sign = {"table": table, "message": MESSAGE, "out": bytearray(signed_size)}
    cases += order(MODEL.sign, sign, {3: tables, 7: long, 4: sizes("out", 0, signed_size - 1, signed_size + 1)})
    verify = {"heights": heights, "key": key, "step": 9, "message": MESSAGE, "signature": signature}
    wrong = {1: tall, 2: sizes("key", 0, 31, 33), 4: sizes("signature", 0, signed_size - 1, signed_size + 1), 7: long, 6: late}
    return cases + order(MODEL.judge, verify, wrong)


def refusals():
    long, wrong = [{"message": bytes(4097)}], [{"out": bytearray(size)} for size in (0, 31, 33)]
    hashed = order(kes.hash_call, {"message": MESSAGE, "out": bytearray(32)}, {7: long, 4: wrong})
    return hashed + refusals_of((2, 2)) + refusals_of((1, 2, 1))


def edges():
    """The edges that 01 wants run, and those of request 11."""
    seed, table = bytearray(SEED), bytearray(table_size(12, 12))
    assert MODEL.make(12, 12, seed, table) == (kes.DONE, 2 * 4096) and seed == kes.ZEROS
    MODEL.free(table)
    assert MODEL.move(table, 2**24 - 1) == (kes.DONE, 2**12 + 2**13 - 2)
    assert refused(MODEL.make, 13, 12, bytearray(SEED), bytearray(table_size(13, 12))) == kes.HEIGHT
    table = at((2, 2), 15)
    assert refused(MODEL.move, table, 16) == kes.PAST_END
    assert refused(MODEL.move, table, 15) == kes.NOT_LATER
    for size in (0, 4096):
        assert MODEL.verify(2, 2, key_of(table), 15, bytes(size), signed(table, bytes(size))) == kes.DONE
    assert refused(MODEL.sign, table, bytes(4097), bytearray(352)) == kes.TOO_LONG
    seed, table = bytearray(SEED), bytearray(3280)
    assert MODEL.make3(8, 8, 8, seed, table) == (kes.DONE, 3 * 256) and seed == kes.ZEROS
    for tall in (9, 8, 8), (8, 9, 8), (8, 8, 9):
        assert refused(MODEL.make3, *tall, bytearray(SEED), bytearray(table_size(*tall))) == kes.HEIGHT
        assert refused(MODEL.verify3, *tall, bytes(32), 0, b"", bytes(signature_size(*tall))) == kes.HEIGHT
    MODEL.free(table)
    assert MODEL.move(table, 2**24 - 1) == (kes.DONE, 2**8 + 2**9 + 2**9 - 3)
    assert refused(MODEL.move, table, 2**24) == kes.PAST_END
    assert MODEL.verify3(8, 8, 8, key_of(table), 2**24 - 1, MESSAGE, signed(table)) == kes.DONE
    assert refused(MODEL.verify3, 8, 8, 8, key_of(table), 2**24, MESSAGE, bytes(1120)) == kes.PAST_END
    return 18


DAY = (0, 3, 6, 14)


def day(scheme, heights):
    """Table, count, signature and verdicts at a few of 16 steps, with a jump over a step of each tree, and past T."""
    table, count = made(heights, scheme), 0
    for step in DAY:
        table, count = moved(table, step, scheme) if step > 0 else (table, 0)
        key, signature = key_of(table, scheme), signed(table, MESSAGE, scheme)
        yield table, count, signature, [scheme.judge(heights, key, u, MESSAGE, signature) for u in range(2 * steps(*heights))]


def misjudged(scheme):
    """Verdicts on a key of three trees that is too tall, and on a signature whose middle leaf has signed another root."""
    table, other = at((1, 2, 1), 14), at((1, 2, 1), 12)
    signature = MODEL.laid(*(MODEL.signed(bytes(table[kes.HEADER :]), (1, 2, 1), 14, MESSAGE)))
    middle = slice(kes.sum_size(1) + 32, kes.sum_size(1) + 96)
    wrong = signature[: middle.start] + bytes(signed(other)[middle]) + signature[middle.stop :]
    return [scheme.judge((1, 2, 1), key_of(table), 14, MESSAGE, text) for text in (signature, wrong)] + [scheme.judge((9, 0, 0), bytes(32), 0, b"", bytes(640))]


def errors():
    """Each error that looks right accepts its own signatures, and yet is noticed; of those of request 11 some only by a verdict."""
    sound = {heights: list(day(MODEL, heights)) for heights in ((2, 2), (1, 2, 1))}
    judged = misjudged(MODEL)
    assert judged == [kes.DONE, kes.NOT_ACCEPTED, kes.HEIGHT]
    for planted, heights in [(error, (2, 2)) for error in PLANTED] + [(error, (1, 2, 1)) for error in PLANTED + TRIPLE]:
        scheme = planted(Module(standin))
        seen = list(day(scheme, heights))
        assert all(verdicts[step] == kes.DONE for step, (*_, verdicts) in zip(DAY, seen))
        assert seen != sound[heights] or misjudged(scheme) != judged, planted
    return 2 * len(PLANTED) + len(TRIPLE)


for group in [sums, triple_sums, naive, trees, any_bytes, moves, catches_up, windows, signatures, damaged, knows, refusals, read_otherwise, edges, errors]:
    print("model: %s: %d cases" % (group.__name__, group()))
