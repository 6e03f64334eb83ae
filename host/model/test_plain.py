#!/usr/bin/env python3
"""The model of the plain engine against the ticket's own words, with the stand-in. A line for each group, with the cases it ran."""
import types

import kes
import standin
from kes import H, left, right, sum_size
from orders import order
from plain import HIGHEST, Plain, table_size
from planted import PLAIN

SCHEME, MODEL = kes.Scheme(kes.Module(standin)), Plain(kes.Module(standin))
SEED = bytes(range(1, 33))
MESSAGE = b"a lesson"


def filled(h, model=MODEL):
    """The lent seed as it is left, and the table."""
    seed, table = bytearray(SEED), bytearray(table_size(h))
    assert model.fill(h, seed, table) == kes.DONE
    return seed, table


def read(call, size, *arguments):
    """What a call that reads a table writes out."""
    *before, out = [*arguments, bytearray(size)]
    assert call(*before, out) == kes.DONE
    return bytes(out)


def layout():
    """Height 2 byte for byte, and zeros in the seed's place; and the length of each table."""
    seed, table = filled(2)
    secrets = [half(side(SEED)) for side in (left, right) for half in (left, right)]
    vks = [standin.public_key(secret) for secret in secrets]
    leaves = [H(vk) for vk in vks]
    pairs = [H(leaves[0] + leaves[1]), H(leaves[2] + leaves[3])]
    nodes = [H(pairs[0] + pairs[1]), *pairs, *leaves]
    assert table == b"".join(nodes) + b"".join(secret + vk for secret, vk in zip(secrets, vks))
    assert seed == bytes(32)
    for h in range(HIGHEST + 1):
        assert len(filled(h)[1]) == 32 * (2 ** (h + 1) - 1) + 64 * 2**h == 128 * 2**h - 32
    return 2 + HIGHEST


def equal():
    """Root, witness path and signature equal those of the tree at that step, for every leaf."""
    cases = 0
    for h in range(HIGHEST + 1):
        table, step = filled(h)[1], 1 if h < 6 else 23
        for t in range(0, 2**h, step):
            tree = SCHEME.tree_at(SEED, h, t)
            assert read(MODEL.root, 32, h, table) == SCHEME.root(tree, h)
            assert read(MODEL.path, 32 * h, h, table, t) == b"".join(SCHEME.witnesses(tree, h, t))
            assert read(MODEL.sign, sum_size(h), h, table, t, MESSAGE) == SCHEME.sum_signature(tree, h, t, MESSAGE)
            cases += 3
    return cases


def outside_calls():
    """Filling asks 2^h times, signing once, reading never."""
    for h in (0, 3, HIGHEST):
        asked = []
        counted = types.SimpleNamespace(
            public_key=lambda secret: asked.append("key") or standin.public_key(secret),
            sign=lambda secret, message: asked.append("sign") or standin.sign(secret, message),
        )
        model = Plain(counted)
        table = filled(h, model)[1]
        read(model.root, 32, h, table), read(model.path, 32 * h, h, table, 0), read(model.sign, sum_size(h), h, table, 0, MESSAGE)
        assert (asked.count("key"), asked.count("sign")) == (2**h, 1)
    return 3


def refusals():
    """Every number, in every mix."""
    table = filled(2)[1]
    high = [{"h": h} for h in (HIGHEST + 1, 57, 2**32 + 2, 2**64 - 1)]
    late = [{"leaf": leaf} for leaf in (4, 2**32 + 1, 2**64 - 1)]
    long = [{"message": bytes(4097)}]

    def sizes(name, *wrong):
        return [{name: bytearray(size)} for size in wrong]

    tables = sizes("table", 0, 479, 481)
    fill = {"h": 2, "seed": bytearray(SEED), "table": bytearray(480)}
    cases = order(MODEL.fill, fill, {1: high, 2: sizes("seed", 0, 31, 33), 4: tables})
    cases += order(MODEL.root, {"h": 2, "table": table, "out": bytearray(32)}, {1: high, 4: tables + sizes("out", 0, 31, 33)})
    path = {"h": 2, "table": table, "leaf": 3, "out": bytearray(64)}
    cases += order(MODEL.path, path, {1: high, 4: tables + sizes("out", 0, 63, 65), 6: late})
    sign = {"h": 2, "table": table, "leaf": 3, "message": MESSAGE, "out": bytearray(160)}
    return cases + order(MODEL.sign, sign, {1: high, 4: tables + sizes("out", 0, 159, 161), 7: long, 6: late})


def lesson(model):
    """A seed, a table and all that is read from it, with two calls that are refused."""
    seed, table = filled(3, model)
    yield bytes(seed), bytes(table)
    for h, leaf in [*((3, leaf) for leaf in range(8)), (3, 9), (HIGHEST + 1, 0)]:
        out, signature = bytearray(96), bytearray(sum_size(3))
        yield model.path(h, table, leaf, out), bytes(out), model.sign(h, table, leaf, MESSAGE, signature), bytes(signature)


def errors():
    """Each error that looks right is noticed."""
    sound = list(lesson(MODEL))
    for planted in PLAIN:
        assert list(lesson(planted(kes.Module(standin)))) != sound, planted
    return len(PLAIN)


for group in [layout, equal, outside_calls, refusals, errors]:
    print("plain model: %s: %d cases" % (group.__name__, group()))
