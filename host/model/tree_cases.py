#!/usr/bin/env python3
"""Writes what the program tree_cases must write, from the model with the stand-in.
With --check it writes nothing and says whether crates/tree_cases/stdout is that."""
import itertools

import standin
from filed import keep_lines
from kes import H, ZEROS, Module, Scheme, Silent

SEED = bytes(range(1, 33))
# from SILENT - k on the k-th call is not answered
SILENT = 2**32 + 100
MODULE = Module(standin, standin.answered, 1000)


def flipped(data, at):
    return data[:at] + bytes([data[at] ^ 1]) + data[at + 1 :]


def step(scheme, h, t):
    """The tree's digest, its root, the digest of a signature; then verdicts: as it is, another message, the next step,
    and each 32 bytes of the signature with their first changed."""
    tree = scheme.tree_at(SEED, h, t)
    root, signature = scheme.root(tree, h), scheme.sum_signature(tree, h, t, b"step")
    tries = [(t, b"step", signature), (t, b"stop", signature), ((t + 1) % 2**h, b"step", signature)]
    tries += [(t, b"step", flipped(signature, at)) for at in range(0, len(signature), 32)]
    verdicts = "".join("%d" % scheme.sum_verdict(root, h, *case) for case in tries)
    return "step %d %d %s %s %s %s" % (h, t, H(tree).hex(), root.hex(), H(signature).hex(), verdicts)


def moves(scheme, h):
    """The digests of all moved trees, each hashed onto those before it, and the sum of the counts."""
    chain, count = ZEROS, 0
    for a, b in itertools.combinations(range(2**h), 2):
        chain = H(chain + H(scheme.moved(scheme.tree_at(SEED, h, a), h, a, b)))
        count += scheme.count_move(a, b)
    return "moves %d %s %d" % (h, chain.hex(), count)


def tallest(scheme):
    tree = scheme.moved(scheme.tree_at(SEED, 12, 0), 12, 0, 2049)
    return "tallest 2049 %s %s %d" % (H(tree).hex(), scheme.root(tree, 12).hex(), scheme.count_move(0, 2049))


def tried(name, tally, work, before):
    """The tally, whether every call was answered, the tally left, and what work leaves in the place of before."""
    MODULE.tally = tally
    try:
        after, given = work(), 1
    except Silent:
        after, given = before, 0
    return "%s %d %d %d %s" % (name, tally, given, MODULE.tally, H(after).hex())


def unanswered(scheme):
    """Each failing place, at height 2: a tree grown at step 1 over the one at step 3, the tree at step 0 moved to step 3, a signature over another."""
    first, last = scheme.tree_at(SEED, 2, 0), scheme.tree_at(SEED, 2, 3)
    other = scheme.sum_signature(first, 2, 0, b"stop")
    for k in range(5):
        yield tried("grow", SILENT - k, lambda: scheme.tree_at(SEED, 2, 1), last)
    for k in range(3):
        yield tried("move", SILENT - k, lambda: scheme.moved(first, 2, 0, 3), first)
    for k in range(2):
        yield tried("sign", SILENT - k, lambda: scheme.sum_signature(first, 2, 0, b"step"), other)


def lines(scheme):
    for h in range(5):
        yield from (step(scheme, h, t) for t in range(2**h))
        yield moves(scheme, h)
    yield tallest(scheme)
    yield from unanswered(scheme)


if __name__ == "__main__":
    keep_lines("tree_cases", lines(Scheme(MODULE)))
