#!/usr/bin/env python3
"""A tree of height h that is stepped singly to its last step grows h * 2^(h-1) key pairs after making: those that libsodium made are
counted, and those that the moves answer. The tree is the child of a key of heights 0 and h. Needs desk/build before."""
import sys
import tempfile

sys.dont_write_bytecode = True
from lib.library import MAKE, MOVE, RELEASE, Library
from lib.modelled import kes

HEIGHTS = range(7)


def stepped(library, h):
    """The key pairs made by the moves of a new key, and what the moves answer in all."""
    _, _, (_, table) = library.call(MAKE, 0, h, 0, [bytes(range(32)), bytes(kes.table_size(0, h))])
    for window in (0, 1):
        _, _, (table,) = library.call(RELEASE, window, 0, kes.steps(0, h), [table])
    made = told = 0
    for step in range(1, kes.steps(0, h)):
        answer, (public_keys, _, _, _), (table,) = library.call(MOVE, 0, 0, step, [table])
        number, count = answer & 0xFFFFFFFF, answer >> 32
        if number != 0:
            sys.exit(f"singly: height {h}: the move to step {step} was refused with {number}")
        made, told = made + public_keys, told + count
    return made, told


with tempfile.TemporaryDirectory() as folder:
    library = Library(folder)
    for h in HEIGHTS:
        expected = h * 2**h // 2
        made, told = stepped(library, h)
        print(f"height {h}: {made} key pairs made, {told} told, {expected} expected")
        if not made == told == expected:
            sys.exit(1)
