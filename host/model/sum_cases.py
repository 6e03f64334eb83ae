#!/usr/bin/env python3
"""Writes what the program sum_cases reads and must write under the gate, from the model with the stand-in.
With --check it writes nothing and says whether the two files are those."""
import standin
from filed import keep
from frames import ask_sum, flipped, verdict
from kes import H, Module, Scheme

MODEL = Scheme(Module(standin))
SECRET = bytes(range(32))
LONGEST = bytes(i * 7 % 256 for i in range(4096))


def signed(h, t, message):
    """A sum signature with witnesses of no tree, and the root to which they lead: a verifier sees no more of a tree."""
    vk, witnesses = standin.public_key(SECRET), [H(bytes([h, bit])) for bit in range(h)]
    signature = vk + standin.sign(SECRET, message) + b"".join(witnesses)
    return MODEL.climb(H(vk), witnesses, t), h, t, message, signature


def damaged(root, h, t, message, signature):
    """One bit of the root, of the message, each bit of the step, and one bit of each 32 bytes of the signature, changed one at a time."""
    yield flipped(root, 255), h, t, message, signature
    yield root, h, t, flipped(message, 0), signature
    for bit in range(h):
        yield root, h, t ^ 1 << bit, message, signature
    for at in range(0, len(signature), 32):
        yield root, h, t, message, flipped(signature, 8 * at)


def judged():
    for h in range(13):
        for t in sorted({0, 2**h // 3, 2**h * 2 // 3, 2**h - 1}):
            yield signed(h, t, b"message")
    for message in (b"", LONGEST):
        yield signed(12, 2730, message)
    for h, t in ((0, 0), (1, 1), (3, 5), (12, 2730)):
        yield from damaged(*signed(h, t, b"message"))


def unjudged():
    """A step at 2^h ends the program: neither it nor the good request after it gets a verdict."""
    return [signed(3, 8, b"message"), signed(3, 0, b"message")]


def main():
    cases = list(judged())
    requests = b"".join(ask_sum(*case) for case in cases + unjudged())
    verdicts = b"".join(verdict(MODEL.sum_verdict(*case)) for case in cases)
    made = {"stdin": requests, "stdout": verdicts}
    keep("sum_cases", made, f"sum cases: {len(cases)} verdicts are those of the model, {verdicts.count(1)} accepted and {verdicts.count(0)} not")


main()
