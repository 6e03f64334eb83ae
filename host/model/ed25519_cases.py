#!/usr/bin/env python3
"""Writes what the program ed25519_cases reads and must write under the gate, from the model of the stand-in.
With --check it writes nothing and says whether the two files are those."""
import standin
from filed import keep
from frames import ask_key, ask_sign, ask_verify, flipped, given, silence, verdict

SECRETS = [bytes(32), bytes([255]) * 32, bytes(range(32))]
TALLIES = [0, 1, 99, 100, 101, 2**32 - 1, 2**32, 2**32 + 99, 2**32 + 100, 2**32 + 101, 2**64 - 2**32 + 100, 2**64 - 1]
MESSAGES = [b"", b"\0", b"abc", bytes(range(256)), bytes(4095), bytes(i * 7 % 256 for i in range(4096))]


def good(secret, message):
    """A signature made and accepted."""
    key, signature = standin.public_key(secret), standin.sign(secret, message)
    yield ask_sign(secret, message), given(signature)
    yield ask_verify(key, message, signature), verdict(True)


def damaged(secret, message):
    """The first and last bit of key, message and signature, changed one at a time, and a message cut and lengthened."""
    key, signature = standin.public_key(secret), standin.sign(secret, message)
    tries = [(flipped(key, bit), message, signature) for bit in (0, 255)]
    tries += [(key, flipped(message, bit), signature) for bit in (0, 8 * len(message) - 1)]
    tries += [(key, message, flipped(signature, bit)) for bit in (0, 511)]
    tries += [(key, message[:-1], signature), (key, message + b"\0", signature)]
    for case in tries:
        yield ask_verify(*case), verdict(standin.verify(*case))


def tallied(tally):
    """Both calls made at a tally."""
    secret = SECRETS[2]
    for request, data in [(ask_key(secret, tally), standin.public_key(secret)), (ask_sign(secret, b"abc", tally), standin.sign(secret, b"abc"))]:
        yield request, given(data, tally) if standin.answered(tally) else silence(tally)


def cases():
    for secret in SECRETS + [flipped(SECRETS[2], bit) for bit in (0, 255)]:
        yield ask_key(secret), given(standin.public_key(secret))
    for secret in SECRETS:
        for message in MESSAGES:
            yield from good(secret, message)
    for message in MESSAGES[1:4]:
        yield from damaged(SECRETS[2], message)
    for tally in TALLIES:
        yield from tallied(tally)


def main():
    requests, answers = zip(*cases())
    made = {"stdin": b"".join(requests), "stdout": b"".join(answers)}
    keep("ed25519_cases", made, f"ed25519 cases: {len(requests)} requests and answers are those of the model")


main()
