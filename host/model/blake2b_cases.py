#!/usr/bin/env python3
"""Expected output of crates/blake2b_cases, by Python's hashlib and by coreutils' b2sum, which must agree.

blake2b_cases.py           writes it to standard output
blake2b_cases.py --check   compares it with crates/blake2b_cases/stdout
"""
import hashlib
import pathlib
import subprocess
import sys

LENGTHS = [0, 1, 3, 63, 64, 65, 127, 128, 129, 255, 256, 257, 1024, 4095, 4096, 4097]
LIMIT = 4096

def digest(message, size=32):
    by_hashlib = hashlib.blake2b(message, digest_size=size).hexdigest()
    asked = ["b2sum", "-l", str(8 * size)]
    by_b2sum = subprocess.run(asked, input=message, stdout=subprocess.PIPE, check=True).stdout.split()[0].decode()
    assert by_hashlib == by_b2sum, (len(message), size)
    return by_hashlib


def appendix():
    """RFC 7693's example, BLAKE2b-512 of "abc", as words. The RFC's text was not at hand: the value is that of the two programs."""
    whole = bytes.fromhex(digest(b"abc", 64))
    words = [int.from_bytes(whole[i : i + 8], "little") for i in range(0, 64, 8)]
    return "abc " + " ".join("%016x" % word for word in words)


def lines():
    yield appendix()
    for n in LENGTHS:
        message = bytes(i % 251 for i in range(n))
        answer = digest(message) if n <= LIMIT else "refused 7"
        yield "whole %d %s" % (n, answer)
        yield "cuts %d %s" % (n, answer)
    yield "short refused 7"
    yield "short refused 4"


def main():
    text = "".join(line + "\n" for line in lines())
    if "--check" not in sys.argv:
        sys.stdout.write(text)
        return
    stored = pathlib.Path(__file__).parents[2] / "crates/blake2b_cases/stdout"
    if stored.read_text() != text:
        sys.exit("crates/blake2b_cases/stdout is not what hashlib and b2sum give")
    print("blake2b_cases: stdout is what hashlib and b2sum give, %d lines" % len(text.splitlines()))


main()
