#!/usr/bin/env python3
"""RFC 7693's self-test of BLAKE2b, Appendix E: 48 digests, keyed and not, of four sizes, hashed in turn. The library has no key and one size, so its
part are the six digests of 32 bytes without a key, and the digest of all 1,968 bytes; hashlib gives the others. Needs desk/build before."""
import hashlib
import sys
import tempfile

sys.dont_write_bytecode = True
from lib.library import HASH, Library

SIZES = [20, 32, 48, 64]
LENGTHS = [0, 3, 128, 129, 255, 1024]
# as the RFC prints its first and its last four bytes
FIRST, LAST = "c23a7800", "7bccd475"


def sequence(length):
    """The appendix's bytes of this length, a sequence in the manner of Fibonacci's that begins with the length."""
    a, b, made = 0xDEAD4BAD * length % 2**32, 1, bytearray()
    for _ in range(length):
        a, b = b, (a + b) % 2**32
        made.append(b >> 24)
    return bytes(made)


def by_hashlib(message, size=32, key=b""):
    return hashlib.blake2b(message, digest_size=size, key=key).digest()


def by_library(library, message):
    answer, _, (_, digest) = library.call(HASH, 0, 0, 0, [message, bytes(32)])
    if answer != 0 or digest != by_hashlib(message):
        sys.exit(f"appendix E: the library's digest of {len(message)} bytes is not hashlib's")
    return digest


with tempfile.TemporaryDirectory() as folder:
    library = Library(folder)
    digests = b""
    for size in SIZES:
        for length in LENGTHS:
            message = sequence(length)
            digests += by_library(library, message) if size == 32 else by_hashlib(message, size)
            digests += by_hashlib(message, size, sequence(size))
    found = by_library(library, digests).hex()

print(f"appendix E: {len(digests)} bytes of digests, whose digest is {found}")
if len(digests) != 1968 or not (found.startswith(FIRST) and found.endswith(LAST)):
    sys.exit(f"appendix E: the RFC's begins {FIRST} and ends {LAST}")
