"""The fair that fair_crash.py crashes, by the independent models: the cache at each step, and what nobody may find by then."""
import ed25519
import kes
from fair import Fair, cache_size
from .known_key import H1, H2, SCHEME, TABLES
from receipt import Checker

MORNING = 2  # the desk's step
RANDOM = 32  # where power.c begins, so that no seed is the desk's
MASTER, *SEEDS = (bytes(range(at, at + 32)) for at in range(RANDOM, RANDOM + 4 * 32, 32))
FAIR = Fair(kes.Module(ed25519))


def caches(n):
    """The cache of n entries at each step, and the master key."""
    cache, key = bytearray(cache_size(n)), bytearray(32)
    FAIR.make(n, bytearray(MASTER), bytearray(b"".join(SEEDS[:n])), cache, key)
    found = [bytes(cache)]
    for step in range(1, n):
        FAIR.move(cache, step)
        found.append(bytes(cache))
    return found, bytes(key)


def verification_key():
    key = bytearray(32)
    assert SCHEME.read_key(TABLES[0], key) == kes.DONE
    return bytes(key)


CHECKER = Checker(SCHEME, FAIR, H1, H2, verification_key())


def signs_past(data, step):
    """Whether bytes hold the master seed, or anything that a cache at this step may not know, plain or in hex."""
    return any(secret in data or secret.hex().encode() in data for secret in [MASTER, *SEEDS[:step]])
