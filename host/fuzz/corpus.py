"""What hostile calls start from: honest keys, tables and signatures of small heights, and signatures of any height over trees that
were chosen to fit, so that even a key or signature which no honest signer makes gets as far as Ed25519."""
import functools

import ed25519
import kes
import sodium
from mutate import SMALL_ORDER, above

MODULE = kes.Module(sodium)
SCHEME = kes.Scheme(MODULE)


@functools.lru_cache(maxsize=2**10)
def table(heights, seed, step):
    """The table of an honest key at a step, where both windows have released all."""
    made = bytearray(kes.table_size(*heights))
    SCHEME.make_with(heights, bytearray([seed]) * 32, made)
    SCHEME.free(made)
    SCHEME.move(made, step)
    return bytes(made)


def key(heights, seed):
    out = bytearray(32)
    SCHEME.read_key(table(heights, seed, 0), out)
    return bytes(out)


def signature(heights, seed, step, message):
    out = bytearray(kes.signature_size(*heights))
    SCHEME.sign(table(heights, seed, step), message[: kes.LONGEST], out)
    return bytes(out)


# Signers: each answers a leaf's vk and its 64 bytes for a message. Only the first and the last are ever accepted.


def honest(draw, message):
    secret = bytes([draw.randrange(4)]) * 32
    return MODULE.key_of(secret), sodium.sign(secret, message)


def unreduced(draw, message):
    vk, signed = honest(draw, message)
    return vk, signed[:32] + above(signed[32:])


def small_key(draw, message):
    return draw.choice(SMALL_ORDER), draw.choice(SMALL_ORDER) + bytes(32)


def small_first_half(draw, message):
    """R of small order, and the S that fits it."""
    secret, first = bytes([draw.randrange(4)]) * 32, draw.choice(SMALL_ORDER)
    vk = MODULE.key_of(secret)
    s = ed25519.hashed(first, vk, message) * ed25519.expanded(secret)[0] % ed25519.L
    return vk, first + s.to_bytes(32, "little")


def junk(draw, message):
    return draw.randbytes(32), draw.randbytes(64)


def mixed(draw, message):
    """A key with a part of small order, and a signature whose challenge makes that part vanish."""
    secret, part = bytes([draw.randrange(4)]) * 32, ed25519.decoded(draw.choice(SMALL_ORDER[:8]))
    scalar = ed25519.expanded(secret)[0]
    vk = ed25519.encoded(ed25519.add(ed25519.decoded(MODULE.key_of(secret)), part))
    for r in range(1, 200):
        first = ed25519.encoded(ed25519.times(r, ed25519.BASE))
        challenge = ed25519.hashed(first, vk, message) % ed25519.L
        if challenge % 8 == 0:
            break
    return vk, first + ((r + challenge * scalar) % ed25519.L).to_bytes(32, "little")


SIGNERS = [honest, honest, honest, honest, unreduced, small_key, small_first_half, junk, mixed]


def over(draw, h, t, message):
    """A sum signature by any signer under a path of random witnesses, and the root that this path leads to."""
    vk, signed = draw.choice(SIGNERS)(draw, message)
    witnesses = [draw.randbytes(32) for _ in range(h)]
    return vk + signed + b"".join(witnesses), SCHEME.climb(kes.H(vk), witnesses, t)


def chosen(draw, heights, step, message):
    """A signature of two trees or three whose paths fit, and its verification key: each tree from the last upwards signs the root below."""
    sums, roots = [], [message]
    for h, t in zip(heights[::-1], kes.steps_of(heights, step)[::-1]):
        signed, root = over(draw, h, t, roots[0])
        sums, roots = [signed, *sums], [root, *roots]
    return b"".join(sums + roots[1:-1]), roots[0]
