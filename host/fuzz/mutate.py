"""Ways to spoil bytes and numbers, drawn from a random.Random. Each takes the bytes, and a function that draws others of their kind."""
import ed25519


def small_order():
    """The eight points of small order, and y of 0, 1, P - 1, P and P + 1 with both signs: encodings that are not all reduced, or no points."""
    eighth = next(point for point in (ed25519.decoded(bytes([y]) + bytes(31)) for y in range(2, 99)) if point is not None)
    eighth = ed25519.times(ed25519.L, eighth)
    points = [ed25519.encoded(ed25519.times(n, eighth)) for n in range(8)]
    ys = [y | sign << 255 for y in (0, 1, ed25519.P - 1, ed25519.P, ed25519.P + 1) for sign in (0, 1)]
    return points + [y.to_bytes(32, "little") for y in ys]


SMALL_ORDER = small_order()
FIELDS = SMALL_ORDER + [n.to_bytes(32, "little") for n in (ed25519.L - 1, ed25519.L, ed25519.L + 1, 2**255 - 1, 2**256 - 1)]


def above(field):
    """The same number modulo the group's order, written otherwise: S + L."""
    return ((ed25519.number(field) + ed25519.L) % 2**256).to_bytes(32, "little")


def flipped(draw, data, other):
    bit = draw.randrange(8 * len(data))
    return data[: bit // 8] + bytes([data[bit // 8] ^ 1 << bit % 8]) + data[bit // 8 + 1 :]


def byte_set(draw, data, other):
    at = draw.randrange(len(data))
    return data[:at] + bytes([draw.choice([0, 1, 12, 13, 127, 128, 255, draw.randrange(256)])]) + data[at + 1 :]


def truncated(draw, data, other):
    return draw.choice([data[:-1], data[1:], data[: draw.randrange(len(data))], data[:8], data[:7], b""])


def extended(draw, data, other):
    return data + draw.choice([b"\0", b"\xff", other(), draw.randbytes(draw.randrange(1, 100))])


def spliced(draw, data, other):
    """The beginning of one and the end of the other, the length kept or not."""
    at, rest = draw.randrange(len(data) + 1), other()
    return data[:at] + (rest[at:] if draw.random() < 0.7 else rest[draw.randrange(len(rest) + 1) :])


def field_set(draw, data, other):
    """A field of 32 bytes, at its place in a signature or behind a table's header, replaced."""
    places = range(draw.choice([0, 8]), len(data) - 31, 32)
    if not places:
        return data
    at = draw.choice(places)
    field = data[at : at + 32]
    return data[:at] + draw.choice([bytes(32), above(field), draw.choice(FIELDS), draw.randbytes(32), data[:32], data[-32:]]) + data[at + 32 :]


def rewritten(draw, data, other):
    return draw.choice([bytes(len(data)), b"\xff" * len(data), draw.randbytes(len(data)), data[::-1]])


WAYS = [flipped, flipped, byte_set, byte_set, field_set, field_set, field_set, truncated, extended, spliced, rewritten]


def spoiled(draw, data, other):
    """data after one spoiling."""
    return draw.choice(WAYS)(draw, data, other) if data else draw.choice([b"\0", other(), draw.randbytes(32)])


def edge(draw, number, end):
    """A number near number or end, at the edge of a width, or anything."""
    near = [number - 1, number + 1, end - 1, end, end + 1, number + end, number + 2**32, number + 2**63]
    wide = [0, 1, 12, 13, 255, 256, 2**31, 2**32 - 1, 2**32, 2**63, 2**64 - 1, draw.getrandbits(64), draw.getrandbits(draw.randrange(1, 65))]
    return draw.choice(draw.choice([near, wide])) % 2**64
