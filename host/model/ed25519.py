"""Ed25519 after RFC 8032, sections 5.1.1 to 5.1.7, on plain integers: the independent side of the outside calls' tests.
It is slow and takes a different time for each secret, so it is for tests alone."""
import hashlib

P = 2**255 - 19
L = 2**252 + 27742317777372353535851937790883648493
D = -121665 * pow(121666, P - 2, P) % P
SQRT_OF_MINUS_1 = pow(2, (P - 1) // 4, P)
NEUTRAL = (0, 1, 1, 0)


def number(data):
    return int.from_bytes(data, "little")


def hashed(*parts):
    return number(hashlib.sha512(b"".join(parts)).digest())


def add(a, b):
    """The sum of two points in extended coordinates (5.1.4)."""
    e = (a[1] - a[0]) * (b[1] - b[0]) % P
    f = (a[1] + a[0]) * (b[1] + b[0]) % P
    g = 2 * a[3] * b[3] * D % P
    h = 2 * a[2] * b[2] % P
    w, x, y, z = f - e, h - g, h + g, f + e
    return w * x % P, y * z % P, x * y % P, w * z % P


def times(n, point):
    total = NEUTRAL
    while n > 0:
        if n & 1:
            total = add(total, point)
        point = add(point, point)
        n >>= 1
    return total


def same(a, b):
    return (a[0] * b[2] - b[0] * a[2]) % P == 0 and (a[1] * b[2] - b[1] * a[2]) % P == 0


def x_of(y, sign):
    """The x of a point from its y and its x's lowest bit, or None (5.1.3)."""
    if y >= P:
        return None
    square = (y * y - 1) * pow(D * y * y + 1, P - 2, P) % P
    x = pow(square, (P + 3) // 8, P)
    if (x * x - square) % P != 0:
        x = x * SQRT_OF_MINUS_1 % P
    if (x * x - square) % P != 0 or (x == 0 and sign == 1):
        return None
    return x if x & 1 == sign else P - x


def encoded(point):
    inverse = pow(point[2], P - 2, P)
    x, y = point[0] * inverse % P, point[1] * inverse % P
    return (y | (x & 1) << 255).to_bytes(32, "little")


def decoded(data):
    y = number(data) & 2**255 - 1
    x = x_of(y, data[31] >> 7)
    return None if x is None else (x, y, 1, x * y % P)


BASE = decoded((4 * pow(5, P - 2, P) % P).to_bytes(32, "little"))


def expanded(secret):
    """The scalar and the prefix of a secret (5.1.5)."""
    digest = hashlib.sha512(secret).digest()
    return number(digest[:32]) & 2**254 - 8 | 2**254, digest[32:]


def public_key(secret):
    return encoded(times(expanded(secret)[0], BASE))


def sign(secret, message):
    scalar, prefix = expanded(secret)
    key = encoded(times(scalar, BASE))
    r = hashed(prefix, message) % L
    first = encoded(times(r, BASE))
    return first + ((r + hashed(first, key, message) * scalar) % L).to_bytes(32, "little")


def verify(key, message, signature):
    a, r, s = decoded(key), decoded(signature[:32]), number(signature[32:])
    if a is None or r is None or s >= L:
        return False
    return same(times(s, BASE), add(r, times(hashed(signature[:32], key, message) % L, a)))
