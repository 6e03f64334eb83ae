"""The stand-in scheme of crates/standin, written a second time from the text that opens its specs file."""

MODULUS = 4_294_967_291
TEXT = b"NOT ED25519 KEY "


def answered(number):
    """Silent at one number in 2^32."""
    return number % 2**32 != 100


def lane(k, data):
    value = 0
    for byte in data:
        value = (value * k + byte + 1) % MODULUS
    return value


def digest(size, data):
    return bytes(lane(i + 2, data) % 256 for i in range(size))


def public_key(secret):
    return TEXT + digest(16, TEXT + secret)


def sign(secret, message):
    return digest(64, public_key(secret) + message)


def verify(key, message, signature):
    return signature == digest(64, key + message)
