"""The requests and answers of the programs ed25519_cases and sum_cases, as src/main.rt of each crate states them."""

PUBLIC_KEY, SIGN, VERIFY = 0, 1, 2


# where no case draws a tally
TALLY = 1000


def request(op, first, message=b"", signature=bytes(64)):
    assert len(first) == 32 and len(signature) == 64 and len(message) <= 4096
    return bytes([op]) + first + signature + len(message).to_bytes(2, "little") + message


def at(tally):
    """A tally in the place of the signature, which these two requests have none of."""
    return tally.to_bytes(8, "little") + bytes(56)


def ask_key(secret, tally=TALLY):
    return request(PUBLIC_KEY, secret, signature=at(tally))


def ask_sign(secret, message, tally=TALLY):
    return request(SIGN, secret, message, at(tally))


def given(data, tally=TALLY):
    """An answer that the module gave to a call made at this tally."""
    return bytes([1]) + ((tally + 1) % 2**64).to_bytes(8, "little") + data


def silence(tally):
    """None."""
    return bytes([0]) + ((tally + 1) % 2**64).to_bytes(8, "little")


def ask_verify(key, message, signature):
    return request(VERIFY, key, message, signature)


def ask_sum(root, h, t, message, signature):
    assert len(root) == 32 and len(signature) == 96 + 32 * h and len(message) <= 4096
    return bytes([h]) + t.to_bytes(4, "little") + root + len(message).to_bytes(2, "little") + message + signature


def verdict(accepted):
    return bytes([1 if accepted else 0])


def flipped(data, bit):
    """data with one bit changed."""
    changed = bytearray(data)
    changed[bit // 8] ^= 1 << bit % 8
    return bytes(changed)
