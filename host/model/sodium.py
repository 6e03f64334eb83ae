"""Ed25519 by libsodium itself, with the names of ed25519.py. A comparison over it leaves Ed25519 out: RFC 8032 lets verifiers differ on
keys and signatures that no honest signer makes, and here both sides ask one library. It is quick, too."""
import ctypes

SODIUM = ctypes.CDLL("libsodium.so")
assert SODIUM.sodium_init() >= 0


def pair_of(secret):
    key, pair = ctypes.create_string_buffer(32), ctypes.create_string_buffer(64)
    assert len(secret) == 32 and SODIUM.crypto_sign_seed_keypair(key, pair, secret) == 0
    return key.raw, pair.raw


def public_key(secret):
    return pair_of(secret)[0]


def sign(secret, message):
    signature = ctypes.create_string_buffer(64)
    assert SODIUM.crypto_sign_detached(signature, None, message, ctypes.c_ulonglong(len(message)), pair_of(secret)[1]) == 0
    return signature.raw


def verify(key, message, signature):
    assert len(key) == 32 and len(signature) == 64
    return SODIUM.crypto_sign_verify_detached(signature, message, ctypes.c_ulonglong(len(message)), key) == 0
