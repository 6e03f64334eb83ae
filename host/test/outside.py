#!/usr/bin/env python3
"""Runs Ed25519 through the outside calls: the program ed25519_cases, linked with each adapter in turn, answers RFC 8032's vectors,
random cases and damaged ones as a model written from the RFC does. Ends at the first difference. Needs desk/build before."""
import pathlib
import random
import subprocess
import sys
import time

ROOT = pathlib.Path(__file__).resolve().parents[2]
sys.dont_write_bytecode = True
sys.path.insert(0, str(ROOT / "host" / "model"))
import ed25519
from frames import ask_key, ask_sign, ask_verify, flipped, given, verdict

SIZES = [0, 1, 31, 32, 33, 63, 64, 65, 111, 112, 127, 128, 129, 255, 256, 1023, 1024, 4095, 4096]


def vectors():
    """Each of RFC 8032's vectors as a dict of bytes, with its name."""
    text = (ROOT / "host" / "vectors" / "rfc8032.txt").read_text()
    lines = [line for line in text.splitlines() if not line.startswith("#")]
    for block in "\n".join(lines).strip().split("\n\n"):
        fields = dict(line.split(" =", 1) for line in block.splitlines())
        name = fields.pop("name").strip()
        yield name, {key: bytes.fromhex(value) for key, value in fields.items()}


def published():
    for name, v in vectors():
        yield f"{name}, public key", ask_key(v["secret"]), given(v["public"])
        yield f"{name}, sign", ask_sign(v["secret"], v["message"]), given(v["signature"])
        yield f"{name}, verify", ask_verify(v["public"], v["message"], v["signature"]), verdict(True)


def drawn():
    """Random secrets, with messages of the sizes above and of random sizes, by the model."""
    draw = random.Random(8032)
    for size in SIZES + [draw.randrange(4097) for _ in range(40)]:
        secret, message = draw.randbytes(32), draw.randbytes(size)
        key, signature = ed25519.public_key(secret), ed25519.sign(secret, message)
        yield f"{size} bytes, public key", ask_key(secret), given(key)
        yield f"{size} bytes, sign", ask_sign(secret, message), given(signature)
        yield f"{size} bytes, verify", ask_verify(key, message, signature), verdict(True)


def damaged():
    """A good case with one bit of each byte of the signature and the key changed, and with other messages: all refused."""
    draw = random.Random(7693)
    secret, message = draw.randbytes(32), draw.randbytes(200)
    key, signature = ed25519.public_key(secret), ed25519.sign(secret, message)
    higher = ed25519.number(signature[32:]) + ed25519.L
    tries = {f"signature byte {i}": (key, message, flipped(signature, 8 * i + i % 8)) for i in range(64)}
    tries |= {f"key byte {i}": (flipped(key, 8 * i + i % 8), message, signature) for i in range(32)}
    tries |= {f"message byte {i}": (key, flipped(message, 8 * i), signature) for i in range(0, 200, 10)}
    tries |= {"message cut": (key, message[:-1], signature), "message longer": (key, message + b"\0", signature)}
    tries |= {"S plus L": (key, message, signature[:32] + higher.to_bytes(32, "little"))}
    tries |= {"all zero": (bytes(32), b"", bytes(64)), "other key": (ed25519.public_key(message[:32]), message, signature)}
    for name, case in tries.items():
        if ed25519.verify(*case):
            sys.exit(f"outside: the model accepts {name}")
        yield f"damaged {name}", ask_verify(*case), verdict(False)


def exotic():
    """Signatures that no honest signer makes, which RFC 8032 lets a verifier accept or refuse: points of small order, an unreduced y."""
    neutral, unreduced, secret, message = ed25519.encoded(ed25519.NEUTRAL), (ed25519.P + 1).to_bytes(32, "little"), bytes(range(32)), b"abc"
    key, scalar = ed25519.public_key(secret), ed25519.expanded(secret)[0]
    s = ed25519.hashed(neutral, key, message) * scalar % ed25519.L
    yield "small-order key", ask_verify(neutral, message, neutral + bytes(32))
    yield "unreduced key", ask_verify(unreduced, message, neutral + bytes(32))
    yield "small-order R", ask_verify(key, message, neutral + s.to_bytes(32, "little"))


def model():
    """The model itself agrees with the RFC."""
    for name, v in vectors():
        made = ed25519.public_key(v["secret"]), ed25519.sign(v["secret"], v["message"])
        if made != (v["public"], v["signature"]) or not ed25519.verify(v["public"], v["message"], v["signature"]):
            sys.exit(f"outside: the model differs from RFC 8032 at {name}")


def program(adapter):
    """ed25519_cases, linked with the adapter."""
    made = ROOT / "build" / "obj" / f"ed25519_cases_{adapter}"
    subprocess.run([ROOT / "desk" / "link", ROOT / "build" / "obj" / "ed25519_cases.o", adapter, made], check=True)
    return made


def answers(made, requests):
    return subprocess.run([made], input=b"".join(requests), stdout=subprocess.PIPE, check=True).stdout


def run(made, adapter, group, cases):
    began = time.time()
    wrote = answers(made, [case[1] for case in cases])
    for name, _, answer in cases:
        if wrote[: len(answer)] != answer:
            sys.exit(f"outside: {adapter}: {name}: {wrote[:len(answer)].hex()}, not {answer.hex()}")
        wrote = wrote[len(answer) :]
    if wrote:
        sys.exit(f"outside: {adapter}: {group}: {len(wrote)} bytes too many")
    print(f"outside: {adapter}: {group}: {len(cases)} answers are right ({time.time() - began:.1f} s)", flush=True)


def main():
    began = time.time()
    model()
    groups = {"RFC 8032's vectors": list(published()), "random": list(drawn()), "damaged": list(damaged())}
    print(f"outside: the model agrees with RFC 8032 and has made its answers ({time.time() - began:.1f} s)", flush=True)
    for adapter in ("sodium", "openssl"):
        made = program(adapter)
        for group, cases in groups.items():
            run(made, adapter, group, cases)
        verdicts = zip(exotic(), answers(made, [request for _, request in exotic()]))
        print(f"outside: {adapter}: for docs/ASSUMPTIONS.md: " + ", ".join(f"{name} {('refused', 'accepted')[v]}" for (name, _), v in verdicts))


main()
