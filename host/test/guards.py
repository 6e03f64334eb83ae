#!/usr/bin/env python3
"""The guards around every lent buffer (lent.h) notice a library that is wrong: guards.c puts a wrong hash in the place of kes_hash, a make
that writes too early in the place of kes_fair_make, and signing that is wrong with the tally in the place of kes_fair_sign. Needs
desk/build before."""
import subprocess
import sys
import tempfile

sys.dont_write_bytecode = True
from lib.library import linked

BESIDE, TOUCHED = b"a byte beside", b"touched"
# in the order of guards.c
WAYS = [("a right one", b""), ("reads after a buffer", TOUCHED), ("reads before a buffer", TOUCHED), ("reads a byte of none", TOUCHED),
        ("writes what it may only read", TOUCHED), ("writes after a buffer", TOUCHED), ("writes before a buffer", BESIDE),
        ("writes and refuses", TOUCHED), ("answers by the address", b"another address"), ("does not end", b"does not end"),
        ("a right make", b""), ("a make that writes before its last answer", b"before Ed25519 was asked"),
        ("a right signing", b""), ("asks at another number", b"another number"), ("sets the tally back", b"the tally left"),
        ("writes beside the tally", b"beside the tally"), ("writes what was not answered", TOUCHED)]


def main():
    with tempfile.TemporaryDirectory() as folder:
        guards = linked(folder, "guards", ["kes_hash", "kes_fair_make", "kes_fair_sign"], ["-DTIME_LIMIT=1"])
        for number, (way, message) in enumerate(WAYS):
            ran = subprocess.run([guards, str(number)], capture_output=True)
            if (ran.returncode == 0, ran.stdout) != (not message, b"" if message else b"answered\n") or message not in ran.stderr:
                sys.exit(f"guards: {way}: not told as it must be: {ran}")
            print(f"guards: {way}: " + (ran.stderr.decode().strip() or "answered"))


main()
