"""The program journal with a count of its Ed25519 calls, which it says at its end on standard error. Needs desk/build before."""
import pathlib
import subprocess

ROOT = pathlib.Path(__file__).resolve().parents[3]
BUILD = ROOT / "build"


def counting(folder):
    objects = folder / "counting.o", folder / "counted.o"
    subprocess.run(["gcc", "-std=c99", "-O1", "-c", ROOT / "host" / "test" / "lib" / "counting.c", "-o", objects[0]], check=True)
    subprocess.run(["ld", "-r", "--wrap=desk_ed25519_verify", BUILD / "obj" / "journal.o", objects[0], "-o", objects[1]], check=True)
    subprocess.run([ROOT / "desk" / "link", objects[1], "sodium", folder / "counted"], check=True)
    return folder / "counted"
