"""The static library with libsodium behind it, in a process of its own (kes_driver.c, lent.c), for tests from Python. Needs desk/build before."""
import pathlib
import struct
import subprocess

ROOT = pathlib.Path(__file__).resolve().parents[3]
MAKE, READ_KEY, MOVE, CATCH_UP, RELEASE, SIGN, VERIFY, MAKE3, VERIFY3, HASH, FAIR_MAKE, FAIR_MOVE, FAIR_SIGN, FAIR_VERIFY = range(14)
PLAIN_FILL, PLAIN_ROOT, PLAIN_PATH, PLAIN_SIGN = range(14, 18)
CARD_ENTER, CARD_FIND = 18, 19
# a tally, and the numbers n that are not answered: those with n % every == silent, none where every is 0
ANSWERED = (0, 0, 0)
# of lent.h: how many buffers a call is lent at most, and the longest that the driver takes
LENT, MOST = 4, 36864
BEHIND = {"sodium": "-lsodium", "openssl": "-lcrypto"}
COUNTED = ["desk_ed25519_public_key", "desk_ed25519_sign", "desk_ed25519_verify"]
STRICT = ["-std=c99", "-O1", "-Wall", "-Wextra", "-Wconversion", "-pedantic", "-Werror"]


def making(heights, buffers, module=ANSWERED):
    """The request that makes a key of two trees or three."""
    h1, h2, *third = heights
    return (MAKE3 if third else MAKE), h1, h2, 0, buffers, module, *third


def verifying(heights, step, buffers):
    """The request that verifies a signature of such a key."""
    h1, h2, *third = heights
    return (VERIFY3 if third else VERIFY), h1, h2, step, buffers, ANSWERED, *third


class Ended(Exception):
    """The driver ended without an answer."""


def program(folder, name, adapter="sodium", *words):
    """The program of host/test/lib/NAME.c, compiled with these words and linked with the library and an adapter."""
    made, source = pathlib.Path(folder) / f"{name}_{adapter}", ROOT / "host" / "test" / "lib" / f"{name}.c"
    archives = [ROOT / "build" / "libkes.a", ROOT / "build" / f"libkes_{adapter}.a", BEHIND[adapter]]
    subprocess.run(["gcc", *STRICT, f"-I{ROOT / 'include'}", source, *words, *archives, "-o", made], check=True)
    return made


def linked(folder, name, wrapped=(), flags=()):
    """The same over lent.c; calls of Ed25519 and of the wrapped functions go through the program's own."""
    wraps = [f"-Wl,--wrap={function}" for function in [*COUNTED, *wrapped]]
    return program(folder, name, "sodium", *flags, ROOT / "host" / "test" / "lib" / "lent.c", *wraps)


class Library:
    def __init__(self, folder):
        self.process = subprocess.Popen([linked(folder, "kes_driver")], stdin=subprocess.PIPE, stdout=subprocess.PIPE)

    def call(self, op, h1, h2, step, buffers, module=ANSWERED, h3=0):
        """The answer; how often Ed25519 made a key, signed and verified, and the tally left; the buffers left."""
        lengths = [len(b) for b in buffers] + [0] * (LENT - len(buffers))
        self.process.stdin.write(struct.pack("<BQQQQQQQIIII", op, h1, h2, h3, step, *module, *lengths) + b"".join(buffers))
        self.process.stdin.flush()
        answer, *asked = struct.unpack("<QIIIQ", self.read(28))
        return answer, asked, [self.read(len(b)) for b in buffers]

    def read(self, n):
        data = self.process.stdout.read(n)
        if len(data) != n:
            raise Ended(f"library: the driver ended without an answer, status {self.process.wait()}")
        return data
