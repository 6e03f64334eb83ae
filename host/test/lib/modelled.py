"""The calls of library.py by the independent model, with a count of what is asked of Ed25519."""
import pathlib
import sys

ROOT = pathlib.Path(__file__).resolve().parents[3]
sys.path.insert(0, str(ROOT / "host" / "model"))
import ed25519
import fair
import kes
import plain
import sodium
from .library import ANSWERED, CATCH_UP, FAIR_MAKE, FAIR_MOVE, FAIR_SIGN, FAIR_VERIFY, HASH, LENT, MAKE, MAKE3, MOVE, READ_KEY, RELEASE, SIGN, VERIFY, VERIFY3
from .library import PLAIN_FILL, PLAIN_PATH, PLAIN_ROOT, PLAIN_SIGN

NAMES = ["make", "read key", "move", "catch up", "release", "sign", "verify", "make of three", "verify of three", "hash", "fair make", "fair move", "fair sign", "fair verify"]
NAMES += ["plain fill", "plain root", "plain path", "plain sign"]


class Counted(kes.Module):
    """Counts the keys, signatures and verdicts that it is asked for."""

    def public_key(self, secret):
        self.asked[0] += 1
        return super().public_key(secret)

    def sign(self, secret, message):
        self.asked[1] += 1
        return super().sign(secret, message)

    def verify(self, key, message, signature):
        self.asked[2] += 1
        return super().verify(key, message, signature)

    def begin(self, tally, every, silent):
        """As library.py has it."""
        self.asked, self.tally = [0, 0, 0], tally
        self.answered = lambda number: every == 0 or number % every != silent


class Model:
    def __init__(self, ed=ed25519, scheme=kes.Scheme, cache=fair.Fair, engine=plain.Plain):
        self.module = Counted(ed)
        self.scheme, self.fair, self.plain = scheme(self.module), cache(self.module), engine(self.module)

    def call(self, op, h1, h2, step, buffers, module=ANSWERED, h3=0):
        left = [bytearray(x) for x in buffers]
        a, b, c, d = left + [bytearray()] * (LENT - len(left))
        self.module.begin(*module)
        s, f, p = self.scheme, self.fair, self.plain
        number, count = {
            MAKE: lambda: s.make(h1, h2, a, b),
            READ_KEY: lambda: (s.read_key(a, b), 0),
            MOVE: lambda: s.move(a, step),
            CATCH_UP: lambda: s.catch_up(a, step),
            RELEASE: lambda: (s.release(a, h1, step), 0),
            SIGN: lambda: (s.sign(a, b, c), 0),
            VERIFY: lambda: (s.verify(h1, h2, a, step, b, c), 0),
            MAKE3: lambda: s.make3(h1, h2, h3, a, b),
            VERIFY3: lambda: (s.verify3(h1, h2, h3, a, step, b, c), 0),
            HASH: lambda: (kes.hash_call(a, b), 0),
            FAIR_MAKE: lambda: (f.make(h1, a, b, c, d), 0),
            FAIR_MOVE: lambda: (f.move(a, step), 0),
            FAIR_SIGN: lambda: (f.sign(a, b, c), 0),
            FAIR_VERIFY: lambda: (f.verify(h1, a, step, b, c), 0),
            PLAIN_FILL: lambda: (p.fill(h1, a, b), 0),
            PLAIN_ROOT: lambda: (p.root(h1, a, b), 0),
            PLAIN_PATH: lambda: (p.path(h1, a, step, b), 0),
            PLAIN_SIGN: lambda: (p.sign(h1, a, step, b, c), 0),
        }[op]()
        return number + (count << 32), [*self.module.asked, self.module.tally], [bytes(x) for x in left]


def show(request):
    op, h1, h2, step, buffers, *rest = request
    return f"{NAMES[op]} h1={h1} h2={h2} step={step} module, h3={rest} " + " ".join(b.hex() or "-" for b in buffers)
