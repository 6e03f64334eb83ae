#!/usr/bin/env python3
"""Runs document 001's printed vectors through verification with real Ed25519, a line for each. Ends with 1 where a reading or a verdict
is not the one that host/vectors/document001.txt has, which is what docs/VECTORS.md tells. Needs desk/build before."""
import pathlib
import re
import subprocess
import sys
import tempfile

ROOT = pathlib.Path(__file__).resolve().parents[2]
sys.dont_write_bytecode = True
sys.path.insert(0, str(ROOT / "host" / "model"))
import ed25519
from frames import ask_sum, flipped
from lib.library import VERIFY, Library
from kes import Module, Scheme, cut, left, signature_size, sum_size

MODEL = Scheme(Module(ed25519))

# what a mend drops; a label's name goes with it where it is a word, and stays where the scan has put digits in its place
TEX_AND_BLANKS = re.compile(
    r"\\label\{eq:[a-z]*[g-z][a-z_]*\}|\\label\{eq:|\\(begin|end)\{(array|cases)\}(\{[cl]\})?|\\(tt|rm|mathtt|verb)|\\\\|[${}|]|\s"
)


def fail(what):
    sys.exit(f"document 001: {what}")


# The file.


def blocks():
    """The values, each a dict from a key to its lines."""
    text = (ROOT / "host" / "vectors" / "document001.txt").read_text()
    lines = [line for line in text.splitlines() if not line.startswith("#")]
    for block in "\n".join(lines).strip().split("\n\n"):
        value = {}
        for line in block.splitlines():
            key, rest = line.split(" = ", 1)
            value.setdefault(key, []).append(rest)
        yield value


def text_of(value, key):
    return "".join(value.get(key, []))


def name_of(value):
    step = f", t = {text_of(value, 'step')}" if "step" in value else ""
    return f"{text_of(value, 'vector')}{step}, {text_of(value, 'what')}"


def mend(printed):
    return TEX_AND_BLANKS.sub("", printed).replace("O", "0")


def read(value, size):
    """The bytes of a value, or None where it is not readable. The mend is made here again, so that the file's account of it is not trusted."""
    printed = text_of(value, "printed")
    mended = mend(printed)
    readable = re.fullmatch(f"[0-9a-f]{{{2 * size}}}", mended) is not None
    found = "not readable" if not readable else "as printed" if mended == printed else "after a mend"
    if found != text_of(value, "read"):
        fail(f"{name_of(value)}: the file says {text_of(value, 'read')}, and it is {found}")
    if text_of(value, "mended") != (mended if found == "after a mend" else ""):
        fail(f"{name_of(value)}: the mended lines are not the printed ones after a mend")
    return bytes.fromhex(mended) if readable else None


# Verdicts on cases: heights (one of a tree, two of a product key), root, step, message, signature.


def halves(heights, root, step, message, signature):
    """Rule 8: the parent's sum signature over R2 and the child's over the message, as cases of their own."""
    h1, h2 = heights
    t1, t2 = divmod(step, 2**h2)
    parent, child, r2 = cut(signature, sum_size(h1), sum_size(h2), 32)
    return ((h1,), root, t1, r2, parent), ((h2,), r2, t2, message, child)


def verify_sum(cases):
    """The library's verdicts on sum signatures, by the program sum_cases."""
    requests = [ask_sum(root, h, t, message, signature) for (h,), root, t, message, signature in cases]
    wrote = subprocess.run([ROOT / "build" / "sum_cases"], input=b"".join(requests), stdout=subprocess.PIPE, check=True).stdout
    if len(wrote) != len(cases):
        fail(f"sum_cases gave {len(wrote)} verdicts on {len(cases)} requests")
    return [byte == 1 for byte in wrote]


def verify_product(cases):
    """The library's verdicts on product signatures, by kes_verify."""
    with tempfile.TemporaryDirectory() as folder:
        library = Library(folder)
        return [library.call(VERIFY, *heights, step, [root, message, signature])[0] == 0 for heights, root, step, message, signature in cases]


def verify(cases):
    return (verify_sum if len(cases[0][0]) == 1 else verify_product)(cases)


def by_model(heights, root, *rest):
    if len(heights) == 1:
        return MODEL.sum_verdict(root, *heights, *rest)
    return MODEL.product_verdict(heights, root, *rest)


def damaged(heights, root, step, message, signature):
    """One bit of the root, the step, the message and each 32 bytes of the signature, changed one at a time."""
    yield heights, flipped(root, 0), step, message, signature
    yield heights, root, step ^ 1, message, signature
    yield heights, root, step, flipped(message, 0), signature
    for at in range(0, len(signature), 32):
        yield heights, root, step, message, flipped(signature, 8 * at)


# The document's four vectors.


class Vector:
    def __init__(self, values):
        of = {text_of(value, "what"): value for value in values if "step" not in value}
        self.heights = tuple(int(line.split()[-1]) for line in of["heights"]["printed"])
        self.seed, self.message, key = read(of["seed"], 32), read(of["message"], 7), read(of["verification key"], 32)
        self.root = key or bytes.fromhex(text_of(of["verification key"], "instead"))
        self.root_is = "the printed verification key" if key else "the common root"
        self.signatures = [value for value in values if "step" in value]

    def size(self, what):
        if what == "signature":
            return sum_size(*self.heights) if len(self.heights) == 1 else signature_size(*self.heights)
        h1, h2 = self.heights
        return sum_size(h1 if what == "parent's half" else h2) + 32

    def case(self, what, step, data):
        """What is verified, and the name of its root. A half is taken from a signature whose other half is zeros."""
        start = self.heights, self.root, step, self.message
        if what == "signature":
            return (*start, data), self.root_is
        h1, h2 = self.heights
        if what == "parent's half":
            return halves(*start, data[:-32] + bytes(sum_size(h2)) + data[-32:])[0], self.root_is
        return halves(*start, bytes(sum_size(h1)) + data)[1], "the printed R2"


def try_without_words(vector, value):
    """What docs/VECTORS.md tells was found by trial: without the words that stand in it, the signature is accepted. It counts for nothing."""
    whole = bytes.fromhex(mend(text_of(value, "printed").replace(text_of(value, "words"), "")))
    case, root_is = vector.case("signature", int(text_of(value, "step")), whole)
    if not (verify([case])[0] and by_model(*case)):
        fail(f"{name_of(value)}: not accepted without its words")
    print(f"{name_of(value)}: by trial, without words of running text: accepted under {root_is}")


def run(vector, value):
    """Prints what came of a signature or a half, and answers whether it was accepted, or None where it is not readable."""
    what = text_of(value, "what")
    data = read(value, vector.size(what))
    if data is None:
        print(f"{name_of(value)}: not readable: {text_of(value, 'why')}")
        if "words" in value:
            try_without_words(vector, value)
        return None
    case, root_is = vector.case(what, int(text_of(value, "step")), data)
    accepted, expected = verify([case])[0], text_of(value, "accepted") == "yes"
    print(f"{name_of(value)}: read {text_of(value, 'read')}, {'accepted' if accepted else 'NOT accepted'} under {root_is}")
    if not accepted == by_model(*case) == expected:
        fail(f"{name_of(value)}: accepted by the library {accepted}, by the model {by_model(*case)}, by the file {expected}")
    if accepted and any(verify(list(damaged(*case)))):
        fail(f"{name_of(value)}: accepted with one bit changed")
    return accepted


def same_text(signatures):
    """A half repeats lines of the signature that stands before it."""
    for before, value in zip(signatures, signatures[1:]):
        if text_of(value, "what") != "signature" and any(line not in text_of(before, "printed") for line in value["printed"]):
            fail(f"{name_of(value)}: not part of the signature's text")


def tell_made(name, vector):
    """What making from the printed seed gives where the secret is the seed: told, and no expected value."""
    seed = vector.seed if len(vector.heights) == 1 else left(vector.seed)
    made = MODEL.subtree_hash(seed, vector.heights[0])
    print(f"{name}: making from the printed seed gives {made.hex()}, {'' if made == vector.root else 'not '}{vector.root_is}")


def main():
    values = list(blocks())
    found = {"signature": [], "half": []}
    for name in dict.fromkeys(text_of(value, "vector") for value in values):
        vector = Vector([value for value in values if text_of(value, "vector") == name])
        same_text(vector.signatures)
        for value in vector.signatures:
            found[text_of(value, "what").split()[-1]].append(run(vector, value))
        tell_made(name, vector)
    for what, verdicts in found.items():
        counts = f"{verdicts.count(True)} accepted, {verdicts.count(False)} read and not accepted, {verdicts.count(None)} not readable"
        print(f"document 001: {what}: {counts}, as the file says")


main()
