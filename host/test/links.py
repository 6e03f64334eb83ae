#!/usr/bin/env python3
"""How often judging asks Ed25519, counted: at most once a line and once for each change of child, and never more often than where nothing
is remembered; a journal that alternates between two children asks twice a line. And the lines that would pass if a link were compared in
part, or kept too long, are B. Reproducible: links.py [SEED [JOURNALS]]. Needs desk/build before."""
import pathlib
import random
import subprocess
import sys
import tempfile

ROOT = pathlib.Path(__file__).resolve().parents[2]
sys.dont_write_bytecode = True
sys.path.insert(0, str(ROOT / "host" / "model"))
import kes
import sodium
from journal import Judge, cut_lines, header, message, record
from lib.counted import BUILD, counting

SCHEME = kes.Scheme(kes.Module(sodium))
JUDGE = Judge(SCHEME)
HEIGHTS = [(0, 0), (0, 2), (1, 1), (2, 1), (1, 2)]


class Key:
    """A parent whose leaves vouch for any child that is asked for: of a parent's step there is more than one."""

    def __init__(self, h1, h2, seed):
        self.h1, self.h2, self.seed = h1, h2, seed
        self.header = b"kes2\t%d\t%d\t%s\n" % (h1, h2, SCHEME.subtree_hash(seed, h1).hex().encode())

    def parts(self, step, signed, child=0):
        """The link and the child's part: the parent's sum signature, the child's, the child's root."""
        t1, t2 = divmod(step, 2**self.h2)
        parent, tree = SCHEME.tree_at(self.seed, self.h1, t1), SCHEME.tree_at(kes.H(b"%d %d" % (child, t1) + self.seed), self.h2, t2)
        root = SCHEME.root(tree, self.h2)
        return [SCHEME.sum_signature(parent, self.h1, t1, root), SCHEME.sum_signature(tree, self.h2, t2, signed), root]

    def line(self, serial, step, child=0, spoil=lambda parts: parts, said=None):
        """A record signed at a step by a child, with its signature spoiled; it may say another step."""
        fields = b"%016d" % (serial * 7919), b"%d" % serial, b"%d" % (serial * 100)
        parts = spoil(self.parts(step, message(b"kes2", *fields), child))
        return b"\t".join([b"%d" % (step if said is None else said), *fields, b"".join(parts).hex().encode()]) + b"\n"


def last_byte(parts):
    """The parent's sum signature ends with another byte."""
    return [parts[0][:-1] + bytes([parts[0][-1] ^ 1]), *parts[1:]]


def own_child(key, step, serial, child):
    """What spoils a signature so that a child signs for whom nobody vouches, below a parent's signature that was accepted."""
    vouched = key.parts(step, b"", child)[0]
    return lambda parts: [vouched, *parts[1:]]


def counts(data):
    """By the words of the issue: how often Ed25519 is asked with the last accepted link remembered and without, the lines whose signature is
    looked at, and how many of them have another link than the last accepted."""
    first, *later = cut_lines(data)
    word, h1, h2, key = header(first)
    link, last_step, last_serial, asked, before, looked, changes = None, 0, 0, 0, 0, 0, 0
    for found in (record(line, word, h1, h2) for line in later):
        if JUDGE.letter((word, h1, h2, key), found, last_step, last_serial) not in "BG":
            continue
        step, serial, _, signed, signature = found
        above, below, root = kes.cut(signature, kes.sum_size(h1), kes.sum_size(h2), 32)
        own, fits = (step >> h2, root, above), SCHEME.path_fits(root, h2, step % 2**h2, below)
        vouched = SCHEME.path_fits(key, h1, step >> h2, above) and fits
        cost = 1 + SCHEME.leaf_accepts(root, above) if vouched else 0
        looked, changes, before = looked + 1, changes + (own != link), before + cost
        asked += int(fits) if own == link else cost
        if vouched and SCHEME.leaf_accepts(root, above) and SCHEME.leaf_accepts(signed, below):
            link, last_step, last_serial = own, step, serial
    return asked, before, looked, changes


def judged(program, data, what):
    """How often the program asked; what it wrote is the model's, and it asked as told above."""
    run = subprocess.run([program], input=data, capture_output=True, check=True)
    asked, before, looked, changes = counts(data)
    if run.stdout != JUDGE.output(data):
        sys.exit(f"links: {what}: judged otherwise\n{data!r}\n{run.stdout!r}")
    if int(run.stderr) != asked or asked > before or asked > looked + changes:
        sys.exit(f"links: {what}: {int(run.stderr)} calls; {asked} with the link remembered, {before} without, {looked} lines, {changes} changes\n{data!r}")
    return asked


def must(found, expected, what):
    if found != expected:
        sys.exit(f"links: {what}: {found} calls, not {expected}")
    print(f"links: {what}: {found} calls")


def counted(program):
    key = Key(1, 3, bytes(range(32)))
    one = [key.line(serial, serial - 1) for serial in range(1, 9)]
    must(judged(program, key.header + b"".join(one), "one child"), 8 + 1, "8 lines of one child")
    both = [key.line(serial, serial - 1) for serial in range(1, 17)]
    must(judged(program, key.header + b"".join(both), "two children"), 16 + 2, "16 lines of one child and then another")
    turns = [key.line(serial, 5, serial % 2) for serial in range(1, 11)]
    must(judged(program, key.header + b"".join(turns), "in turns"), 2 * 10, "10 lines of two children in turns")


def let_through(program):
    """After a good line each of these is B. The root's comes twice: the first must leave no link."""
    for h1, h2 in (1, 1), (0, 1):
        key = Key(h1, h2, bytes(range(1, 33)))
        spoiled = [key.line(2, 0, 0, last_byte)] + 2 * [key.line(2, 0, 7, own_child(key, 0, 2, 0))]
        spoiled += [key.line(2, 0, 0, said=2**h2)] if h1 > 0 else []
        data = key.header + key.line(1, 0) + b"".join(spoiled) + key.line(2, 0)
        judged(program, data, f"spoiled links at {h1} and {h2}")
        if JUDGE.output(data).count(b"\tB\n") != len(spoiled) or JUDGE.output(data).count(b"\tG\n") != 2:
            sys.exit("links: by the model a spoiled line is not B")
    print("links: another parent's step, another root, another last byte: B, and again B")


def another_header(folder):
    """A second journal read by the same process, with the first one's lines below another key: none is good."""
    key, other = Key(1, 1, bytes(32)), Key(1, 1, bytes([9]) * 32)
    lines = b"".join(key.line(serial, 0) for serial in (1, 2, 3))
    for name, head in (b"first", key.header), (b"second", other.header):
        (folder / name.decode()).write_bytes(head + lines)
    said = subprocess.run([BUILD / "quarter"], input=b"first\nsecond\n", capture_output=True, check=True, cwd=folder).stdout.splitlines()
    if [line.split(b"\t")[1:3] for line in said[:2]] != [[b"3", b"3"], [b"3", b"0"]]:
        sys.exit(f"links: a link of one journal counts in the next: {said}")
    print("links: below another header the same lines are not good")


def drawn(draw, keys):
    """Lines of two children each at a step that seldom falls, some of them spoiled."""
    key, step, serial, lines = draw.choice(keys), 0, 1, []
    for _ in range(draw.randrange(1, 12)):
        step = min(max(step + draw.choice([0, 0, 0, 1, 1, 2, -1]), 0), kes.steps(key.h1, key.h2) - 1)
        spoil = draw.choice(4 * [lambda parts: parts] + [last_byte, own_child(key, step, serial, draw.randrange(2)), lambda parts: [parts[0], parts[1][:40] + b"x" + parts[1][41:], parts[2]]])
        said = draw.randrange(kes.steps(key.h1, key.h2)) if draw.random() < 0.1 else None
        line = key.line(serial, step, draw.randrange(2), spoil, said)
        lines.append(line)
        serial += JUDGE.output(key.header + b"".join(lines)).splitlines()[-2].endswith(b"G")
    return key.header + b"".join(lines)


def main():
    seed, journals = (int(word) for word in (*sys.argv[1:], *("1", "200")[len(sys.argv) - 1 :]))
    draw = random.Random(seed)
    keys = [Key(h1, h2, draw.randbytes(32)) for h1, h2 in HEIGHTS]
    with tempfile.TemporaryDirectory() as name:
        folder = pathlib.Path(name)
        program = counting(folder)
        counted(program)
        let_through(program)
        another_header(folder)
        asked = sum(judged(program, drawn(draw, keys), f"journal {n} of seed {seed}") for n in range(journals))
    print(f"links: {journals} random journals, {asked} calls, as told and judged by the model")


main()
