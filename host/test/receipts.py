#!/usr/bin/env python3
"""fair_check against the independent model: good receipts, and certificates and receipts that were changed, character by character and
bit by bit, or made by somebody else. Needs desk/build before."""
import functools
import pathlib
import subprocess
import sys
import tempfile

ROOT = pathlib.Path(__file__).resolve().parents[2]
sys.dont_write_bytecode = True
sys.path.insert(0, str(ROOT / "host" / "model"))
import kes
import sodium
from desk import Desk
from fair import Fair, cache_size
from frames import flipped
from receipt import Checker, certificate_line, certificate_text, sale_line, sale_message, short, unshort

MODULE = kes.Module(sodium)
SCHEME, FAIR = kes.Scheme(MODULE), Fair(MODULE)
CARD, STEP = b"1111222233334444", 5


class Stall:
    """A desk at a fair, in the model."""

    def __init__(self, name, h1=1, h2=2, n=3, step=STEP, master=None):
        self.desk, self.n, self.step = Desk(SCHEME, h1, h2, kes.H(name), b"kes2"), n, step
        self.key = bytes.fromhex(self.desk.key.decode())
        self.cache, key = bytearray(cache_size(n)), bytearray(32)
        FAIR.make(n, bytearray(kes.H(name + b" master")), bytearray(b"".join(kes.H(name + b" seed %d" % i) for i in range(n))), self.cache, key)
        self.master = master or bytes(key)
        signature = bytes.fromhex(self.desk.signature(step, certificate_text(n, self.master)).decode())
        self.certificate = certificate_line(n, self.master, step, signature)
        self.checker = Checker(SCHEME, FAIR, h1, h2, self.key)

    @property
    def header(self):
        return self.desk.header + b"\n"

    def signature(self, step, card=CARD, cents=250):
        cache, signature = bytearray(self.cache), bytearray(160)
        FAIR.move(cache, step)
        FAIR.sign(cache, sale_message(self.key, self.step, card, cents), signature)
        return bytes(signature)

    def receipt(self, step, card=CARD, cents=250):
        return sale_line(self.step, step, card, cents, self.signature(step, card, cents))

    def said(self, certificate, receipts):
        """What the model has fair_check say of these receipts, a line or None each; None where the certificate is refused."""
        certified = self.checker.certificate(certificate)
        return certified and [sale and b"desk %s, desk step %d, sale step %d: card %s, %d cents" % (self.desk.key, certified[2], *sale) for sale in (self.checker.sale(certified, line) for line in receipts)]


class Program:
    def __init__(self, work):
        self.work = work
        subprocess.run([ROOT / "host" / "desk" / "compile", work / "fair_check"], check=True)

    def run(self, *words, told=b""):
        return subprocess.run([self.work / "fair_check", *words], input=told, capture_output=True)

    def ask(self, header, certificate, receipts):
        (self.work / "desk").write_bytes(header)
        (self.work / "fair").write_bytes(certificate)
        return self.run(self.work / "desk", self.work / "fair", told=b"".join(receipts))

    def judge(self, stall, certificate, receipts):
        """The program's word on receipts, which has to be the model's; answers how many are good."""
        ran, said = self.ask(stall.header, certificate, receipts), stall.said(certificate, receipts)
        good = [line for line in said or [] if line]
        assert ran.stdout.splitlines() == good, (certificate, ran.stdout, good)
        assert ran.returncode == (0 if said and None not in said else 1), ran
        refused = [f"receipt {n}:" for n, line in enumerate(said, 1) if line is None] if said is not None else ["fair: "]
        assert len(ran.stderr.splitlines()) == len(refused) and all(word in line for word, line in zip(refused, ran.stderr.decode().splitlines())), ran.stderr
        return len(good)


def characters_changed(line):
    """The line with each character changed in a few ways, dropped or doubled; no LF is added, so each stays one line."""
    for at, c in enumerate(line[:-1]):
        for other in {c ^ 1, c ^ 32, ord("0"), ord(" "), 0, 255} - {c, 10}:
            yield line[:at] + bytes([other]) + line[at + 1 :]
        yield line[:at] + line[at + 1 :]
        yield line[: at + 1] + line[at:]


def good_ones(program):
    """At small and at document 01's own heights, at the first step and at the last of 256."""
    assert len(short(bytes(160))) == 214 and len(short(bytes(608))) == 811
    small, large = Stall(b"small"), Stall(b"large", 6, 6, 256, 4000)
    assert certificate_text(3, small.master)[:1].isalpha()
    receipts = {small: [small.receipt(step) for step in range(3)], large: [large.receipt(0, b"0" * 16, 1), large.receipt(255, b"9" * 16, 2_000_000)]}
    for stall, lines in receipts.items():
        assert program.judge(stall, stall.certificate, lines) == len(lines)
    return sum(map(len, receipts.values()))


def changed_receipts(program):
    """No changed one is good; a change back to what it was would be, and is left out."""
    stall = Stall(b"small")
    line = stall.receipt(1)
    lines = [*characters_changed(line), *(sale_line(STEP, 1, CARD, 250, flipped(stall.signature(1), bit)) for bit in range(1280))]
    assert line not in lines and program.judge(stall, stall.certificate, lines) == 0
    return len(lines)


def changed_certificates(program):
    stall = Stall(b"small")
    lines = [*characters_changed(stall.certificate)][::10]
    assert all(program.judge(stall, line, [stall.receipt(1)]) == 0 for line in lines)
    return len(lines)


def foreign_ones(program):
    """Receipts and certificates that are well formed, and another step's, sale's, fair's or desk's."""
    stall, other, later = Stall(b"small"), Stall(b"other"), Stall(b"small", step=STEP + 1)
    signature = stall.signature(1)
    wrong = [sale_line(STEP, 0, CARD, 250, signature), sale_line(STEP, 2, CARD, 250, signature), sale_line(STEP, 3, CARD, 250, signature)]
    wrong += [sale_line(STEP, 1, CARD, 251, signature), sale_line(STEP, 1, CARD[:-1] + b"5", 250, signature), sale_line(STEP + 1, 1, CARD, 250, signature)]
    wrong += [sale_line(STEP, 1, CARD, 250, stall.signature(0)[:96] + signature[96:]), other.receipt(1), later.receipt(1)]
    assert program.judge(stall, stall.certificate, wrong) == 0
    for certificate in other.certificate, later.certificate.replace(b"\t%d\t" % (STEP + 1), b"\t%d\t" % STEP), stall.certificate.replace(b"fair\t3", b"fair\t4"):
        assert program.judge(stall, certificate, [stall.receipt(1)]) == 0
    # a desk that certifies another's master key does not get its sales
    thief = Stall(b"thief", master=stall.master)
    assert program.judge(thief, thief.certificate, [stall.receipt(1)]) == 0
    return len(wrong) + 4


def malformed(program):
    """Fields, ends and spare bits that only look right."""
    stall = Stall(b"small")
    line = stall.receipt(1)
    head, _, form = line[:-1].rpartition(b"\t")
    spare = form[:-1] + bytes([form[-1] + 1])
    assert unshort(spare, 160) is None
    lines = [line[:-1] + b"\r\n", b"\n", line.replace(b"\t", b" "), b"0" + line, b"+" + line, b"\t" + line, line[:-1] + b"=\n", line[:-1] + b"\t\n"]
    lines += [head + b"\t" + spare + b"\n", head + b"\t" + stall.signature(1).hex().encode() + b"\n", b"x" * 5000 + b"\n", stall.certificate]
    lines += [b"%d\t%d\t%s\t%d\t%s\n" % (*numbers, form) for numbers in [(STEP, 1, CARD[1:], 250), (STEP, 1, CARD + b"0", 250), (STEP, 256, CARD, 250), (STEP, 1, CARD, 0), (STEP, 1, CARD, 2_000_001), (2**64 - 1, 1, CARD, 250)]]
    lines += [b"-1\t-1\t%s\t-1\t%s\n" % (CARD, form), line[:-1]]
    assert program.judge(stall, stall.certificate, lines) == 0
    certificates = [b"", b"\n", stall.certificate[:-1], stall.certificate.replace(b"\t3\t", b"\t0\t"), stall.certificate.replace(b"\t3\t", b"\t257\t"), stall.certificate.replace(b"\t5\t", b"\t8\t"), line, stall.header]
    assert all(program.judge(stall, certificate, [line]) == 0 for certificate in certificates)
    return len(lines) + len(certificates)


def wrongly_asked(program):
    """Headers that are none, files that are not there, no receipts."""
    stall = Stall(b"small")
    key = stall.desk.key
    headers = [b"", b"kes\n", b"kes\t%s" % key, b"kes\t%s\n" % key.upper(), b"kes\t01\t2\t%s\n" % key, b"kes\t13\t2\t%s\n" % key, b"kes\t1\t%s\n" % key, b"kes\t1\t2\t%s0\n" % key, b"kes\t-1\t2\t%s\n" % key]
    headers += [b"%s\t1\t2\t%s\n" % (word, key) for word in (b"KES2", b"kes1", b"kes3", b"kes22", b"kes 2")] + [b"kes2\n", b"kes2\t%s" % key, b"kes2\t1\t%s\n" % key]
    for ran in [program.ask(header, stall.certificate, [stall.receipt(1)]) for header in headers] + [program.ask(stall.header, stall.certificate, []), program.run("none", "none")]:
        assert ran.returncode == 1 and not ran.stdout and ran.stderr.count(b"\n") == 1, ran
    assert all(program.run(*words).returncode == 2 for words in [(), ("one",), ("one", "two", "three")])
    return len(headers) + 5


def every_header(program):
    """A desk's line 1 in each of its forms, that of an old journal too."""
    sixes, tall = Stall(b"large", 6, 6, 1, 0), Stall(b"tall", 8, 4, 1, 0)
    headers = [(b"kes\t6\t6\t", sixes), (b"kes\t", sixes), (b"kes2\t6\t6\t", sixes), (b"kes2\t8\t4\t", tall), (b"kes2\t", tall)]
    assert all(program.ask(b"%s%s\n" % (head, stall.desk.key), stall.certificate, [stall.receipt(0)]).returncode == 0 for head, stall in headers)
    assert all(program.ask(b"%s%s\n" % (head, stall.desk.key), stall.certificate, [stall.receipt(0)]).returncode == 1 for head, stall in [(b"kes\t", tall), (b"kes2\t", sixes)])
    return len(headers) + 2


def main():
    Stall.receipt = functools.cache(Stall.receipt)
    with tempfile.TemporaryDirectory() as folder:
        program = Program(pathlib.Path(folder))
        for ask in good_ones, changed_receipts, changed_certificates, foreign_ones, malformed, wrongly_asked, every_header:
            print(f"receipts: {ask.__name__.replace('_', ' ')}: {ask(program)}")


main()
