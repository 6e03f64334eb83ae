"""What a desk showed and wrote, for the crash tests of one window and of two."""
import functools
import pathlib
import re
import subprocess

from . import known_key
from .crashes import need
from .known_key import SCHEME
from journal import Judge

ROOT = pathlib.Path(__file__).resolve().parents[3]
JUDGE = Judge(SCHEME)


class Shown:
    """What people at the desk have seen: records that are done or on a chip or called stored, and the step."""

    def __init__(self, text=b""):
        found = [(kind, (int(serial), card, int(cents))) for kind, serial, card, cents in re.findall(rb"^(.*): serial (\d+), card (\d+), (\d+) cents", text, re.M)]
        self.records = frozenset(record for _, record in found)
        self.done = frozenset(record for kind, record in found if kind == b"done")
        self.last = max((record[0] for kind, record in found if kind == b"last record"), default=0)
        self.named = frozenset(record for kind, record in found if kind == b"last record")
        self.step = max(map(int, re.findall(rb"^(?:step|open: step)[: ]+(\d+)", text, re.M)), default=0)


@functools.cache
def shown_by(text):
    return Shown(text)


@functools.cache
def records(journal):
    """A journal's records, all of them good by the program and by the model."""
    said = subprocess.run([ROOT / "build" / "journal"], input=journal, stdout=subprocess.PIPE, check=True).stdout
    need(said == JUDGE.output(journal), "the program and the model judge the journal differently")
    lines = [line.split(b"\t") for line in journal.splitlines()[1:]]
    total = sum(int(line[3]) for line in lines if len(line) == 5)
    expected = b"".join(b"%d\tG\n" % n for n in range(2, len(lines) + 2)) + b"total\t%d\t%d\n" % (len(lines), total)
    need(said == expected, f"the journal is not good: {said!r}")
    return [(int(line[2]), line[1], int(line[3])) for line in lines], max((int(line[0]) for line in lines), default=0)


@functools.cache
def need_no_past(files, step):
    for names, data in files:
        need(not known_key.signs_past(data, step), f"{set(names)} can sign a step before {step}")
