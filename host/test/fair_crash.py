#!/usr/bin/env python3
"""A fair's day at the example desk, crashed as crashes.py does it: every receipt and every "done" has to have its good line, no step is
sold twice, no file signs what is past, and the desk's key has moved on before the first sale, but not before the certificate is on the
disk. Needs desk/build before."""
import functools
import pathlib
import re
import subprocess
import sys
import tempfile

ROOT = pathlib.Path(__file__).resolve().parents[2]
sys.dont_write_bytecode = True
sys.path.insert(0, str(ROOT / "host" / "model"))
from lib import known_fair, known_key
from lib.crashes import EVERYTHING, Program, by_name, crash, folder_of, forget, keep_promises, need
from lib.known_fair import CHECKER, MORNING
from lib.known_key import H1, H2, TABLES
from lib.wrong_desks import WRONG_ENDS, WRONG_FAIRS

SALES = [(b"1111222233334444", 250), (b"0000000000000001", 2_000_000)]
JOURNAL = b"kes2\t%d\t%d\t%s\n" % (H1, H2, CHECKER.key.hex().encode())


def told(sales):
    return b"".join(b"sale %s %d\n" % sale for sale in sales)


def sold(files):
    """The lines of the fair's file after its first."""
    return by_name(files).get("fair", b"").splitlines(keepends=True)[1:]


def step_of(key):
    return int.from_bytes(key[4:8], "little")


class Shown:
    """What people at the fair have seen: sales that are done, named or on a receipt, the steps of desk and fair, and the next sale's."""

    def __init__(self, text):
        seen = [(kind, (int(step), card, int(cents))) for kind, step, card, cents in re.findall(rb"^(.*): step (\d+), card (\d+), (\d+) cents", text, re.M)]
        printed = re.findall(rb"^receipt: \d+\t(\d+)\t(\d+)\t(\d+)\t", text, re.M)
        self.sales = {sale for _, sale in seen} | {(int(step), card, int(cents)) for step, card, cents in printed}
        self.done = {sale for kind, sale in seen if kind == b"done"}
        self.named = {sale for kind, sale in seen if kind == b"last sale"}
        self.opened = int(re.findall(rb"^open: step (\d+)", b"open: step %d\n" % MORNING + text, re.M)[-1])
        self.desk_step = max(map(int, re.findall(rb"^step: (\d+)", text, re.M)), default=self.opened)
        self.next = max(map(int, re.findall(rb"^fair: next sale is step (\d+)", text, re.M)), default=0)


@functools.cache
def shown_by(text):
    return Shown(text)


@functools.cache
def certificate(fair):
    """What the first line of the fair's file certifies, or None."""
    return CHECKER.certificate(fair.partition(b"\n")[0] + b"\n")


@functools.cache
def sales_of(fair, check):
    """A fair's sales, all of them good by the program and by the model."""
    found = [CHECKER.sale(certificate(fair), line) for line in fair.splitlines(keepends=True)[1:]]
    need(None not in found, "a sale in the fair's file is not good")
    said = check(fair) if found else b""
    need(said == b"".join(b"desk %s, desk step %d, sale step %d: card %s, %d cents\n" % (CHECKER.key.hex().encode(), certificate(fair)[2], *sale) for sale in found), f"fair_check says {said!r}")
    return found


@functools.cache
def fair_check():
    """What fair_check says of a fair's file."""
    folder = tempfile.TemporaryDirectory()
    work = pathlib.Path(folder.name)
    subprocess.run([ROOT / "host" / "desk" / "compile", work / "fair_check"], check=True)
    (work / "journal").write_bytes(JOURNAL)

    def check(fair, folder=folder):
        (work / "fair").write_bytes(fair)
        return subprocess.run([work / "fair_check", work / "journal", work / "fair"], input=fair.partition(b"\n")[2], stdout=subprocess.PIPE).stdout

    return check


class Fair(Program):
    name = "fair_day"
    start = folder_of(key=TABLES[MORNING], journal=JOURNAL)
    random, seeds, secrets = known_fair.RANDOM, [known_fair.MASTER], [*known_key.SECRETS, *known_fair.SEEDS]
    entries, sales = 2, SALES[:1]  # the evening comes before the last step is sold

    def __init__(self, root, work):
        super().__init__(root, work)
        self.day = [(("morning", self.entries), b""), (("day",), told(self.sales)), (("evening",), b"")]
        self.caches, _ = known_fair.caches(self.entries)

    def restart(self, files):
        """What people do after a crash: they begin the fair if it did not begin, open it, read what it says, and end the day."""
        runs = []

        def go(*words, **more):
            runs.append(self.well(runs[-1].files if runs else files, *words, **more))
            return runs[-1]

        if "cache" not in by_name(files) and not sold(files):
            need(by_name(self.well(files, "evening").files).keys() <= {"journal", "key", "fair"}, "a morning that is given up leaves other files")
            files = go("morning", self.entries).files
        opened = go("day") if "cache" in by_name(files) else go("evening")
        if "cache" in by_name(opened.files):
            go("day", told=told(self.sales[Shown(opened.text).next :]))
        return self.again(opened, go("evening"), runs)

    def need_no_past(self, files, desk_step, step):
        for names, data in files:
            need(not known_key.signs_past(data, desk_step), f"{set(names)} can sign a step of the desk before {desk_step}")
            need(not known_fair.signs_past(data, step), f"{set(names)} can sign a sale before {step}")

    def check_left(self, files, text):
        """Whatever a crash leaves: where the key has moved on, the certificate is there; where a cache can sell, the key has moved on."""
        shown, named = shown_by(text), by_name(files)
        self.need_no_past(files, shown.desk_step, shown.next)
        step, certified = step_of(named["key"]), certificate(named.get("fair", b""))
        need(step == shown.opened or (certified and certified[2] == shown.opened), "the desk's key has moved on and the certificate is not on the disk")
        need("cache" not in named or (certified and certified[2] < step), "a cache can sell and the desk's key has not moved on")

    def check_open(self, ran, text):
        """After the repair: good sales, one a step, with all that was promised, and the cache of the next step."""
        files, shown, now = by_name(ran.files), shown_by(text), Shown(ran.text)
        need(set(files) - {"cache"} == {"journal", "key", "fair"}, "there are other files than those of desk and fair")
        good = sales_of(files["fair"], fair_check())
        need([step for step, *_ in good] == list(range(len(good))), "the sales are not one a step")
        need(shown.sales <= set(good), f"the fair's file lacks a sale of {sorted(shown.sales)}")
        need(set(good) <= shown.done | shown.named | now.named, "a sale that was not shown as done is not named")
        need("cache" not in files or files["cache"] in self.caches[len(good) :][:1], "the cache is not that of the next sale")
        step = step_of(files["key"])
        need(files["key"] == TABLES[step] and files["journal"] == JOURNAL, "key or journal of the desk is not as it should be")
        self.need_no_past(ran.files, step, len(good))

    def check_closed(self, ran):
        files = by_name(ran.files)
        good = sales_of(files["fair"], fair_check())
        need([tuple(sale) for _, *sale in good] == self.sales, f"at the day's end the fair's file has {good}")
        need(set(files) == {"journal", "key", "fair"}, "at the day's end there are other files than key, journal and fair")


class Sold(Fair):
    """A fair whose last step is sold, which ends it."""

    sales, in_a_row = SALES, 1


class Long(Fair):
    """A fair whose first cache is two steps old."""

    entries, sales = 3, SALES


def refuse(desk):
    """What no crash leaves is left to people: the fair does not open, and changes nothing."""
    made, day, _ = desk.whole_runs()
    key, cache, fair = (by_name(day.files)[name] for name in ("key", "cache", "fair"))
    first = fair.splitlines(keepends=True)[0]
    for key_now, cache_now, fair_now in [
        (TABLES[MORNING], cache, fair),  # an old key, which could certify another cache at the same step
        (key, by_name(made.files)["cache"], fair),  # an old cache
        (key, cache, first),  # sales are missing
        (key, cache, fair[:-2] + b"\n"),
        (key, cache, fair.replace(b"\t2000000\t", b"\t1999999\t")),
        (key, cache, fair.replace(b"fair\t3", b"fair\t2")),
        (key, cache, fair + b"\n"),
        (key, cache, fair + b"x" * 5000),
        (key, cache, fair[len(first) :]),
        (key, cache, b""),
        (key, cache[:-1], fair),
        (key, cache + b"\0", fair),
        (key, b"\1", fair),
        (key, bytes(len(cache)), fair),
    ]:
        files = folder_of(key=key_now, cache=cache_now, fair=fair_now, journal=JOURNAL)
        ran = desk.run(files, "day", told=told(SALES))
        need(ran.status == 1 and ran.files == files and b"receipt" not in ran.text, f"the fair opens where it must not: {ran.text!r}")
    last_step = folder_of(key=TABLES[-1], journal=JOURNAL)
    for files in made.files, day.files, frozenset(file for file in day.files if "cache" not in file[0]), last_step:
        ran = desk.run(files, "morning", desk.entries)
        need(ran.status == 1 and ran.files == files, "a fair begins where it must not")
    return "the fair opens on no file that a crash cannot leave, and begins on none of an earlier one"


crash(Fair, EVERYTHING, WRONG_FAIRS)
crash(Sold, [keep_promises, forget], WRONG_ENDS)
crash(Long, [refuse])
