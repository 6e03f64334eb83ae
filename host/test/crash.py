#!/usr/bin/env python3
"""The example desk, crashed as crashes.py does it: every "done" has to have its good line, the journal no other lines, and no file what
signs a step that is past. Needs desk/build before."""
import os
import pathlib
import subprocess
import sys

ROOT = pathlib.Path(__file__).resolve().parents[2]
sys.dont_write_bytecode = True
sys.path.insert(0, str(ROOT / "host" / "model"))
from lib import known_key
from lib.crashes import EVERYTHING, NO_FILES, Program, by_name, crash, folder_of, need
from lib.known_key import H1, H2, SECRETS, TABLES
from lib.shown import Shown, need_no_past, records, shown_by
from lib.wrong_desks import WRONG

# The child tree is left at step 4; the fourth tick jumps over steps.
TOP_UPS = [(b"1111222233334444", 2500), (b"0000000000000001", 2_000_000), (b"1111222233334444", 1), (b"9999999999999999", 100)]
DAY = [TOP_UPS[0], 1, TOP_UPS[1], TOP_UPS[2], 3, 4, 7, TOP_UPS[3]]


def told(events):
    return b"".join(b"tick %d\n" % event if isinstance(event, int) else b"top-up %s %d\n" % event for event in events)


def rest_of_day(last):
    """The events after the top-up of this serial."""
    at = DAY.index(TOP_UPS[last - 1]) + 1 if last else 0
    return DAY[at:]


class Desk(Program):
    name = "desk_day"
    day = [(("make", H1, H2), b""), (("day",), told(DAY))]
    seeds, secrets = [known_key.SEED], SECRETS

    def restart(self, files):
        """What people do after a crash: they make the key if there is none, open the desk, read what it says, and end the day."""
        made = None if "key" in by_name(files) else self.well(files, "make", H1, H2)
        opened = self.well(made.files if made else files, "day")
        last = Shown(opened.text).last
        closed = self.well(opened.files, "day", told=told(rest_of_day(last)))
        return self.again(opened, closed, [ran for ran in (made, opened, closed) if ran])

    def check_left(self, files, shown):
        need_no_past(files, shown_by(shown).step)

    def check_open(self, ran, text):
        """After the repair: two files, a good journal with all that was promised, and the key of a step that was not left."""
        files, shown = by_name(ran.files), shown_by(text)
        need(set(files) == {"journal", "key"}, "there are other files than journal and key")
        good, last_step = records(files["journal"])
        step = int.from_bytes(files["key"][4:8], "little")
        need(shown.records <= set(good), f"the journal lacks a record of {sorted(shown.records)}")
        need(set(good) <= shown.done | shown.named | Shown(ran.text).named, "a record that was not shown as done is not named")
        need(max(shown.step, last_step) <= step, "the key went back")
        need(files["key"] == TABLES[step], f"the key is not that of step {step}")
        need_no_past(ran.files, step)

    def check_closed(self, ran):
        good, _ = records(by_name(ran.files)["journal"])
        need(good == [(n, *top_up) for n, top_up in enumerate(TOP_UPS, 1)], f"at the day's end the journal has {good}")


def refuse(desk):
    """What no crash leaves is left to people: the desk does not open, and changes nothing."""
    made, day = (whole.files for whole in desk.whole_runs())
    journal, key, first_key = by_name(day)["journal"], by_name(day)["key"], by_name(made)["key"]
    lines = journal.splitlines(keepends=True)
    for journal_now, key_now in [
        (journal, first_key),  # an old key was put back
        (journal, key[:-1]),
        (journal, key + b"\0"),
        (journal[:-3] + b"\n", key),
        (journal.replace(b"\t100\t", b"\t101\t"), key),
        (journal + b"\n", key),
        (journal + b"x" * 5000, key),
        (b"".join(lines[1:]), key),
        (b"", key),
        (journal.replace(b"kes2\t", b"kes2\t0", 1), key),
        (journal.replace(b"kes2\t%d\t%d\t" % (H1, H2), b"kes2\t", 1), key),
    ]:
        files = folder_of(journal=journal_now, key=key_now)
        ran = desk.run(files, "day", told=told(DAY))
        need(ran.status == 1 and ran.files == files and not ran.text, f"the desk opens where it must not: {ran.text!r}")
    for files in day, frozenset(file for file in day if "key" not in file[0]):
        ran = desk.run(files, "make", H1, H2)
        need(ran.status == 1 and ran.files == files, "a key is made where a desk is")
    return "the desk opens on no journal or key that a crash cannot leave"


def stop_at_old(desk):
    """A journal of the word `kes` is left as it is, and so is all that lies beside it, opened or made anew."""
    made, day = (by_name(whole.files) for whole in desk.whole_runs())
    old, alone = (files["journal"].replace(b"kes2\t", b"kes\t", 1) for files in (day, made))
    short = b"kes\t" + alone.split(b"\t")[-1]
    torn = {"key.new": day["key"][:100], "key.old": made["key"]}
    for files in folder_of(journal=old, key=day["key"], **torn), folder_of(journal=alone, key=made["key"]), folder_of(journal=alone), folder_of(journal=short):
        for words, events in (("day",), told(DAY)), (("make", H1, H2), b""):
            ran = desk.run(files, *words, told=events)
            need(ran.status == 1 and ran.files == files and not ran.text and b"begins with kes, not kes2" in ran.error, f"the desk does not stop at an old journal: {ran.error!r}")
    return "the desk stops at a journal of the word kes, and changes nothing"

def keep_out(desk):
    """A second desk is refused while the first has the folder."""
    command, env = [desk.program, desk.work / "folder", "day"], os.environ | {"DESK_LOG": str(desk.work / "log")}
    desk.well(NO_FILES, "make", H1, H2)
    with subprocess.Popen(command, env=env, stdin=subprocess.PIPE, stdout=subprocess.PIPE) as first:
        need(first.stdout.readline().startswith(b"open"), "the first desk does not open")
        second = subprocess.run(command, env=env, input=b"", capture_output=True)
        first.stdin.close()
    need(second.returncode == 1 and not second.stdout and first.returncode == 0, "two desks are open in one folder")
    return "a second desk is kept out of the folder"


if not known_key.check():
    sys.exit("crash: the search for past keys does not tell them from present ones")
crash(Desk, [*EVERYTHING, refuse, stop_at_old, keep_out], WRONG)
