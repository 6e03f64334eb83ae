#!/usr/bin/env python3
"""Two windows on one key, crashed as crashes.py does it, while either has its turn: every "done" of both has to have its good line, the
two journals no other lines, the key no step that a window has not released, and no file what signs a step that is past. And both at
once, for real. Needs desk/build before."""
import os
import pathlib
import subprocess
import sys
import types

ROOT = pathlib.Path(__file__).resolve().parents[2]
sys.dont_write_bytecode = True
sys.path.insert(0, str(ROOT / "host" / "model"))
import kes
from lib import known_key
from lib.crashes import EVERYTHING, NO_FILES, Program, by_name, crash, need
from lib.known_key import H1, H2, SECRETS, TABLES
from lib.shown import Shown, need_no_past, records, shown_by
from lib.wrong_desks import WRONG_WINDOWS

WINDOWS = {"top-ups": ("journal", b"top-up"), "refunds": ("refunds", b"refund")}
# each window's events; the key moves at the second's tick, since the first has released that step before
DAY = {"top-ups": [(b"1111222233334444", 2500), 1, (b"0000000000000001", 100), 2], "refunds": [(b"1111222233334444", 300), 1, (b"9999999999999999", 5)]}
TURNS = [("top-ups", 2), ("refunds", 3), ("top-ups", 4)]


def told(window, events):
    return b"".join(b"tick %d\n" % event if isinstance(event, int) else WINDOWS[window][1] + b" %s %d\n" % event for event in events)


def money(window):
    return [event for event in DAY[window] if not isinstance(event, int)]


def rest_of_day(window, last):
    """The events after the record of this serial."""
    return DAY[window][DAY[window].index(money(window)[last - 1]) + 1 if last else 0 :]


def day():
    """The runs of a day: each window does its events up to a place, in turns."""
    done, runs = dict.fromkeys(DAY, 0), [(("make", H1, H2), b"")]
    for window, to in TURNS:
        runs.append(((window,), told(window, DAY[window][done[window] : to])))
        done[window] = to
    return runs


class Windows(Program):
    name, day, in_a_row = "windows_day", day(), 1
    seeds, secrets = [known_key.SEED], SECRETS

    def restart(self, files):
        """What people do after a crash: they make the key if there is none, let each window look, and end the day."""
        runs = [] if "key" in by_name(files) else [self.well(files, "make", H1, H2)]
        last, now = {}, runs[-1].files if runs else files
        for window in DAY:
            runs.append(self.well(now, window, told=b"tick 0\n"))
            last[window], now = Shown(runs[-1].text).last, runs[-1].files
        opened = types.SimpleNamespace(files=now, text=b"".join(ran.text for ran in runs))
        for window in DAY:
            runs.append(self.well(now, window, told=told(window, rest_of_day(window, last[window]))))
            now = runs[-1].files
        return self.again(opened, types.SimpleNamespace(files=now), runs)

    def check_left(self, files, shown):
        need_no_past(files, shown_by(shown).step)

    def check_open(self, ran, text):
        """After both have looked: three files, two good journals with all that was promised, and the key of a step that was not left."""
        files, shown = by_name(ran.files), shown_by(text)
        need(set(files) == {"journal", "refunds", "key"}, "there are other files than the journals and the key")
        good, steps = zip(*(records(files[name]) for name, _ in WINDOWS.values()))
        good, key = {record for window in good for record in window}, files["key"]
        step = int.from_bytes(key[4:8], "little")
        need(shown.records <= good, f"a journal lacks a record of {sorted(shown.records)}")
        need(good <= shown.done | shown.named | Shown(ran.text).named, "a record that was not shown as done is not named")
        need(max(shown.step, *steps) <= step <= min(kes.numbers_in(key)), "the key went back, or on past a window")
        need(key[:8] + key[16:] == TABLES[step][:8] + TABLES[step][16:], f"the key is not that of step {step}")
        need_no_past(ran.files, step)

    def check_closed(self, ran):
        files = by_name(ran.files)
        for window, (name, _) in WINDOWS.items():
            need(records(files[name])[0] == [(n, *record) for n, record in enumerate(money(window), 1)], f"at the day's end {name} lacks a record")
        need(files["key"][4:8] == b"\1\0\0\0", "at the day's end the key is not at the step that both have released")


def at_once(windows):
    """Both windows in earnest, each in a process of its own: the lock lets one in at a time."""
    windows.well(NO_FILES, "make", H1, H2)
    command, env = [windows.program, windows.work / "folder"], os.environ | {"DESK_LOG": str(windows.work / "log")}
    running = [subprocess.Popen([*command, window], env=env, stdin=subprocess.PIPE, stdout=subprocess.PIPE) for window in DAY]
    for window, process in zip(DAY, running):
        process.stdin.write(told(window, [event for n in range(50) for event in (money(window)[0], 1 + n // 10)]))
        process.stdin.close()
    need([process.wait() for process in running] == [0, 0], "a window ends early")
    for name, _ in WINDOWS.values():
        need(len(records((windows.work / "folder" / name).read_bytes())[0]) == 50, f"{name} lacks a record")
    need((windows.work / "folder" / "key").read_bytes()[4:8] == b"\5\0\0\0", "the key is not at the last step that both have released")
    return "two windows at once: 100 records in two good journals, and the key at the step that both have released"


crash(Windows, [*EVERYTHING, at_once], WRONG_WINDOWS)
