"""Crashes a program of the example desk at every point between two of its system calls, twice in a row: killed, or by a power cut that
loses or tears what was not synced. Each time people start it again and end their day, and nothing that was promised may be broken.
Programs that work in a wrong order have to be caught. Needs desk/build before."""
import copy
import functools
import itertools
import os
import pathlib
import re
import shutil
import subprocess
import sys
import tempfile
import time
import types

from .disk import Disk

ROOT = pathlib.Path(__file__).resolve().parents[3]
NO_FILES = frozenset()
NOT_REACHED, REACHED = b"module not reached: keep cash and card apart until it is back\n", b"module reached again\n"


class Wrong(Exception):
    """The desk does not keep what it promises."""


def need(holds, why):
    if not holds:
        raise Wrong(why)


# Folders.


def by_name(files):
    return {name: data for names, data in files for name in names}


def folder_of(**files):
    return frozenset((frozenset([name]), data) for name, data in files.items())


def lay_out(files, folder):
    shutil.rmtree(folder, ignore_errors=True)
    folder.mkdir()
    for names, data in files:
        first, *others = sorted(names)
        (folder / first).write_bytes(data)
        (folder / first).chmod(0o600)
        for name in others:
            os.link(folder / first, folder / name)


def found(folder):
    paths = list(folder.iterdir())
    return frozenset((frozenset(other.name for other in paths if other.samefile(path)), path.read_bytes()) for path in paths)


# The program under test.


class Program:
    """A compiled program, and what comes of each folder that it is given. A kind of it says what people do with it and what it promises:
    restart, check_left, check_open and check_closed. day is a whole one, run by run: words, and what it is told."""

    name, start, day, in_a_row = None, NO_FILES, (), 2
    random, seeds, secrets = 0, (), ()  # where random bytes begin, what is made of them, and what no freed block may hold

    def __init__(self, root, work):
        self.work, self.program = work, work / self.name
        power = ROOT / "host" / "test" / "lib" / "power.c"
        wraps = [f"-Wl,--wrap={name}" for name in re.findall(r"^BOTH\((\w+)\);", power.read_text(), re.M)]
        subprocess.run([root / "host" / "desk" / "compile", self.program, "-O0", power, *wraps], check=True)
        self.restart = functools.cache(self.restart)
        self.checked, self.explored = set(), set()

    def run(self, files, *words, told=b"", **trouble):
        """One run of the program over these files, which is told this."""
        folder, log = self.work / "folder", self.work / "log"
        lay_out(files, folder)
        log.write_text("")
        env = os.environ | {"DESK_LOG": str(log), "DESK_RANDOM": str(self.random)} | {name: str(value) for name, value in trouble.items()}
        ran = subprocess.run([self.program, folder, *map(str, words)], input=told, env=env, capture_output=True)
        return types.SimpleNamespace(status=ran.returncode, text=ran.stdout, error=ran.stderr, calls=log.read_text().splitlines(), files=found(folder))

    def well(self, *args, **more):
        ran = self.run(*args, **more)
        need(ran.status == 0, f"the desk does not go on: {ran.error!r}")
        return ran

    def whole_runs(self):
        """The runs of a whole day, each with the files it was given and what was shown before it."""
        runs, files, before = [], self.start, b""
        for words, told in self.day:
            ran = self.well(files, *words, told=told)
            runs.append(types.SimpleNamespace(given=files, words=words, told=told, before=before, **vars(ran)))
            files, before = ran.files, before + ran.text
        return runs

    def again(self, opened, closed, runs):
        """What a restart comes to: the run that repairs, the one that ends the day, and all calls on the way."""
        return types.SimpleNamespace(opened=opened, closed=closed, calls=[call for ran in runs for call in ran.calls])

    def check(self, files, shown):
        """A crash left these files, after the desk had shown this."""
        if (files, shown) in self.checked:
            return
        self.checked.add((files, shown))
        self.check_left(files, shown)
        again = self.restart(files)
        self.check_open(again.opened, shown)
        self.check_closed(again.closed)

    def explore(self, disk, crashes):
        """Crashes the desk at every point from here to the end of its day, so often in a row."""
        key = disk.seen(), frozenset(disk.left()), disk.shown, crashes
        if key in self.explored:
            return
        self.explored.add(key)
        self.crash(disk, crashes)
        for call in self.restart(disk.seen()).calls:
            if disk.do(call):
                self.crash(disk, crashes)

    def crash(self, disk, crashes):
        """Crashes the desk at this point, and so often from then on."""
        need(not any(secret in data for secret in self.secrets for data in disk.stray()), "freed blocks hold a key")
        folders = disk.left() | {disk.seen()}
        for files in folders:
            self.check(files, disk.shown)
        if crashes > 1:
            for files in folders:
                self.explore(Disk(files, disk.shown), crashes - 1)
            # killed, with the power on: what was not synced can still be lost later
            self.explore(copy.deepcopy(disk), crashes - 1)


# What is asked of it.


def keep_promises(desk):
    """One crash first, which tells most of it; then two."""
    for crashes in range(1, desk.in_a_row + 1):
        desk.explore(Disk(desk.start), crashes)
    return f"{len(desk.checked)} crashes, {' or '.join(['one', 'two'][: desk.in_a_row])} in a row: every promise is kept"


def each_call(desk):
    """Each call of each whole run, and the run."""
    return [(whole, n, call) for whole in desk.whole_runs() for n, call in enumerate(whole.calls, 1)]


def stop_for_real(desk):
    """At each call the process is ended in earnest: the folder and the display are as the model of the disk has them."""
    calls = each_call(desk)
    for whole, n, call in calls:
        disk = Disk(whole.given) if n == 1 else disk
        ran = desk.run(whole.given, *whole.words, told=whole.told, DESK_STOP=n)
        need(ran.calls == whole.calls[: n - 1] and ran.files == disk.seen() and ran.text == disk.shown, f"stopped before call {n}, {call.split()[0]}, the desk leaves something else than the model")
        disk.do(call)
    return f"stopped for real before each of {len(calls)} calls of a day, the desk leaves what the model says"


def fail(desk):
    """Each call fails in turn: the desk ends, says so, and leaves no more than a crash would."""
    calls = each_call(desk)
    for whole, n, call in calls:
        ran = desk.run(whole.given, *whole.words, told=whole.told, DESK_FAIL=n)
        need(ran.status == 1 and ran.error, f"call {n}, {call.split()[0]}, fails and the desk goes on")
        desk.check(ran.files, whole.before + ran.text)
    return f"where any of {len(calls)} calls of a day fails, the desk ends, and no promise is broken"


def without(text, calls):
    """What was shown and called besides the lines of a module that is out of reach and back."""
    lines = [line.hex() for line in (NOT_REACHED, REACHED)]
    return text.replace(NOT_REACHED, b"").replace(REACHED, b""), [call for call in calls if call.split()[-1] not in lines]


def go_unanswered(desk):
    """The module drops out at each asking in turn, for two in a row: the desk says so once and waits; then it has lost nothing."""
    drops = 0
    for whole in desk.whole_runs():
        for n in itertools.count(1):
            ran = desk.run(whole.given, *whole.words, told=whole.told, DESK_SILENT=n)
            if (ran.text, ran.calls) == (whole.text, whole.calls):
                break
            drops += 1
            need(ran.status == 0, f"the desk does not wait for the module: {ran.error!r}")
            need((ran.text.count(NOT_REACHED), ran.text.count(REACHED)) == (1, 1), "the desk does not say that the module is out of reach")
            need((*without(ran.text, ran.calls), ran.files) == (whole.text, whole.calls, whole.files), "a module that drops out changes what the desk does")
    need(drops > 0, "the module was never asked")
    return f"the module drops out at each of {drops} askings of a day: the desk waits, and loses nothing"


def break_off(desk):
    """Calls broken off by signals, reads and writes in pieces: all is as ever."""
    for whole in desk.whole_runs():
        ran = desk.run(whole.given, *whole.words, told=whole.told, DESK_BROKEN=1)
        need((ran.status, ran.text, ran.files) == (0, whole.text, whole.files), f"broken calls change what comes of {whole.words[0]}")
        need(len(ran.calls) > len(whole.calls), "no call was broken")
    return "calls broken off and done in pieces change nothing"


def forget(desk):
    """When the desk has ended, well or not, its variables hold no secret."""
    memory = desk.work / "memory"
    for whole in desk.whole_runs():
        for trouble in {}, {"DESK_FAIL": len(whole.calls)}:
            memory.unlink(missing_ok=True)
            desk.run(whole.given, *whole.words, told=whole.told, DESK_MEMORY=memory, **trouble)
            need(not any(secret in memory.read_bytes() for secret in [*desk.seeds, *desk.secrets]), f"after {whole.words[0]} the memory holds a secret")
    return "when the desk has ended, its variables hold no secret"


EVERYTHING = [keep_promises, stop_for_real, fail, go_unanswered, break_off, forget]


def planted(name, work, edits):
    """A copy of the sources with these edits."""
    shutil.copytree(ROOT / "host" / "desk", work / "host" / "desk")
    shutil.copy(ROOT / "host" / f"{name}.c", work / "host")
    for other in "include", "build":
        (work / other).symlink_to(ROOT / other)
    for old, new in edits:
        sources = [path for path in (work / "host" / "desk").glob("*.c") if old in path.read_text()]
        if len(sources) != 1 or sources[0].read_text().count(old) != 1:
            sys.exit(f"crash: this text does not stand once in the desk's sources:\n{old}")
        sources[0].write_text(sources[0].read_text().replace(old, new))
    return work


def catch(kind, what, said, edits):
    with tempfile.TemporaryDirectory() as folder:
        work = pathlib.Path(folder)
        desk = kind(planted(kind.name, work, edits), work)
        try:
            for ask in forget, keep_promises, go_unanswered:
                ask(desk)
        except Wrong as wrong:
            if said in str(wrong):
                return
            sys.exit(f"crash: {what}: {wrong}, not: {said}")
        sys.exit(f"crash: not noticed: {what}")


def crash(kind, asks, wrong_desks=()):
    """Asks all of a program, and that wrong ones are caught."""
    began = time.time()
    try:
        with tempfile.TemporaryDirectory() as folder:
            desk = kind(ROOT, pathlib.Path(folder))
            for ask in asks:
                print("crash:", ask(desk))
    except Wrong as wrong:
        sys.exit(f"crash: {wrong}")
    for wrong_desk in wrong_desks:
        catch(kind, *wrong_desk)
    print(f"crash: wrong desks that are caught: {len(wrong_desks)} ({time.time() - began:.0f} s)")
