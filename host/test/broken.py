#!/usr/bin/env python3
"""Where build/journal cannot read on, it writes the verdicts on the lines that it has read and no total: a failed read is not the end of the
input. Where it cannot write, it stops. Needs desk/build before."""
import os
import pathlib
import resource
import signal
import subprocess
import sys
import tempfile

ROOT = pathlib.Path(__file__).resolve().parents[2]
JOURNAL = ROOT / "build" / "journal"
HEADER = b"kes\t" + b"0" * 64 + b"\n"
VERDICTS, TOTAL = b"2\tM\n3\tM\n4\tM\n", b"total\t0\t0\n"


def need(what, said, expected):
    if said != expected:
        sys.exit(f"broken: {what}: {said!r}, not {expected!r}")
    print(f"broken: {what}: {said!r}")


def judged(what, expected, stdin):
    """What journal writes of an open file, or of none."""
    ran = subprocess.run([JOURNAL], stdin=stdin, stdout=subprocess.PIPE, timeout=60, preexec_fn=(lambda: os.close(0)) if stdin is None else None)
    need(what, (ran.returncode, ran.stdout), (0, expected))


def waiting(told):
    """A pipe with these bytes in it, its writer still open, that does not let a reader wait."""
    read, write = os.pipe()
    os.set_blocking(read, False)
    os.write(write, told)
    return read, write


def reading(folder):
    judged("a non-blocking pipe, three lines of it there", VERDICTS, waiting(HEADER + b"x\n" * 3)[0])
    judged("the same, in the middle of a line", VERDICTS, waiting(HEADER + b"x\n" * 3 + b"x")[0])
    judged("the same, in the middle of line 1", b"", waiting(HEADER[:-1])[0])
    read, write = waiting(HEADER + b"x\n" * 3)
    os.close(write)
    judged("a non-blocking pipe that has ended", VERDICTS + TOTAL, read)
    judged("a directory", b"", os.open(folder, os.O_RDONLY))
    judged("a descriptor that is open for writing alone", b"", os.open(folder / "written", os.O_WRONLY | os.O_CREAT))
    judged("a closed descriptor", b"", None)


def stopped():
    """A program that is stopped while it waits, and continued, waits on."""
    with subprocess.Popen([JOURNAL], stdin=subprocess.PIPE, stdout=subprocess.PIPE) as program:
        program.stdin.write(HEADER + b"x\n" * 3)
        program.stdin.flush()
        program.send_signal(signal.SIGSTOP)
        os.waitpid(program.pid, os.WUNTRACED)
        program.send_signal(signal.SIGCONT)
        need("stopped and continued", program.communicate(timeout=60)[0], VERDICTS + TOTAL)


def writing(folder):
    """On a full disk the program ends, however much there is to read: some of the output may be there, and no total."""
    lines = 1_000_000
    whole = b"".join(b"%d\tM\n" % n for n in range(2, lines + 2))
    (folder / "long").write_bytes(HEADER + b"\n" * lines)
    for room in 0, 1, 20_000, len(whole):
        with open(folder / "long", "rb") as told, open(folder / "out", "wb") as out:
            full = lambda: (signal.signal(signal.SIGXFSZ, signal.SIG_IGN), resource.setrlimit(resource.RLIMIT_FSIZE, (room, room)))
            status = subprocess.run([JOURNAL], stdin=told, stdout=out, timeout=60, preexec_fn=full).returncode
        said = (folder / "out").read_bytes()
        need(f"room for {room} bytes", (status, len(said), said == whole[:room]), (0, room, True))
    with open("/dev/full", "wb") as full, open(folder / "long", "rb") as told:
        need("a device that is full", subprocess.run([JOURNAL], stdin=told, stdout=full, timeout=60).returncode, 0)
        need("which ends the reading too", os.lseek(told.fileno(), 0, os.SEEK_CUR) < 100_000, True)


with tempfile.TemporaryDirectory() as name:
    reading(pathlib.Path(name))
    stopped()
    writing(pathlib.Path(name))
