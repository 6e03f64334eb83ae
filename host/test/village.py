#!/usr/bin/env python3
"""What host/village_day.c tells of a key of three trees, by the model's counts and sizes: at low and at the greatest heights, where a key does
not last a year and where it lasts many; what it does not understand does nothing. And docs/HOST.md's table of heights and years says the same.
Needs desk/build before."""
import pathlib
import re
import subprocess
import sys
import tempfile

ROOT = pathlib.Path(__file__).resolve().parents[2]
sys.dont_write_bytecode = True
sys.path.insert(0, str(ROOT / "host" / "model"))
import kes
import standin

MODEL = kes.Scheme(kes.Module(standin))
ASKED = [(0, 0, 0, 5), (1, 1, 1, 1440), (6, 6, 6, 5), (7, 7, 6, 5), (8, 0, 3, 15), (8, 8, 8, 1)]
WRONG = [["9", "0", "0", "5"], ["0", "9", "0", "5"], ["0", "0", "9", "5"], ["1", "1", "1", "0"], ["1", "1", "1", "1441"], ["1", "1", "1"], ["1", "1", "x", "5"], ["1", "-1", "1", "5"]]


def told(*heights, minutes):
    end = kes.steps(*heights)
    days = end * minutes // 1440
    yield f"{end} steps of {minutes} minutes: {days // 365} years and {days % 365} days"
    yield f"made with {MODEL.count_grown(heights, 0)} key pairs; a table of {kes.table_size(*heights)} bytes, signatures of {kes.signature_size(*heights)}"
    yield "the first step: signed and verified"
    now = 0
    for when, step in ("the next", 1), ("a year later", 365 * 1440 // minutes), ("the last", end - 1):
        if 0 < step < end:
            count = MODEL.count_moved(heights, now, step) if step > now else 0
            now = max(now, step)
            yield f"{when}, step {step}: {count} key pairs, signed and verified"


def lasts(steps, minutes):
    """Rounded down: days below a year, tenths of years below ten."""
    days = steps * minutes / 1440
    years = days / 365.25
    if days < 365:
        return f"{int(days)} days"
    return "longer" if years > 1000 else f"{int(10 * years) / 10} years" if years < 10 else f"{int(years)} years"


def documented():
    """The rows of docs/HOST.md; answers how many there are."""
    rows = re.findall(r"^\| ((?:\d+, )+\d+) \| (\d.*) \|$", (ROOT / "docs" / "HOST.md").read_text(), re.M)
    for words, row in rows:
        heights = tuple(map(int, words.split(", ")))
        end = kes.steps(*heights)
        numbers = [MODEL.count_grown(heights, 0), MODEL.count_moved(heights, 0, end - 1), kes.table_size(*heights), kes.signature_size(*heights)]
        expected = [f"{end:,}", *(lasts(end, minutes) for minutes in (1, 5, 15, 60)), *(f"{number:,}" for number in numbers)]
        if row.split(" | ") != expected:
            sys.exit(f"village: docs/HOST.md has {row} for heights {words}, not {expected}")
    return len(rows)


with tempfile.TemporaryDirectory() as folder:
    program = pathlib.Path(folder) / "village_day"
    subprocess.run([ROOT / "host" / "desk" / "compile", program], check=True)
    for *heights, minutes in ASKED:
        ran = subprocess.run([program, *map(str, heights), str(minutes)], capture_output=True, text=True)
        expected = "".join(line + "\n" for line in told(*heights, minutes=minutes))
        if (ran.returncode, ran.stdout, ran.stderr) != (0, expected, ""):
            sys.exit(f"village: {heights}, {minutes} minutes: {ran}, not {expected}")
    for words in WRONG:
        ran = subprocess.run([program, *words], capture_output=True, text=True)
        if ran.returncode != 2 or ran.stdout:
            sys.exit(f"village: {words} is understood: {ran}")
rows = documented()
if rows < 5:
    sys.exit("village: docs/HOST.md has no table of heights")
print(f"village: {len(ASKED)} keys of three trees last, cost and sign as the model has it, and so do the {rows} of docs/HOST.md")
