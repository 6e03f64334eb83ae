#!/usr/bin/env python3
"""Races the judges of one journal of good lines, one for each step, each as a process, start and reading included: build/journal, plain_journal, which
remembers the same link, and two floors: floor_journal, which only makes the two Ed25519 verifications a line that a verdict takes where nothing is
remembered, and the same with the child's alone, one a line. relay.py FOLDER [ROUNDS]: where host/bench/build left these programs."""
import os
import pathlib
import resource
import statistics
import subprocess
import sys

LINES, ROUNDS = 4_096, 51
# at most 1.1 times one verification a line; 1.8 times faster than two
AIM_OF_ONE, AIM_OF_TWO = "1.10", f"{1 / 1.8:.4f}"
ROOT = pathlib.Path(__file__).resolve().parents[2]


def run(program, source, output=subprocess.DEVNULL):
    with open(source, "rb") as lines:
        return subprocess.run([program], stdin=lines, stdout=output, check=True).stdout


def spent():
    """Seconds of processor time that all processes that ran here took."""
    used = resource.getrusage(resource.RUSAGE_CHILDREN)
    return used.ru_utime + used.ru_stime


def seconds(program, source):
    before = spent()
    run(program, source)
    return spent() - before


def check(racers):
    """The two judges must write the same, and find every line good."""
    library, plain = (run(*racer, subprocess.PIPE) for racer in racers[:2])
    if library != plain or library.count(b"\tG\n") != LINES:
        sys.exit("bench: the two judges differ, or a line is not good")


def ratio(times, others):
    """The median of what each round found: when the machine slows down for a while, it slows both."""
    return f"{statistics.median(a / b for a, b in zip(times, others)):.4f}"


def told(name, library, plain, floor, verifications, aim):
    ratios = ratio(library, floor), ratio(plain, floor), ratio(library, plain)
    print(name, *ratios, *(f"{statistics.median(t) / LINES * 1e9:.1f}" for t in (library, plain, floor)), 0, 0, verifications, aim, sep="\t")


def main():
    folder, rounds = pathlib.Path(sys.argv[1]), int(sys.argv[2]) if len(sys.argv) > 2 else ROUNDS
    journal, two, one = folder / "good.journal", folder / "two.calls", folder / "one.calls"
    with open(journal, "wb") as file:
        subprocess.run([folder / "make_journal", str(LINES), two, one], stdout=file, check=True)
    racers = [(ROOT / "build" / "journal", journal), (folder / "plain_journal", journal), (folder / "floor_journal", two), (folder / "floor_journal", one)]
    check(racers)
    times = [[] for _ in racers]
    for turn in range(rounds):
        for racer in range(turn, turn + len(racers)):
            times[racer % len(racers)].append(seconds(*racers[racer % len(racers)]))
    print(f"# journal: {LINES} good lines at heights 6 and 6, whole processes; medians of {rounds} rounds of processor time, interleaved; load {os.getloadavg()[0]:.1f}")
    library, plain, of_two, of_one = times
    told("journal line (6,6)", library, plain, of_one, 1, AIM_OF_ONE)
    told("journal, of two", library, plain, of_two, 2, AIM_OF_TWO)


main()
