"""What the races of the calls and of the journal print: lines that begin with # tell how it was raced; every other line is a work, with
tabs between: its name; the ratios of library to floor, plain C to floor and library to plain C; the nanoseconds of library, plain C and
floor; how many Ed25519 key pairs, signatures and verifications it asks for; and the aim, as a multiple of the floor. All are medians."""
import collections

PEER_AIM = 1.05

Work = collections.namedtuple("Work", "name of_floor plain_of_floor of_plain library plain floor pairs signatures verifications aim")


def read(lines):
    """The remarks, and the works."""
    remarks, works = [], []
    for line in lines:
        if line.startswith("#"):
            remarks.append(line.lstrip("# ").rstrip())
        else:
            name, *numbers = line.rstrip("\n").split("\t")
            works.append(Work(name, *map(float, numbers)))
    return remarks, works
