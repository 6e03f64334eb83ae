"""fullheader, a second time from the text of request 10, sharing no code."""
from journal import GAPS, unhex


def is_short(line):
    """Whether a line is a right header of two fields, under either word."""
    fields = line.split(b"\t")
    return len(fields) == 2 and fields[0] in GAPS and unhex(fields[1], 32) is not None


def in_full(data):
    """What is written of an input: any two-field header in full as 6 and 6, all else as found."""
    line, lf, rest = data.partition(b"\n")
    return line.replace(b"\t", b"\t6\t6\t") + lf + rest if lf and is_short(line) else data
