"""quarter, a second time from the text of request 12, sharing no code with the crates."""
NAMES = 64
NAME_BYTES = 255


def names(data):
    """The names, one a line, each cut; a last one without LF counts."""
    lines = data.split(b"\n")
    return [line[:NAME_BYTES] for line in (lines if lines[-1] else lines[:-1])]


def judged(judge, data):
    """How many lines a journal has after its header, and the good amounts among them; None below a wrong header."""
    *letters, total = judge.output(data).splitlines()
    if not total.startswith(b"total\t"):
        return None
    lines = data.split(b"\n")[1:]
    return len(letters), [int(line.split(b"\t")[3]) for verdict, line in zip(letters, lines) if verdict.endswith(b"\tG")]


def mean(amounts):
    """Whole cents and remainder."""
    return divmod(sum(amounts), len(amounts))


def row(name, lines, amounts):
    """The line of a name with so many lines and these good amounts."""
    shown = [min(amounts), max(amounts), *mean(amounts)] if amounts else ["-"] * 4
    numbers = [lines, len(amounts), sum(amounts), *shown, len(amounts)]
    return b"\t".join([name, *(str(number).encode() for number in numbers)]) + b"\n"


def joined(counted):
    """The lines and good amounts of all journals together."""
    return sum(lines for lines, _ in counted), [amount for _, amounts in counted for amount in amounts]


def output(judge, data, read):
    """What is written of this input; read gives the bytes of a file by its name, or None where it can't be opened or read."""
    out, counted = [], []
    for n, name in enumerate(names(data), 1):
        found = read(name) if n <= NAMES else None
        found = judged(judge, found) if found is not None else None
        if found is None:
            out.append(name + b"\tH\n")
        else:
            counted.append(found)
            out.append(row(name, *found))
    return b"".join([*out, row(b"all", *joined(counted))])
