"""salvage, a second time from the text of request 5, sharing no code with the crates."""
import journal
from kes import DONE


def letter(judge, head, line):
    """M malformed, B signature not accepted, G good; the order of steps and serials is not judged."""
    word, h1, h2, key = head
    found = journal.record(line, word, h1, h2)
    if found is None:
        return b"M"
    step, _, _, signed, signature = found
    return b"G" if judge.verify(h1, h2, key, step, signed, signature) == DONE else b"B"


def kept(line):
    """A line as it is saved."""
    return line + b"\n"


def listed(number, case):
    """A line of the list."""
    return b"%d\t%s\n" % (number, case)


def outputs(judge, data):
    """The journal and the list that are written of an input."""
    lines = journal.cut_lines(data)
    head = journal.header(lines[0]) if lines else None
    if head is None:
        return b"", listed(1, b"H")
    saved, others = [kept(lines[0])], []
    for number, line in zip(range(2, journal.LAST_LINE + 1), lines[1:]):
        case = letter(judge, head, line)
        if case == b"G":
            saved.append(kept(line))
        else:
            others.append(listed(number, case))
    return b"".join(saved), b"".join(others)
