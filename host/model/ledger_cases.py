#!/usr/bin/env python3
"""Writes what the program ledger_cases must print under the gate, from the model: the journal on its standard input, which is document
01's example, and three malformed lines of which the second is the last that is read.
With --check it writes nothing and says whether the file is that."""
import sys

import standin
from filed import CRATES, keep
from journal import LAST_LINE, Judge
from kes import Module, Scheme

JUDGE = Judge(Scheme(Module(standin)))
AT_THE_LAST = b"kes\t0\t0\t" + b"0" * 64 + b"\nx\nx\nx\n"

example = (CRATES / "ledger_cases" / "stdin").read_bytes()
expected = JUDGE.output(example) + JUDGE.output(AT_THE_LAST, first=LAST_LINE - 1)
if example != (CRATES / "journal" / "stdin").read_bytes():
    sys.exit("ledger cases: the example is not that of the program journal")
keep("ledger_cases", {"stdout": expected}, "ledger cases: the expected output is the model's")
