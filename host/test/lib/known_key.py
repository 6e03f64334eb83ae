"""The key of the desk that crash.py crashes, by the independent model: its table at each step, and what nobody may find by then."""
import ed25519
import kes
from past import Past

H1, H2 = 1, 2
SEED = bytes(range(32))  # power.c hands it out
STEPS = kes.steps(H1, H2)
SCHEME = kes.Scheme(kes.Module(ed25519))


def tables():
    table = bytearray(kes.table_size(H1, H2))
    SCHEME.make(H1, H2, bytearray(SEED), table)
    SCHEME.release(table, 1, STEPS)  # the other window, which this desk has not
    found = [bytes(table)]
    for step in range(1, STEPS):
        SCHEME.release(table, 0, step)
        SCHEME.move(table, step)
        found.append(bytes(table))
    return found


TABLES = tables()
SECRETS = [table[-64:-32] for table in TABLES]  # the present leaf's
PAST = [Past(SEED, (H1, H2), step).names for step in range(STEPS)]


def signs_past(data, now):
    """Whether bytes hold anything that a table at this step may not know, plain or in hex."""
    return any(secret in data or secret.hex().encode() in data for secret in PAST[now])


def check():
    """The search finds every table of an earlier step, and nothing in the present one or a later one."""
    return all(signs_past(TABLES[step], now) == (step < now) for step in range(STEPS) for now in range(STEPS))
