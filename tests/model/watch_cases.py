"""Cases for watching kef: each an accepted kef, by a run, an undo or a redo, on random tables and loops of any length.

kef has four situations, by what is left of k's loop without k and of the mate's loop without the mate.
"""

from collections import Counter, namedtuple

import wire
from boundary import Boundary
from cases import exchanged
from generate import random_table, renumbered
from kef_cases import Faces, body_with, dealt
from kef_met import RESTS
from kef_properties import accepted_kefs
from layout import mate
from script import operator, operator_bytes
from takedown import LONGEST_OPERATOR
from takedown_tables import capacities_with

LENGTHS = (3, 10, 100, 1_000)

# A call that does kef k, and which of the situations it is.
Kef = namedtuple("Kef", "case k situation")


def kef_bytes(k):
    return operator_bytes(operator("kef", k))


def run_case(rng, table, k):
    log = rng.randbytes(LONGEST_OPERATOR + rng.randint(0, 5))
    session = (rng.randint(LONGEST_OPERATOR, len(log)), 0)
    return wire.case(wire.RUN, (), table.links, table.points, log, kef_bytes(k), session=session)


def undo_case(rng, table, k):
    """The kef stands in the log, as the inverse of a mef does."""
    front, back = rng.randbytes(rng.randint(0, 3)), rng.randbytes(rng.randint(0, 3))
    redo = rng.randbytes(LONGEST_OPERATOR + rng.randint(0, 3))
    return wire.case(wire.UNDO, (1,), table.links, table.points, front + kef_bytes(k) + back, b"", redo,
                     (len(front), LONGEST_OPERATOR))


def redo_case(rng, table, k):
    """The kef stands in the redo log, as one that was undone does."""
    return exchanged(undo_case(rng, table, k))


CALLS = (run_case, undo_case, redo_case)


def kef_on(rng, table, k, situation):
    return Kef(rng.choice(CALLS)(rng, table, k), k, situation)


# Random tables

def accepted(b):
    """The half-edges whose kef the table accepts, by situation."""
    found = {}
    for k in accepted_kefs(b):
        found.setdefault(RESTS[bool(b.after(k)), bool(b.after(mate(k)))], []).append(k)
    return found


def random_kefs(rng, count):
    """So many of each situation."""
    kefs, met = [], Counter()
    while any(met[name] < count for name in RESTS.values()):
        table = random_table(rng)
        found = {name: ks for name, ks in accepted(Boundary(table)).items() if met[name] < count}
        for name, ks in found.items():
            met[name] += 1
            kefs.append(kef_on(rng, table, rng.choice(ks), name))
    return kefs


# Loops of any length

def between(b, killed, kept):
    """A half-edge of a loop of the one length, its mate in one of the other; the two loops are not the same."""
    place = {half: (loop, len(cycle)) for loop, cycle in b.cycles.items() for half in cycle}
    return next(half for half in sorted(place) if (place[half][1], place[mate(half)][1]) == (killed, kept)
                and place[half][0] != place[mate(half)][0])


def long_kef(rng, killed, kept, capacities=None):
    """A table under a stranger's numbers, and k."""
    net = dealt(rng, killed, kept)
    b = body_with(rng, net, Faces(0, 1, range(2, len(net))))
    table = renumbered(rng, b, capacities or capacities_with(b, (1,) * 5))
    return table, between(Boundary(table), killed, kept)


def long_kefs(rng):
    """Loops of each length: killed beside a rest, killed beside a mate alone, kept."""
    kefs = []
    for length in LENGTHS:
        for killed, kept in ((length, length), (length, 3), (length, 1), (1, length)):
            table, k = long_kef(rng, killed, kept)
            situation = RESTS[killed > 1, kept > 1]
            kefs += [Kef(make(rng, table, k), k, situation) for make in CALLS]
    return kefs
