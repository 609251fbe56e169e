"""Wire cases for the take-down: sound tables with room or without, with numbers to spare or full; tables not sound."""

from collections import namedtuple

import wire
from generate import beyond, damaged_table, random_log, random_redo
from takedown import bytes_needed
from takedown_full import PLACES, full_tables
from takedown_tables import every_body, spared_table, table_with

# Edges and lone loops of the tables that are listed; three edges by themselves make ten thousand.
LISTED, LISTED_TOO = ((0, 0), (0, 1), (1, 0), (1, 1), (2, 0), (2, 1)), ((3, 0),)
# How many tables that is.
LISTED_TABLES, LISTED_TOO_TABLES = 729, 10_674
# Spare numbers of each kind: one of those that the steps call for; and none of them, or of one alone.
ONE_EACH = (0, 1, 1, 1, 0)
NONE_OF_SOME = ((0, 0, 0, 0, 0), (0, 0, 1, 1, 0), (0, 1, 0, 1, 0), (0, 1, 1, 0, 0))

# A case, and whether its table was made to be sound.
Trial = namedtuple("Trial", "case sound")


def takedown_trial(rng):
    dice = rng.random()
    if dice < 0.08:
        return Trial(damaged_case(rng), False)
    table = spared_table(rng, full=rng.choice(list(PLACES.values())) if dice < 0.18 else None)
    log, start = log_for(rng, table)
    if dice > 0.98:
        start = beyond(rng, log)
    return Trial(case_with(rng, table.links, table.points, log, start), True)


def full_trials(rng, count):
    """So many tables, most of them full, with just the room that is asked for, a byte less, or more."""
    return [Trial(case_with(rng, table.links, table.points, *log_for(rng, table)), True)
            for table in full_tables(rng, count)]


def case_with(rng, links, points, log, start):
    """The redo log is only emptied, wherever it starts."""
    redo, redo_start = random_redo(rng)
    return wire.case(wire.TAKEDOWN, (), links, points, log, b"", redo, (start, redo_start))


def takedown_case(rng):
    return takedown_trial(rng).case


def listed_trials(sizes, spares=ONE_EACH):
    """Every table of these sizes, with so many numbers of each kind to spare and just the room that is asked for."""
    trials = []
    for table in [table_with(body, spares) for size in sizes for body in every_body(*size)]:
        need = bytes_needed(table.links, table.points)
        case = wire.case(wire.TAKEDOWN, (), table.links, table.points, b"\xEE" * need, b"", b"\xEE" * 5, (need, 2))
        trials.append(Trial(case, True))
    return trials


def damaged_case(rng):
    """A table that is most often not sound, now and then with a start beyond the log: 1 comes before 2."""
    (links, points), (log, start) = damaged_table(rng), random_log(rng)
    if rng.random() < 0.25:
        start = beyond(rng, log)
    return case_with(rng, links, points, log, start)


def log_for(rng, table):
    """Any bytes for a log, and a start with just the room that is asked for, a byte less, or more."""
    need = bytes_needed(table.links, table.points)
    room = rng.choice((need, need, need, max(0, need - 1), need + rng.choice((1, 5, 300))))
    return rng.randbytes(room + rng.choice((0, 0, 1, 7, 40))), room
