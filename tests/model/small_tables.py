"""Every sound table whose capacities are 1 or 2, and every operator that one of them accepts.

The tables are made of loops (every_body in takedown_tables.py), under all numbers that they can have. That none is
missing is looked at in exhaustive.py, where all words are gone through, for capacities that allow it.
"""

import itertools

import wire
from boundary import Boundary
from generate import all_operators, renamed, used_numbers
from layout import Table, mate, points_length
from operators import plan
from script import operator_bytes
from takedown import LONGEST_OPERATOR
from takedown_tables import every_body

# All capacities from 1 to 2, and what there is by them, all points at 0.
SIZES = list(itertools.product((1, 2), repeat=5))
TABLES, ACCEPTED = 2_174, 9_896


def listed_tables(capacities):
    """The links of each sound table of these capacities with all points at 0, as a set of tuples."""
    _, _, loops, edges, _ = capacities
    found = set()
    for size in itertools.product(range(edges + 1), range(loops + 1)):
        for body in every_body(*size):
            if all(len(used) <= capacity for used, capacity in zip(used_numbers(body), capacities)):
                found |= under_all_numbers(body, capacities)
    return found


def under_all_numbers(b, capacities):
    numbers = [all_injections(used, capacity) for used, capacity in zip(used_numbers(b), capacities)]
    found = set()
    for s, f, l, e, v in itertools.product(*numbers):
        # every_body has each edge both ways round already
        h = {2 * edge: 2 * to for edge, to in e.items()}
        h.update({mate(half): mate(to) for half, to in list(h.items())})
        found.add(tuple(renamed(b, capacities, s, f, l, h, v).links))
    return found


def all_injections(used, capacity):
    """All ways to give these items numbers up to the capacity."""
    return [dict(zip(used, numbers)) for numbers in itertools.permutations(range(1, capacity + 1), len(used))]


def accepted_operators(links):
    """Every operator at point 0 that a table with all points at 0 accepts."""
    b = Boundary(table_at_zero(links))
    return [op for op in all_operators(b, [(0, 0, 0)]) if plan(b, op)[0] == 0]


def table_at_zero(links):
    return Table(list(links), [0] * points_length(links[:5]))


def all_tables():
    return [links for capacities in SIZES for links in sorted(listed_tables(capacities))]


def operator_cases():
    """A run of each operator that each of the tables accepts, with just the room for any inverse."""
    room = LONGEST_OPERATOR
    return [wire.case(wire.RUN, (), links, [0] * points_length(links[:5]), b"\xEE" * room, operator_bytes(op), b"\xEE",
                      (room, 1))
            for links in all_tables() for op in accepted_operators(links)]
