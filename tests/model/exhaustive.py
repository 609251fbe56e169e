"""All tables of a small size, listed: what is sound, what operators reach, which operators restore."""

import itertools

import generate
from boundary import Boundary
from layout import Table, cleared_table
from operators import carry_out
from properties import words_of
from rules import check
from script import describe
from small_tables import listed_tables


def record_choices(capacities, kind):
    """All records of a kind that rules 1 and 3 allow; "edge" is a pair of half-edges."""
    s, f, l, e, v = (range(1, capacity + 1) for capacity in capacities)
    if kind == "face":
        return [(0, 0)] + list(itertools.product(s, l))
    halves = range(1, 2 * len(e) + 1)
    if kind == "loop":
        ends = [(first, 0) for first in halves] + [(0, lone) for lone in v]
        return [(0, 0, 0)] + [(face,) + end for face in f for end in ends]
    used = list(itertools.product(v, l, halves, halves))
    return [(0,) * 8] + [one + two for one, two in itertools.product(used, used)]


def sound_tables(capacities):
    """Every sound table with all points at 0, as a set of tuples of links."""
    s, f, l, e, v = capacities
    kinds, found = ("face",) * f + ("loop",) * l + ("edge",) * e, set()
    for records in itertools.product(*(record_choices(capacities, kind) for kind in kinds)):
        # A solid or vertex that nothing names breaks rule 2 or 5, and so does a named one with word 0 or with a wrong
        # one, so marks and words follow from names.
        solids = {record[0] for record in records[:f]}
        starts = [start for record in records[f + l:] for start in record[::4]]
        vertices = {record[2] for record in records[f:f + l]} | set(starts)
        links = list(capacities) + [int(n in solids) for n in range(1, s + 1)]
        links += [word for record in records for word in record]
        links += [1 + starts.count(n) if n in vertices else 0 for n in range(1, v + 1)]
        if check(links, [0] * (3 * v)) == (0, 0):
            found.add(tuple(links))
    return found


def reached_tables(capacities):
    """Every table that operators at point 0 reach from the cleared one."""
    first = cleared_table(capacities)
    met, waiting = {tuple(first.links)}, [tuple(first.links)]
    while waiting:
        links = waiting.pop()
        for op in generate.all_operators(Boundary(Table(list(links), first.points)), [(0, 0, 0)]):
            b = Boundary(Table(list(links), first.points))
            if carry_out(b, op)[0] == 0:
                after = tuple(generate.table_of(b).links)
                if after not in met:
                    met.add(after)
                    waiting.append(after)
    return met


def reached_with_a_face_more(capacities):
    """Reached with a second face at hand, which is free at the end; capacities have one face."""
    s, f, *others = capacities
    place = 5 + s + 2 * f
    reached = reached_tables((s, f + 1, *others))
    return {links[:1] + (f,) + links[2:place] + links[place + 2:]
            for links in reached if links[place] == 0}


def all_small_tables(tally, _rng, scale):
    """Sound is exactly what operators reach; the sizes are small enough to list."""
    sizes = [(1, 1, 1, 1, 2), (1, 2, 2, 1, 1)] + [(2, 2, 2, 1, 1), (1, 2, 2, 1, 2)] * (scale >= 5)
    for capacities in sizes:
        sound = sound_tables(capacities)
        tally.equal(f"sound tables are those reached {capacities}", sound, reached_tables(capacities))
        tally.equal(f"sound tables are those listed {capacities}", sound, listed_tables(capacities))
        # Empty, a lone vertex 1 or 2, an edge from 1 to 2 or from 2 to 1.
        if capacities == (1, 1, 1, 1, 2):
            tally.equal("number of sound tables", len(sound), 5)
    # The face with a hole (example e) is made by way of a second face.
    capacities = (1, 1, 2, 1, 2)
    sound = sound_tables(capacities)
    tally.equal(f"sound tables are those reached {capacities}", sound, reached_with_a_face_more(capacities))
    tally.equal(f"sound tables are those listed {capacities}", sound, listed_tables(capacities))


def inverse_is_the_only_one(tally, rng, scale):
    """No other operator at all restores the table, so the log's bytes are settled."""
    for _ in range(int(300 * scale)):
        capacities = tuple(rng.randint(1, 3) for _ in range(5))
        before = generate.grown(rng, capacities, rng.choice((2, 4, 6, 8)))
        op = generate.valid_operator(rng, before, generate.EVEN)
        if op is None:
            continue
        words, points = words_of(generate.table_of(before)), set(before.points.values())
        _, inverse = carry_out(before, op)
        after = generate.table_of(before)
        restoring = [other for other in generate.all_operators(before, points or {(0, 0, 0)})
                     if restores(after, other, words)]
        tally.equal(f"the only inverse of {describe(op)}", restoring, [inverse])


def restores(after, op, words):
    b = Boundary(after)
    return carry_out(b, op)[0] == 0 and words_of(generate.table_of(b)) == words


EXHAUSTIVE = (all_small_tables, inverse_is_the_only_one)
