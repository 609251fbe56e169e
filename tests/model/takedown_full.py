"""Full tables for the take-down: capacities that leave no number free, of some kinds or of all.

Bodies are written down without any operator and put under a stranger's numbers into such capacities. A step that takes
a solid down frees a face and a loop, one that takes an edge away frees an edge. So a face or a loop can lack at the
first solid alone, and there only while it has one face; and an edge only where lone rings come before every edge. By
chance that is rare, so bodies are made for it.
"""

from generate import random_coordinate, renumbered
from takedown_tables import (apart, body_of, bridged_rings, capacities_with, scattered, some_body, tangled, with_spurs,
                             written_body)
from wavefront_parts import beside, circle, prism

# Places among the capacities: faces, loops, edges.
PLACES = {"face": 1, "loop": 2, "edge": 3}
# Of every so many tables the first ones are full, the next ones have numbers to spare, the last ones are prisms.
ROUND, FULL, SPARED = 9, 6, 8


def full_tables(rng, count):
    """So many sound tables: two of three full, made for a lack of each kind in turn; others with numbers to spare, and
    boxes and prisms that fill their tables.
    """
    makers = (*(lambda rng, kind=kind: lacking_table(rng, kind) for kind in PLACES), any_full_table)
    for place in range(count):
        turn = place % ROUND
        make = makers[place % len(makers)] if turn < FULL else with_spares if turn < SPARED else full_prisms
        yield make(rng)


# Capacities

def full_capacities(rng, b, kinds):
    """No number free of these kinds, and of every other one with an even chance."""
    spares = [rng.choice((0, 0, 1, 3)) for _ in range(5)]
    for kind in kinds:
        spares[PLACES[kind]] = 0
    return capacities_with(b, spares)


def any_full_table(rng):
    """Any body: most of them come down all the same."""
    b, _ = some_body(rng)
    return renumbered(rng, b, full_capacities(rng, b, rng.sample(list(PLACES), rng.randint(1, 3))))


def with_spares(rng):
    """A free face, loop and edge at least; mode takedown has larger tables too."""
    b, _ = some_body(rng)
    return renumbered(rng, b, capacities_with(b, [rng.choice((1, 1, 2, 4)) for _ in range(5)]))


# Bodies made so that a number lacks

def random_point(rng):
    return lambda: tuple(random_coordinate(rng) for _ in range(3))


def in_one_face(rng, cycles):
    """A body of these loops in one face, any of them the outer one; its edges are not linked to another face."""
    loops = range(1, len(cycles) + 1)
    return body_of(dict(zip(loops, cycles)), {loop: 1 for loop in loops}, {1: rng.choice(loops)}, random_point(rng))


def lone_body(rng, loops):
    return in_one_face(rng, [[]] * loops)


def one_face(rng):
    """A face of loops with spurs: kev first, then a ring calls for a face or a crossed edge for a loop."""
    return in_one_face(rng, with_spurs(rng, rng.choice((tangled, tangled, bridged_rings, scattered))(rng)))


def lone_rings(rng):
    """Now and then solids of a vertex, then one of lone rings: these call for an edge."""
    b = lone_body(rng, rng.choice((2, 2, 3, 5)))
    for _ in range(rng.choice((0, 1, 1, 3))):
        b = beside(lone_body(rng, 1), b)
    return b


def lacking_table(rng, kind):
    """A table full in this kind whose first solids call for a number of it; most often it is not there."""
    b = lone_rings(rng) if kind == "edge" else one_face(rng)
    if kind == "edge" or rng.random() < 0.4:
        b = beside(b, rng.choice((one_face, written_body, edges_apart))(rng))
    capacities = list(full_capacities(rng, b, [kind]))
    if kind == "face" and rng.random() < 0.7:
        # with a loop free kemr goes ahead, and the ring that it makes calls for a face
        capacities[PLACES["loop"]] += 1
    return renumbered(rng, b, capacities, in_order=rng.random() < 0.85)


def any_lacking_table(rng):
    return lacking_table(rng, rng.choice(list(PLACES)))


def edges_apart(rng):
    """A face for each loop of several groups with edges of their own."""
    cycles = [cycle for cycle in apart(rng) if cycle]
    loops = range(1, len(cycles) + 1)
    return body_of(dict(zip(loops, cycles)), dict(zip(loops, loops)), dict(zip(loops, loops)), random_point(rng))


# Boxes and prisms

def full_prisms(rng):
    """One box or prism, or a few, with no number of any kind free: no step calls for one."""
    b = random_prism(rng)
    for _ in range(rng.choice((0, 0, 0, 1, 2))):
        b = beside(b, random_prism(rng))
    return renumbered(rng, b, capacities_with(b, (0,) * 5))


def random_prism(rng):
    low = rng.randint(-50_000, 49_000)
    return prism(circle(rng.choice((3, 4, 4, 4, 5, 6, 9, 12)), 10_000), low, rng.randint(low + 1, 50_000))
