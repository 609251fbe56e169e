"""Wire cases for the OBJ text: solids that can be written and that cannot, by each reason; any number; any room."""

import itertools

import wire
from boundary import Boundary
from generate import (damage_lengths, damaged_table, larger_capacities, random_capacities, random_coordinate,
                      random_table, renumbered)
from layout import CAPACITY_LIMIT, COORDINATE_LIMIT, cleared_table, mate
from takedown_cases import LISTED
from takedown_tables import (any_half, body_of, capacities_with, cycles_of, every_body, halves_of, next_edge, some_body,
                             table_with)
from wavefront import FEWEST_SIDES, can_be_written, mesh_of, text_of
from wavefront_parts import beside, circle, flat, prism

# How many sides a prism has: mostly few.
SIDES = (3, 3, 4, 4, 5, 6, 9, 12, 30)


# Bodies that can be written

def random_point(rng):
    return tuple(random_coordinate(rng) for _ in range(3))


def dealt_faces(rng):
    """Half-edges in any order, in faces of three sides at least: a vertex or an edge may come twice in a face."""
    halves = halves_of(range(1, rng.choice((2, 3, 3, 4, 5, 6, 6, 8, 12, 20)) + 1))
    rng.shuffle(halves)
    most = len(halves) // FEWEST_SIDES
    sizes = [FEWEST_SIDES] * rng.randint(1, most)
    for _ in range(len(halves) - sum(sizes)):
        sizes[rng.randrange(len(sizes))] += 1
    return faces_body([[halves.pop() for _ in range(size)] for size in sizes], lambda: random_point(rng))


def faces_body(cycles, point=lambda: (0, 0, 0)):
    """Each loop in a face of its own."""
    numbers = range(1, len(cycles) + 1)
    return body_of(dict(zip(numbers, cycles)), dict(zip(numbers, numbers)), dict(zip(numbers, numbers)), point)


def random_prism(rng):
    """Its corners lie anywhere, as nothing checks them."""
    b = prism(circle(rng.choice(SIDES), 1_000), 0, 1)
    b.points = {vertex: random_point(rng) for vertex in b.points}
    return b


def random_body(rng):
    return rng.choice((dealt_faces, dealt_faces, random_prism))(rng)


# Spoiled for one reason

def new_number(used):
    return max(used, default=0) + 1


def add_face(b, cycle, beside_face):
    """A face of this one loop in the solid of another face."""
    face, loop = new_number(b.face_solid), new_number(b.loop_face)
    b.face_solid[face], b.face_outer[face], b.loop_face[loop] = b.face_solid[beside_face], loop, face
    b.cycles[loop] = cycle


def two_sided(rng, b):
    """An edge doubled, with a face between the two."""
    k = rng.choice(list(b.start))
    loop, a = b.loop_of(k), any_half(rng, next_edge(b.cycles.values()))
    b.start[a], b.start[mate(a)] = b.start[k], b.start[mate(k)]
    b.cycles[loop] = [a if half == k else half for half in b.cycles[loop]]
    add_face(b, [k, mate(a)], b.loop_face[loop])


def one_sided(rng, b):
    """An edge from a corner back to it, with a face inside."""
    h = rng.choice(list(b.start))
    loop, a = b.loop_of(h), any_half(rng, next_edge(b.cycles.values()))
    b.start[a] = b.start[mate(a)] = b.start[h]
    b.cycles[loop].insert(b.cycles[loop].index(h), a)
    add_face(b, [mate(a)], b.loop_face[loop])


def ringed(rng, b):
    """The loop of one face made a ring of another of the same solid; nothing where each solid has one face."""
    pairs = [pair for pair in itertools.permutations(b.face_solid, 2) if len({b.face_solid[f] for f in pair}) == 1]
    for kept, gone in rng.sample(pairs, min(1, len(pairs))):
        b.loop_face[b.face_outer.pop(gone)] = kept
        del b.face_solid[gone]


def lone_ring(rng, b):
    loop, vertex = new_number(b.loop_face), new_number(b.points)
    b.loop_face[loop], b.cycles[loop], b.lone[loop] = rng.choice(list(b.face_solid)), [], vertex
    b.points[vertex] = random_point(rng)


def lone_outer(rng, b):
    """A lone loop outside, and the face's own loop a ring in it."""
    lone_ring(rng, b)
    loop = max(b.loop_face)
    b.face_outer[b.loop_face[loop]] = loop


SPOILS = (two_sided, two_sided, one_sided, ringed, ringed, lone_ring, lone_outer)


def one_vertex(rng):
    """A solid as mvsf makes it: one face with one lone loop."""
    return body_of({1: []}, {1: 1}, {1: 1}, lambda: random_point(rng))


# Tables

def spoiled_body(rng):
    """By one reason; or a body as the take-down's tests have it, most of which cannot be written by several."""
    dice = rng.random()
    if dice < 0.1:
        return one_vertex(rng)
    if dice < 0.3:
        return some_body(rng)[0]
    b = random_body(rng)
    rng.choice(SPOILS)(rng, b)
    return b


def several(rng):
    """One body beside up to two others, each of which can be written or cannot."""
    b = random_body(rng) if rng.random() < 0.75 else spoiled_body(rng)
    for _ in range(rng.choice((0, 0, 1, 1, 2))):
        b = beside(b, random_body(rng) if rng.random() < 0.5 else spoiled_body(rng))
    return b


def sound_table(rng):
    """Under a stranger's numbers; now and then with many free ones between, or with nothing in use."""
    if rng.random() < 0.03:
        return cleared_table(random_capacities(rng))
    b = several(rng)
    capacities = capacities_with(b, [rng.choice((0, 1, 3)) for _ in range(5)])
    if rng.random() < 0.02:
        capacities = tuple(map(max, capacities, larger_capacities(rng, capacities)))
    return renumbered(rng, b, capacities)


# Cases

def asked_solid(rng, table):
    """A solid in use; else a free one, one that is out of range, or one that only its low bits make a solid in use."""
    used, most = list(table.used("solid")), table.capacities[0]
    if used and rng.random() < 0.85:
        return rng.choice(used)
    low = rng.choice(used or [1])
    return rng.choice((0, most + 1, rng.randint(1, most), rng.randint(1, most), 4_097, low + 65_536, low + (1 << 32),
                       (1 << 63) + low, (1 << 64) - 1))


def text_length(table, solid):
    """Of a sound table; 0 where the solid is not there or cannot be written."""
    b = Boundary(table)
    return len(text_of(mesh_of(b, solid))) if solid in b.solids and can_be_written(b, solid) else 0


def buffered(rng, table, solid):
    """A buffer of any bytes for this call: just enough, a byte less, none, more, or anything between."""
    length = text_length(table, solid)
    room = rng.choice((length, length, length, max(0, length - 1), 0, rng.randint(0, length), length + 1,
                       length + rng.randint(1, 200)))
    return wire.case(wire.OBJ, (solid,), table.links, table.points, script=rng.randbytes(room))


def wrong_lengths(rng):
    table = random_table(rng)
    damage_lengths(rng, table.links, table.points)
    return table.links, table.points


def damaged_case(rng):
    """A table that is not sound, or of wrong length; the number may be wrong too, and there may be no room."""
    links, points = wrong_lengths(rng) if rng.random() < 0.2 else damaged_table(rng)
    solid = rng.choice((0, 1, 1, 1, 2, 4_097, (1 << 64) - 1))
    return wire.case(wire.OBJ, (solid,), links, points, script=rng.randbytes(rng.choice((0, 1, 40, 400))))


def obj_case(rng):
    if rng.random() < 0.15:
        return damaged_case(rng)
    table = sound_table(rng)
    return buffered(rng, table, asked_solid(rng, table))


# Listed cases

def in_room(table, solid, more=0):
    """A buffer of just enough bytes, or of so many more; they are none that a text has."""
    script = b"\xEE" * (text_length(table, solid) + more)
    return wire.case(wire.OBJ, (solid,), table.links, table.points, script=script)


def small_cases():
    """Every table of two edges at most, every body of three edges or fewer that can be written; and each number."""
    bodies = [body for size in LISTED for body in every_body(*size)]
    for edges in (2, 3):
        halves = halves_of(range(1, edges + 1))
        orders = [cycles_of(dict(zip(halves, following))) for following in itertools.permutations(halves)]
        bodies += [faces_body(cycles) for cycles in orders if min(map(len, cycles)) >= FEWEST_SIDES]
    tables = [table_with(body, (1, 0, 0, 0, 0)) for body in bodies]
    return [in_room(table, solid) for table in tables for solid in range(1, table.capacities[0] + 1)]


def coordinate_cases():
    """Each coordinate there is, in flat parts of as many vertices as a table can have."""
    left = list(range(-COORDINATE_LIMIT, COORDINATE_LIMIT + 1)) + [0]
    points = list(zip(left[0::3], left[1::3], left[2::3]))
    bodies = [flat(points[place:place + CAPACITY_LIMIT]) for place in range(0, len(points), CAPACITY_LIMIT)]
    return [in_room(table_with(body, (0,) * 5), 1) for body in bodies]


def large_cases(rng):
    """Parts of as many edges as a table can have, and the longest text; just enough room, a byte less, and more."""
    bodies = [prism(circle(CAPACITY_LIMIT // 3, COORDINATE_LIMIT), -COORDINATE_LIMIT, COORDINATE_LIMIT),
              flat([(-COORDINATE_LIMIT,) * 3] * CAPACITY_LIMIT)]
    tables = [renumbered(rng, body, (CAPACITY_LIMIT,) * 5) for body in bodies]
    return [in_room(table, min(table.used("solid")), more) for table in tables for more in (0, -1, 7)]
