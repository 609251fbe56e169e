"""Wire cases for the sweep: faces of any shape, with exactly the numbers and log bytes that they take, or more; and
each refusal, often together with reasons for later ones, since the order counts.
"""

import itertools
from collections import namedtuple

import wire
from boundary import Boundary
from examples import BREAKERS
from generate import beyond, damaged_table, larger_capacities, random_log, random_redo, renumbered, table_of
from layout import CAPACITY_LIMIT, COORDINATE_LIMIT, mate
from script import script_bytes
from sweep import TAKEN, bytes_needed, corners_of_face, face_refusal, swept
from takedown_cases import LISTED
from takedown_tables import any_half, body_of, capacities_with, every_body, some_body, table_with
from wavefront_cases import dealt_faces, lone_outer, lone_ring, one_sided, one_vertex
from wavefront_parts import INSIDE, OBLONG, beside, circle, frame, prism

# The reasons for a refusal that a sound table can have, in their order.
REASONS = {"beyond": 1, "number": 5, "free": 6, "lone": 14, "outside": 5, "few": 10, "short": 9}
# So often a case is lifted; so often a table is damaged. The reasons share the rest.
LIFTED, DAMAGED = 0.48, 0.11
# So often a reason is joined by each later one.
JOINED = 0.25
KINDS = ("solid", "face", "loop", "edge", "vertex")
LOWEST, HIGHEST = -(1 << 31), (1 << 31) - 1
# From 0 to the ends of the range: each coordinate takes three bytes of a script.
FARTHEST = (COORDINATE_LIMIT, -COORDINATE_LIMIT, COORDINATE_LIMIT)

# A case, and the refusal that it was made for; None where its table was damaged anyhow.
Trial = namedtuple("Trial", "case refusal")


# Bodies

def prism_body(rng):
    return prism(circle(rng.choice((3, 4, 4, 4, 5, 6, 8, 12)), 1_000), 0, 1)


def large_prism(rng):
    """Some 60 edges: the least free ones then lie around 64, where an inverse grows from 2 to 3 bytes."""
    return prism(circle(rng.choice((18, 19, 20, 20, 21, 21)), 1_000), 0, 1)


def frame_body(_rng):
    return frame(OBLONG, INSIDE, 0, 1)


def ringed_body(rng):
    """The loops of some faces made rings of one face."""
    b = rng.choice((prism_body, prism_body, dealt_faces, frame_body))(rng)
    kept = rng.choice(list(b.face_solid))
    others = neighbours(b, kept)
    for gone in rng.sample(others, min(len(others), rng.choice((1, 1, 2, 3)))):
        make_ring(b, gone, kept)
    return b


def neighbours(b, face):
    """The other faces of its solid."""
    return [other for other in b.face_solid if b.face_solid[other] == b.face_solid[face] and other != face]


def make_ring(b, gone, kept):
    """The loop of a face that has no ring made a ring of another face."""
    loop = b.face_outer.pop(gone)
    b.loop_face[loop] = kept
    del b.face_solid[gone]


def joined_body(rng):
    """A prism with one or two others on one of its faces: their loops are rings there, with vertices of their own."""
    b = prism_body(rng)
    kept = rng.choice(list(b.face_solid))
    for _ in range(rng.choice((1, 1, 2))):
        b = beside(b, prism_body(rng))
        added = [face for face, solid in b.face_solid.items() if solid == max(b.solids)]
        make_ring(b, added.pop(rng.randrange(len(added))), kept)
        b.face_solid.update({face: 1 for face in added})
        b.solids = {1}
    return b


def round_body(rng):
    """Faces of one side, as the end of a cylinder that one edge goes around; now and then such a loop is a ring."""
    b = rng.choice((prism_body, ringed_body, lambda _: body_of({1: [1], 2: [2]}, {1: 1, 2: 2}, {1: 1, 2: 2})))(rng)
    for _ in range(rng.choice((1, 2, 3))):
        one_sided(rng, b)
        last = max(b.face_solid)
        if rng.random() < 0.3:
            make_ring(b, last, rng.choice(neighbours(b, last)))
    return b


def tree_body(rng):
    """One face of one loop that goes around a tree: it meets every inner vertex several times."""
    cycle = []
    for edge in range(1, rng.choice((1, 1, 2, 3, 4, 6, 10)) + 1):
        half, place = any_half(rng, edge), rng.randint(0, len(cycle))
        cycle[place:place] = [half, mate(half)]
    return body_of({1: cycle}, {1: 1}, {1: 1})


def any_body(rng):
    return some_body(rng)[0]


BODIES = (prism_body, prism_body, prism_body, large_prism, ringed_body, ringed_body, joined_body, round_body,
          round_body, tree_body, any_body, any_body)
# Where a log is to be too short or a point out of range, bodies for which that can be missed come more often.
BODIES_FOR = {"short": BODIES + (large_prism,) * 5, "outside": BODIES + (joined_body,) * 10}


def whole_body(rng, reasons):
    """A body with a face that can be lifted, now and then beside another one."""
    bodies = BODIES_FOR.get(reasons[0], BODIES) if reasons else BODIES
    b = rng.choice(bodies)(rng)
    while not whole_faces(b):
        b = rng.choice(bodies)(rng)
    return beside(b, prism_body(rng)) if rng.random() < 0.1 else b


def lone_body(rng):
    """A body with a face that has a lone loop: a ring, the outer loop, or all that there is."""
    if rng.random() < 0.2:
        return one_vertex(rng)
    b = rng.choice((prism_body, ringed_body, tree_body))(rng)
    rng.choice((lone_ring, lone_outer))(rng, b)
    return b


def whole_faces(b):
    return [face for face in b.face_solid if not any(loop in b.lone for loop in b.loops_of_face(face))]


def lone_faces(b):
    return sorted(set(b.face_solid) - set(whole_faces(b)))


# Faces and tables

def chosen_face(rng, b, faces):
    """Any of these, or the one of the most loops, the most corners or the fewest."""
    def loops(face):
        return len(b.loops_of_face(face))

    def corners(face):
        return len(corners_of_face(b, face))

    most = max(faces, key=loops)
    return rng.choice((most, most, max(faces, key=corners), min(faces, key=corners), rng.choice(faces)))


def shape(b, face):
    """The lengths of its loops: by them a face is found under other numbers."""
    return sorted(len(b.cycles[loop]) for loop in b.loops_of_face(face))


def taken_by(corners):
    """How many free numbers of each kind so many corners take."""
    return [TAKEN.get(kind, 0) * corners for kind in KINDS]


def spares_for(rng, corners, few, free):
    """Free numbers of each kind: all that are taken, often not one more; of some kinds too few, where that is wanted.
    Where a free face is asked for, there is one."""
    spares = {kind: each * corners + rng.choice((0, 0, 0, 1, 4)) for kind, each in TAKEN.items()}
    for kind in rng.sample(list(TAKEN), rng.choice((1, 1, 1, 2, 4))) if few and corners else ():
        spares[kind] = TAKEN[kind] * corners - rng.choice((1, 1, 1, rng.randint(1, TAKEN[kind] * corners)))
    spares["solid"] = rng.choice((0, 1))
    spares["face"] = max(spares["face"], int(free))
    return [spares[kind] for kind in KINDS]


def table_for(rng, b, face, capacities):
    """The table under a stranger's numbers or, where they run from 1 on, its own; and a face of that shape in it."""
    b.capacities, b.points = capacities, {vertex: random_point(rng) for vertex in b.points}
    table = table_of(b) if runs_from_one(b) and rng.random() < 0.4 else renumbered(rng, b, capacities)
    found, wanted = Boundary(table), shape(b, face)
    return table, rng.choice([face for face in found.face_solid if shape(found, face) == wanted])


def runs_from_one(b):
    items = (b.solids, b.face_solid, b.loop_face, b.start, b.points)
    return all(max(used, default=0) == len(used) for used in items)


def random_point(rng):
    """Mostly such that many vectors keep it in range."""
    spread = rng.choice((0, 40, 9_000, 9_000, 9_000, 49_999, COORDINATE_LIMIT))
    return tuple(rng.randint(-spread, spread) for _ in range(3))


# Vectors

def ranges_of(b, face):
    """For each coordinate how far it can be moved down and up, so that all corners stay in range."""
    points = [b.points[b.start[half]] for _, half in corners_of_face(b, face)] or [(0, 0, 0)]
    return [(-COORDINATE_LIMIT - min(c), COORDINATE_LIMIT - max(c)) for c in zip(*points)]


def vector_for(rng, ranges, outside):
    """One that all corners stay in range by, often just so; or one by which a corner leaves it, often just so."""
    vector = [rng.choice((0, low, high, rng.randint(low, high), max(low, min(high, rng.randint(-300, 300)))))
              for low, high in ranges]
    if rng.random() < 0.03:
        vector = [0, 0, 0]
    for place in rng.sample(range(3), rng.choice((1, 1, 3))) if outside else ():
        low, high = ranges[place]
        vector[place] = rng.choice((low - 1, high + 1, low - 1, high + 1, LOWEST, HIGHEST, rng.randint(LOWEST, low - 1),
                                    rng.randint(high + 1, HIGHEST)))
    return vector


# Cases

def sweep_trial(rng):
    dice = rng.random()
    if dice < DAMAGED:
        return Trial(damaged_case(rng), None)
    if dice < DAMAGED + LIFTED:
        return made_trial(rng, [])
    first = rng.randrange(len(REASONS))
    names = list(REASONS)
    return made_trial(rng, names[first:first + 1] + [name for name in names[first + 1:] if rng.random() < JOINED])


def sweep_case(rng):
    return sweep_trial(rng).case


def made_trial(rng, reasons):
    """A case with these reasons for a refusal, in their order, of which the first has to count."""
    b = lone_body(rng) if "lone" in reasons else whole_body(rng, reasons)
    face = chosen_face(rng, b, lone_faces(b) if "lone" in reasons else whole_faces(b))
    spares = spares_for(rng, len(corners_of_face(b, face)), "few" in reasons, "free" in reasons)
    capacities = capacities_with(b, spares)
    if "few" not in reasons and rng.random() < 0.015:
        capacities = tuple(map(max, capacities, larger_capacities(rng, capacities)))
    table, face = table_for(rng, b, face, capacities)
    vector = vector_for(rng, ranges_of(Boundary(table), face), "outside" in reasons)
    log, redo, session = logs_for(rng, table, face, vector, reasons)
    if "beyond" in reasons:
        session = (beyond(rng, log), session[1])
    number = number_for(rng, table, face, reasons)
    case = wire.case(wire.SWEEP, (number, *vector), table.links, table.points, log, b"", redo, session)
    return Trial(case, REASONS[reasons[0]] if reasons else 0)


def number_for(rng, table, face, reasons):
    """The face, or a free one, or one that is out of range, now and then with low bits that name a face in use."""
    most = table.capacities[1]
    if "number" in reasons:
        return rng.choice((0, 0, most + 1, most + 1, face + 65_536, face + (1 << 32), face + (1 << 63), (1 << 64) - 1))
    if "free" in reasons:
        return rng.choice(sorted(set(table.numbers("face")) - set(table.used("face"))))
    return face


def logs_for(rng, table, face, vector, reasons):
    """Any bytes for both logs and the two starts: exactly the room that is needed, a byte less, or more."""
    if set(reasons) <= {"short"}:
        _, operators, inverses = swept(table.links, table.points, face, vector)
        need, script = bytes_needed(inverses), len(script_bytes(operators))
        less, more = rng.choice((1, 1, 1, 1, 1, 1, need, rng.randint(1, need))), rng.choice((0, 0, 0, 1, 30))
        room = need - less if reasons else need + more
        redo = rng.randbytes(script + rng.choice((0, 0, 1, 40)))
        redo_start = rng.choice((0, len(redo), len(redo) // 2, beyond(rng, redo)))
    else:
        # What the steps would need is not known; they cannot do without two bytes, nor need more than 300.
        room = rng.choice((0, 1)) if "short" in reasons else 300
        redo, redo_start = random_redo(rng)
    return rng.randbytes(room + rng.choice((0, 0, 1, 7, 40))), redo, (room, redo_start)


def damaged_case(rng):
    """A table that is most often not sound, or of wrong length; the other numbers are any."""
    links, points = rng.choice(list(BREAKERS.values())) if rng.random() < 0.2 else damaged_table(rng)
    (log, start), (redo, redo_start) = random_log(rng), random_redo(rng)
    if rng.random() < 0.15:
        start = beyond(rng, log)
    numbers = [rng.choice((0, 1, 1, 2, CAPACITY_LIMIT + 1, (1 << 64) - 1))]
    numbers += [rng.choice((0, 1, -1, COORDINATE_LIMIT, LOWEST, HIGHEST)) for _ in range(3)]
    return wire.case(wire.SWEEP, numbers, links, points, log, b"", redo, (start, redo_start))


# Listed cases

def exact_case(table, face, vector):
    """Exactly the room that is needed in both logs; the bytes there are none that a log has."""
    room = redo = 0
    if face_refusal(Boundary(table), face, vector) == 0:
        _, operators, inverses = swept(table.links, table.points, face, vector)
        room, redo = bytes_needed(inverses), len(script_bytes(operators))
    return wire.case(wire.SWEEP, (face, *vector), table.links, table.points, b"\xEE" * room, b"", b"\xEE" * redo,
                     (room, 0))


def small_cases():
    """Every table of two edges at most, every face, three vectors, exactly the free numbers that are taken."""
    cases = []
    for b in [body for size in LISTED for body in every_body(*size)]:
        b.points = {vertex: (100 * vertex, -7 * vertex, vertex * vertex) for vertex in b.points}
        for face in b.face_solid:
            corners, ranges = len(corners_of_face(b, face)), ranges_of(b, face)
            table = table_with(b, taken_by(corners))
            vectors = ((0, 0, 0), (-20, 300, 4_000), (ranges[0][1], ranges[1][0], ranges[2][1]))
            cases += [exact_case(table, face, vector) for vector in vectors]
    return cases


def range_cases():
    """A triangle whose corners lie together, at the middle or at an end of the range, moved along one axis: up to an
    end, one beyond, and by the lowest and the highest i32."""
    cases = []
    for middle, axis in itertools.product((0, 1, -1, COORDINATE_LIMIT, -COORDINATE_LIMIT), range(3)):
        b = body_of({1: [1, 3, 5], 2: [6, 4, 2]}, {1: 1, 2: 2}, {1: 1, 2: 2}, lambda: (middle,) * 3)
        table = table_with(b, taken_by(3))
        ends = [sign * (COORDINATE_LIMIT + more) - middle for sign in (1, -1) for more in (0, 1)]
        cases += [exact_case(table, 2, [shift * (place == axis) for place in range(3)])
                  for shift in (*ends, LOWEST, LOWEST + 1, HIGHEST)]
    return cases


def long_face(edges):
    """One loop there and back along so many edges: twice as many corners."""
    there = list(range(1, 2 * edges, 2))
    return body_of({1: there + [mate(half) for half in reversed(there)]}, {1: 1}, {1: 1})


def long_case(rng, edges):
    """A long face in a table of the largest capacities, under a stranger's numbers."""
    table = renumbered(rng, long_face(edges), (CAPACITY_LIMIT,) * 5)
    return exact_case(table, min(table.used("face")), FARTHEST)


def longest_cases(rng):
    """Sweeps of some hundred corners, and of as many as there can be: an edge met twice takes four more."""
    return [long_case(rng, edges) for edges in (100, CAPACITY_LIMIT // 5)]
