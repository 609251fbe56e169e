"""The sweep of document 02 (job 7): a face lifted by a vector, as in source document 000, Figure 8.

The steps are a generator: it yields the next operator and goes on when that one has been carried out. So the least free
numbers, and the half-edges beside a corner, are looked for in the table that the operator before has left. The steps
run on a copy, so that a log too short can still refuse them: "The sweep is done whole or not at all".
"""

from collections import namedtuple

from boundary import Boundary, from_half, write_back
from kernel import entry_refusal, put_in_front
from layout import COORDINATE_LIMIT, Table
from operators import carry_out
from script import limits_of, operator, operator_bytes
from takedown import least_free

# How many numbers of each kind a corner takes: its riser and its top edge are two.
TAKEN = {"vertex": 1, "edge": 2, "face": 1, "loop": 1}

SweepAnswer = namedtuple("SweepAnswer", "refusal rule done")
# What the steps leave: the body, and the operators and their inverses in the order in which they were done.
Swept = namedtuple("Swept", "body operators inverses")


def sweep(links, points, log, redo, session, face, dx, dy, dz):
    """Lifts a face; links, points, log (a bytearray) and session change in place. A refusal changes nothing."""
    refusal, rule = entry_refusal(links, points, (log, session.log))
    if refusal != 0:
        return SweepAnswer(refusal, rule, 0)
    refusal = face_refusal(Boundary(Table(links, points)), face, (dx, dy, dz))
    if refusal != 0:
        return SweepAnswer(refusal, 0, 0)
    body, _, inverses = swept(links, points, face, (dx, dy, dz))
    if session.log < bytes_needed(inverses):
        return SweepAnswer(9, 0, 0)
    for inverse in inverses:
        session.log = put_in_front(log, session.log, operator_bytes(inverse))
    write_back(body, links, points)
    session.empty_redo(redo, len(inverses))
    return SweepAnswer(0, 0, len(inverses))


def swept(links, points, face, vector):
    """The steps on a copy of a table that is not refused."""
    body, operators, inverses = Boundary(Table(links, points)), [], []
    for op in steps(body, face, vector):
        refusal, inverse = carry_out(body, op)
        assert refusal == 0, f"the sweep's own {op} is refused by {refusal}"
        operators.append(op)
        inverses.append(inverse)
    return Swept(body, operators, inverses)


def bytes_needed(inverses):
    """By "a log too short for all their inverses": the length of all of them together."""
    return sum(len(operator_bytes(inverse)) for inverse in inverses)


# Refusals

def face_refusal(b, face, vector):
    """All but 1, 2 and 9, by "5 and 6 for the face, 14 for a lone loop in it, 5 for a moved point out of range, 10 for
    too few free numbers"."""
    if not 1 <= face <= limits_of(b.capacities)["face"]:
        return 5
    if not b.in_use("face", face):
        return 6
    if any(loop in b.lone for loop in b.loops_of_face(face)):
        return 14
    if any(abs(c) > COORDINATE_LIMIT for point in moved_points(b, face, vector) for c in point):
        return 5
    return 10 if lacking_kinds(b, face) else 0


def moved_points(b, face, vector):
    """The point above each corner."""
    return [moved(b.points[b.start[half]], vector) for _, half in corners_of_face(b, face)]


def lacking_kinds(b, face):
    """The kinds of which fewer numbers are free than the corners take."""
    corners, free = len(corners_of_face(b, face)), free_counts(b)
    return [kind for kind, each in TAKEN.items() if free[kind] < each * corners]


def free_counts(b):
    """How many numbers of each kind are free."""
    limits, used = limits_of(b.capacities), {kind: len(b.items(kind)) for kind in ("face", "loop", "vertex")}
    used["edge"] = len(b.start) // 2
    return {kind: limits[kind] - used[kind] for kind in TAKEN}


# Steps

def steps(b, face, vector):
    """By "loops by number, in each all mev before any mef, corners from the first half-edge, one riser per corner and
    one side face per side"."""
    for loop in sorted(b.loops_of_face(face)):
        corners = corners_of_loop(b, loop)
        for corner in corners:
            yield riser(b, loop, corner, vector)
        for corner in corners:
            yield side(b, loop, corner, way=2 if len(corners) == 1 else 0)


def riser(b, loop, corner, vector):
    """From the corner's vertex to the new one above it: k, then its mate, both just before the corner."""
    point = moved(b.points[b.start[corner]], vector)
    return operator("mev", loop, corner, least_free(b, "edge"), least_free(b, "vertex"), 0, *point)


def side(b, loop, corner, way):
    """Closes the side above a half-edge of the old face. The new loop gets "h1 up to before h2, then a's mate": the way
    down to the corner, the corner's half-edge, the way up at its end, and the top edge back.

    The way down, h1, comes just before the corner. The way up is next of the corner, and h2 is next of that.
    """
    turn = from_half(b.cycles[loop], corner)
    h1, h2 = turn[-1], turn[2]
    return operator("mef", loop, h1, h2, least_free(b, "edge"), least_free(b, "face"), least_free(b, "loop"), way)


def corners_of_loop(b, loop):
    """The half-edges of a loop from its first one on, which is "the least of them"."""
    cycle = b.cycles[loop]
    return from_half(cycle, min(cycle)) if cycle else []


def corners_of_face(b, face):
    """Of all its loops by number, rings too, as pairs of loop and half-edge."""
    return [(loop, half) for loop in sorted(b.loops_of_face(face)) for half in corners_of_loop(b, loop)]


def moved(point, vector):
    return tuple(c + d for c, d in zip(point, vector))
