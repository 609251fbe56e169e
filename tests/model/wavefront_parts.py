"""Parts as a stranger writes them down: points, and faces seen from outside. No operator takes part in it.

Coordinates are hundredths of a millimetre. Outlines are clockwise seen from above, as faces are seen from outside.
"""

from collections import namedtuple
from itertools import count
from math import cos, pi, sin

from boundary import Boundary
from kernel import Session
from layout import cleared_table, edge_of, mate
from takedown import bytes_needed, take_down

# A body, and six times the volume that its first solid is meant to have.
Part = namedtuple("Part", "name body volumes")

OBLONG = ((-4_000, -3_000), (-4_000, 3_000), (4_000, 3_000), (4_000, -3_000))
INSIDE = ((-512, -705), (-512, 705), (512, 705), (512, -705))
TRIANGLE = ((0, 0), (1_500, 2_405), (3_007, 0))
ANGLE = ((0, 0), (0, 5_000), (1_000, 5_000), (1_000, 1_200), (3_000, 1_200), (3_000, 0))
STAR = ((0, 1_000), (200, 300), (1_000, 0), (200, -300), (0, -1_000), (-200, -300), (-1_000, 0), (-200, 300))


# Bodies

def written(points, faces):
    """A Boundary of one solid. Faces are lists of places among the points, counted from 1."""
    b, halves, odd = Boundary(cleared_table((1,) * 5)), {}, count(1, 2)
    b.solids, b.points = {1}, dict(enumerate(points, 1))
    for number, face in enumerate(faces, 1):
        b.face_solid[number], b.face_outer[number], b.loop_face[number] = 1, number, number
        for one, two in zip(face, face[1:] + face[:1]):
            assert (one, two) not in halves, "an edge with more than two sides"
            halves[one, two] = mate(halves[two, one]) if (two, one) in halves else next(odd)
            b.start[halves[one, two]] = one
        b.cycles[number] = [halves[pair] for pair in zip(face, face[1:] + face[:1])]
    assert all(mate(half) in b.start for half in b.start), "an edge with one side"
    return b


def beside(one, other):
    """A Boundary of both, the other's numbers behind the one's."""
    b = Boundary(cleared_table((1,) * 5))
    s, f, l, v = (max(used, default=0) for used in (one.solids, one.face_solid, one.loop_face, one.points))
    h = 2 * max(map(edge_of, one.start), default=0)
    b.solids = one.solids | {n + s for n in other.solids}
    b.face_solid = one.face_solid | {n + f: to + s for n, to in other.face_solid.items()}
    b.face_outer = one.face_outer | {n + f: to + l for n, to in other.face_outer.items()}
    b.loop_face = one.loop_face | {n + l: to + f for n, to in other.loop_face.items()}
    b.cycles = one.cycles | {n + l: [k + h for k in cycle] for n, cycle in other.cycles.items()}
    b.lone = one.lone | {n + l: to + v for n, to in other.lone.items()}
    b.start = one.start | {n + h: to + v for n, to in other.start.items()}
    b.points = one.points | {n + v: point for n, point in other.points.items()}
    return b


def script_of(table):
    """A script that builds this table from a cleared one: what the take-down logs. The table is taken down by it."""
    need = bytes_needed(table.links, table.points)
    log = bytearray(need)
    taken = take_down(table.links, table.points, log, b"", Session(need))
    assert taken.refusal == 0, "a number lacks"
    return bytes(log[taken.start:])


# Shapes

def square(half_side):
    return ((-half_side, -half_side), (-half_side, half_side), (half_side, half_side), (half_side, -half_side))


def circle(sides, radius):
    """Corners as near to a circle as hundredths are."""
    angles = [-2 * pi * place / sides for place in range(sides)]
    return tuple((round(radius * cos(angle)), round(radius * sin(angle))) for angle in angles)


def rims_of(outlines):
    """The places of the corners of several outlines, one outline behind the other."""
    n = len(outlines[0])
    return [list(range(n * place + 1, n * place + n + 1)) for place in range(len(outlines))]


def band(one, two):
    """A face between each two corners of two rims; seen from outside the second rim runs clockwise above the first."""
    return [list(corners) for corners in zip(two[1:] + two[:1], two, one, one[1:] + one[:1])]


def at(outline, height, move=(0, 0)):
    return [(x + move[0], y + move[1], height) for x, y in outline]


def prism(outline, low, high, slant=(0, 0)):
    """An outline between two heights; the upper one moved by slant."""
    rims = at(outline, low), at(outline, high, slant)
    below, above = rims_of(rims)
    return written(rims[0] + rims[1], band(below, above) + [above, below[::-1]])


def frame(outline, hole, low, high):
    """A block with a hole through it; top and bottom have a face for each corner, so that none has a ring."""
    outlines = at(outline, low), at(outline, high), at(hole, high), at(hole, low)
    rims = rims_of(outlines)
    return written(sum(outlines, []), [face for one, two in zip(rims, rims[1:] + rims[:1]) for face in band(one, two)])


def pyramid(outline, height):
    base = list(range(1, len(outline) + 1))
    tip = len(outline) + 1
    return written(at(outline, 0) + [(*outline[0], height)],
                   [base[::-1]] + [[one, two, tip] for one, two in zip(base, base[1:] + base[:1])])


def octahedron(radius, centre):
    """Places 1 and 4, 2 and 5, 3 and 6 lie opposite each other."""
    ends = [(axis, sign) for sign in (1, -1) for axis in range(3)]
    points = [tuple(c + sign * radius * (place == axis) for place, c in enumerate(centre)) for axis, sign in ends]
    return written(points, [[1, 3, 2], [1, 2, 6], [1, 6, 5], [1, 5, 3], [4, 2, 3], [4, 6, 2], [4, 5, 6], [4, 3, 5]])


def flat(points):
    """One outline with a face on either side: nothing inside, and a vertex for each edge."""
    places = list(range(1, len(points) + 1))
    return written(list(points), [places, places[::-1]])


# Parts

def twice_area(outline):
    """Of an outline that is clockwise seen from above."""
    return sum(x2 * y1 - x1 * y2 for (x1, y1), (x2, y2) in zip(outline, outline[1:] + outline[:1]))


def prism_part(name, outline, low, high, slant=(0, 0)):
    return Part(name, prism(outline, low, high, slant), 3 * twice_area(outline) * (high - low))


def numbered_first(b):
    """The second of two solids made number 1; its faces and vertices keep the higher numbers."""
    b.face_solid = {face: 3 - solid for face, solid in b.face_solid.items()}
    return b


def parts():
    """Convex and concave ones, one with a hole, the largest, the smallest, one of many sides, one beside another."""
    block, wedge = prism_part("block", OBLONG, 0, 3_000), prism_part("wedge", TRIANGLE, -805, -5)
    ring = Part("frame", frame(OBLONG, INSIDE, -1, 1_999), 3 * 2_000 * (twice_area(OBLONG) - twice_area(INSIDE)))
    spire = Part("pyramid", pyramid(ANGLE, 707), twice_area(ANGLE) * 707)
    gem = Part("octahedron", octahedron(1_234, (-40_000, 40_000, 7)), 8 * 1_234 ** 3)
    return [block, wedge, ring, spire, gem,
            prism_part("angle", ANGLE, -1_250, 1_250),
            prism_part("star", STAR, 0, 99),
            prism_part("slanted block", OBLONG, -3_333, 1_111, (2_222, -50)),
            prism_part("largest block", square(50_000), -50_000, 50_000),
            prism_part("smallest block", ((0, 0), (0, 1), (1, 1), (1, 0)), 0, 1),
            prism_part("many sides", circle(120, 40_000), 0, 12_345),
            Part("octahedron behind a wedge", numbered_first(beside(wedge.body, gem.body)), gem.volumes)]
