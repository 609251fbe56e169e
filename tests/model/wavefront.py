"""Wavefront OBJ of document 02, job 2: the text of a solid, the refusals, a reader, and the program that prints it.

The reader knows nothing of tables. It takes exactly the texts that the job describes, so that what it takes and writes
again is the same text.
"""

import re
from collections import namedtuple

from boundary import Boundary, from_half
from kernel import Session, run
from layout import Table, cleared_table
from rules import check

PROGRAM_CAPACITY = 1_024
PROGRAM_LOG = 655_360
PROGRAM_INPUT = 65_536

# "under three sides": a side is a half-edge of the loop.
FEWEST_SIDES = 3

ObjAnswer = namedtuple("ObjAnswer", "refusal rule length")
# Points in hundredths of a millimetre; faces as lists of places among them, counted from 1.
Mesh = namedtuple("Mesh", "points faces")


# The text

def millimetres(c):
    """By "in millimetres with two decimals, a digit before the point and a minus sign only below zero"."""
    whole, hundredths = divmod(abs(c), 100)
    return f"{'-' if c < 0 else ''}{whole}.{hundredths:02}"


def text_of(mesh):
    """By "single spaces, LF after each line": the "v" lines, then the "f" lines."""
    lines = [["v", *map(millimetres, point)] for point in mesh.points]
    lines += [["f", *map(str, face)] for face in mesh.faces]
    return "".join(" ".join(words) + "\n" for words in lines).encode("ascii")


def backwards(cycle):
    """By "each loop is written from the start of its first half-edge and then backwards"; done twice it is undone."""
    return cycle[:1] + cycle[:0:-1]


def mesh_of(b, solid):
    """A solid that can be written: its vertices and faces by number, a vertex counted by its place among them."""
    loops = [outer for face, outer in sorted(b.face_outer.items()) if b.face_solid[face] == solid]
    cycles = [[b.start[half] for half in from_half(b.cycles[loop], min(b.cycles[loop]))] for loop in loops]
    vertices = sorted({vertex for cycle in cycles for vertex in cycle})
    rank = {vertex: place for place, vertex in enumerate(vertices, 1)}
    return Mesh([b.points[vertex] for vertex in vertices],
                [[rank[vertex] for vertex in backwards(cycle)] for cycle in cycles])


# The call

def can_be_written(b, solid):
    """Not by "12, a face has a ring, a lone loop or, in this job only, under three sides"."""
    loops = [loop for loop, face in b.loop_face.items() if b.face_solid[face] == solid]
    return not any(b.is_ring(loop) or len(b.cycles[loop]) < FEWEST_SIDES for loop in loops)


def obj(links, points, solid, out):
    """Writes a solid's text at the front of out (a bytearray). The length is the text's, also where it does not fit."""
    refusal, rule = check(links, points)
    if refusal != 0:
        return ObjAnswer(refusal, rule, 0)
    b = Boundary(Table(links, points))
    if not 1 <= solid <= b.capacities[0]:
        return ObjAnswer(5, 0, 0)
    if solid not in b.solids:
        return ObjAnswer(6, 0, 0)
    if not can_be_written(b, solid):
        return ObjAnswer(12, 0, 0)
    text = text_of(mesh_of(b, solid))
    if len(text) > len(out):
        return ObjAnswer(13, 0, len(text))
    out[:len(text)] = text
    return ObjAnswer(0, 0, len(text))


# The reader

COORDINATE = rb"-?(?:0|[1-9][0-9]*)\.[0-9]{2}"
TEXT = re.compile(rb"(?:v(?: " + COORDINATE + rb"){3}\n)*(?:f(?: [1-9][0-9]*){3,}\n)*")
LINE = re.compile(rb"([vf])([^\n]*)\n")


def hundredths_of(word):
    """The coordinate that a word of a "v" line stands for."""
    sign = -1 if word.startswith(b"-") else 1
    whole, decimals = word.lstrip(b"-").split(b".")
    value = 100 * int(whole) + int(decimals)
    if sign < 0 and value == 0:
        raise ValueError("a minus sign that is not below zero")
    return sign * value


def read_text(text):
    """The mesh of a text; ValueError where it is not just as the job says."""
    if not TEXT.fullmatch(text):
        raise ValueError("not lines of OBJ text as they are written here")
    mesh = Mesh([], [])
    for letter, words in LINE.findall(text):
        if letter == b"v":
            mesh.points.append(tuple(map(hundredths_of, words.split())))
        else:
            mesh.faces.append(list(map(int, words.split())))
    if any(place > len(mesh.points) for face in mesh.faces for place in face):
        raise ValueError("a face of a vertex that is not there")
    return mesh


def six_volumes(mesh):
    """Six times the volume inside, in cubic hundredths of a millimetre: each face in triangles from its first vertex.

    Positive where faces are counterclockwise seen from outside.
    """
    total = 0
    for face in mesh.faces:
        first, *others = (mesh.points[place - 1] for place in face)
        total += sum(determinant(first, one, two) for one, two in zip(others, others[1:]))
    return total


def determinant(a, b, c):
    minors = (b[1] * c[2] - b[2] * c[1], b[2] * c[0] - b[0] * c[2], b[0] * c[1] - b[1] * c[0])
    return sum(x * minor for x, minor in zip(a, minors))


# The program

def obj_program(data):
    """What the program that prints a part prints for these bytes of standard input."""
    if len(data) > PROGRAM_INPUT:
        return b"# input too long\n"
    table, log = cleared_table((PROGRAM_CAPACITY,) * 5), bytearray(PROGRAM_LOG)
    refusal = run(table.links, table.points, log, b"", Session(len(log)), data).refusal
    if refusal == 0:
        # A vertex takes 26 bytes at most, a face 2 and a side of it 5: so no text of such a table is longer.
        out = bytearray((26 + 2 + 2 * 5) * PROGRAM_CAPACITY)
        refusal, _, length = obj(table.links, table.points, min(table.used("solid"), default=0), out)
    return bytes(out[:length]) if refusal == 0 else f"# refusal {refusal}\n".encode("ascii")


if __name__ == "__main__":
    import sys
    sys.stdout.buffer.write(obj_program(sys.stdin.buffer.read(PROGRAM_INPUT + 1)))
