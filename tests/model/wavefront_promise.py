"""What document 02 promises of the OBJ text, held against a kernel's answers: the compiled one's, or the model's own.

"A reader of the text must find the same points and the same vertex cycles, turned round." What has to be found is read
off the words of the table here, by way of "next", while the text goes backwards.
"""

from layout import Table
from rules import orbit
from wavefront import read_text, text_of

# The most bytes of a "v" line, of an "f" line without its numbers, and of such a number with its space.
VERTEX_BYTES, FACE_BYTES, SIDE_BYTES = len("v -500.00 -500.00 -500.00\n"), len("f\n"), len(" 4096")


def vertex_cycles(table, solid):
    """For each face of the solid by number the vertices of its loop, from the first half-edge on by "next"."""
    loops, halves, cycles = table.used("loop"), table.used("half"), []
    for _, outer in [words for _, words in sorted(table.used("face").items()) if words[0] == solid]:
        half, cycle = loops[outer][1], []
        for _ in orbit(half, lambda h: halves[h][2]):
            cycle.append(halves[half][0])
            half = halves[half][2]
        cycles.append(cycle)
    return cycles


def turned_round(cycle):
    """The same cycle in the other direction, with the same vertex in front."""
    return [cycle[-place] for place in range(len(cycle))]


def read_or_why(text):
    """What the reader finds, or why it takes no such text."""
    try:
        return read_text(text)
    except ValueError as why:
        return f"not read: {why}"


def keep_promise(tally, case, answer):
    """Of a call that is not refused."""
    name, (solid,), length = f"OBJ: {case}", case.numbers, answer.numbers[2]
    text, table = answer.script[:length], Table(case.links, case.points)
    mesh, cycles = read_or_why(text), vertex_cycles(table, solid)
    vertices = sorted(set(sum(cycles, [])))
    if not tally.holds(f"{mesh}: {name}", not isinstance(mesh, str)):
        return
    tally.equal(f"the same points, {name}", mesh.points, [table.point(vertex) for vertex in vertices])
    found = [[vertices[place - 1] for place in face] for face in mesh.faces]
    tally.equal(f"the same vertex cycles, {name}", [turned_round(cycle) for cycle in found], cycles)
    tally.equal(f"written again, {name}", text_of(mesh), text)
    most = VERTEX_BYTES * len(vertices) + FACE_BYTES * len(cycles) + SIDE_BYTES * sum(map(len, cycles))
    tally.holds(f"not too long, {name}", length <= most)
    tally.equal(f"bytes behind the text, {name}", answer.script[length:], case.script[length:])
