"""What the examples show of OBJ text: the insert as a script and as a text, the example in C, the pictures."""

import os
import re

import draw_obj
import insert
import library
from files import ROOT, output_of, read
from geometry import flat, six_volumes
from kernel import Session, program, run
from layout import cleared_table
from parts import CAPACITIES, script_of
from rules import check
from script import operator, script_bytes
from generate import table_of

PROGRAM = os.path.join(ROOT, "target", "bin", "zoghvari_obj")
# In cubic millimetres: 60 x 40 x 25 less the corner's 30 x 20 x 25.
INSERT = 60 * 40 * 25 - 30 * 20 * 25


def turned(b):
    """What a reader has to find in the text of a table's only solid: the points by number, in millimetres, and the
    faces by number, each from its first half-edge and then backwards, its corners by their places among the points."""
    faces = []
    for face in sorted(b.face_solid):
        cycle = b.cycles[b.face_outer[face]]
        first = cycle.index(min(cycle))
        faces.append([sorted(b.points).index(b.start[cycle[first - step]]) for step in range(len(cycle))])
    return [tuple(c / 100 for c in b.points[v]) for v in sorted(b.points)], faces


def insert_script(tally):
    part, data, text = insert.insert(), read("examples/insert.script", "rb"), read("examples/insert.obj")
    tally.equal("insert.script is what insert.py writes", data, script_of(part))
    table = table_of(part.table)
    tally.equal("the insert's table is sound", check(table.links, table.points), (0, 0))
    tally.equal("what the model counts of it", program(data).splitlines()[1], "s 1 f 8 l 8 e 18 v 12 r 0 h 0")
    tally.equal("what a reader of insert.obj finds", draw_obj.read(text), turned(part.table))
    if os.path.exists(PROGRAM):
        tally.equal("the program zoghvari_obj on insert.script", output_of([PROGRAM], data), (0, text))


def bodies(tally, name, text, volume):
    """The faces of a text together are a body of this volume, each of them flat."""
    points, numbered = draw_obj.read(text)
    faces = [[points[number] for number in face] for face in numbered]
    tally.equal(f"the volume by {name}", six_volumes(faces), 6 * volume)
    tally.equal(f"the faces of {name} are flat", [face for face in faces if not flat(face)], [])


def view_example(tally, folder, kernel, volume):
    """The example joins the pocket's rings; the insert has none. `volume` is the pocket's."""
    view = library.compile_c(["examples/view.c"], os.path.join(folder, "view"), kernel)
    wanted, text = read("examples/view.expected"), read("examples/insert.obj")
    tally.equal("examples/view.c, the pocket", output_of([view], read("examples/pocket.script", "rb")), (0, wanted))
    bodies(tally, "view.expected", wanted, volume)
    picked_corners(tally, wanted)
    bodies(tally, "insert.obj", text, INSERT)
    data, said = read("examples/insert.script", "rb"), "# build: refusal 0 done 19 used 185 of 185\n"
    said += "# solid 1: refusal 13 length 323\n"
    tally.equal("examples/view.c, the insert", output_of([view], data), (0, said + text))
    said = "# build: refusal 0 done 1 used 8 of 8\n# solid 1: refusal 12 length 0\n"
    tally.equal("examples/view.c, one vertex", output_of([view], bytes((1, 1, 1, 1, 1, 0, 0, 0))), (1, said))


def picked_corners(tally, text):
    """How many half-edges start at the ends of each edge that joins a ring: those told, and those the model counts."""
    table, log = cleared_table(CAPACITIES), bytearray(1 << 16)
    session = Session(len(log))
    run(table.links, table.points, log, b"", session, read("examples/pocket.script", "rb"))
    told = re.findall(r"# mekr ([\d ]+): refusal 0\n# corners: (\d+) half-edges at vertex (\d+), (\d+) at vertex (\d+)",
                      text)
    tally.equal("corners told in view.expected", len(told), 3)
    for operands, *corners in told:
        mekr = script_bytes([operator("mekr", *map(int, operands.split()))])
        tally.equal("a ring joined", run(table.links, table.points, log, b"", session, mekr)[:3], (0, 0, 1))
        started = [words[0] for words in table.used("half").values()]
        for valence, vertex in (corners[:2], corners[2:]):
            tally.equal(f"half-edges at vertex {vertex}", int(valence), started.count(int(vertex)))


def pictures(tally):
    """The pictures are what is drawn now. A face that is turned the wrong way is seen: one that the eye should see is
    missing, one that it should not see is there."""
    text = read("examples/insert.obj")
    tally.equal("docs/pictures/insert.svg", draw_obj.drawing(text), read("docs/pictures/insert.svg"))
    pocket = draw_obj.drawing(read("examples/view.expected"))
    tally.equal("docs/pictures/pocket.svg", pocket, read("docs/pictures/pocket.svg"))
    lines = text.splitlines()
    for place in [place for place, line in enumerate(lines) if line.startswith("f")]:
        wrong = lines[:place] + [" ".join(["f"] + lines[place].split()[:0:-1])] + lines[place + 1:]
        more = len(drawn(wrong)) - len(drawn(lines))
        tally.equal(f"line {place + 1} of insert.obj turned round", abs(more), 1)


def drawn(lines):
    return draw_obj.drawing("\n".join(lines)).splitlines()
