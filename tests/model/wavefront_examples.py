"""Hand-made cases of the OBJ text: coordinates, two solids in one table by their words, refusals, what is not read."""

from examples import B, BREAKERS, C, D, SMALL, Desk
from rules import check
from script import operator, operator_bytes, script_bytes
from wavefront import PROGRAM_INPUT, Mesh, hundredths_of, millimetres, obj, obj_program, read_text, six_volumes, text_of

MILLIMETRES = [
    (0, "0.00"), (1, "0.01"), (-1, "-0.01"), (5, "0.05"), (-5, "-0.05"), (10, "0.10"), (-10, "-0.10"), (50, "0.50"),
    (99, "0.99"), (-99, "-0.99"), (100, "1.00"), (-100, "-1.00"), (101, "1.01"), (-950, "-9.50"), (1_000, "10.00"),
    (1_005, "10.05"), (-9_999, "-99.99"), (10_000, "100.00"), (-12_345, "-123.45"), (49_999, "499.99"),
    (50_000, "500.00"), (-50_000, "-500.00"),
]


def coordinates(tally):
    for hundredths, word in MILLIMETRES:
        tally.equal(f"{hundredths} hundredths", millimetres(hundredths), word)
        tally.equal(f"{word} mm", hundredths_of(word.encode()), hundredths)


# Two solids under numbers with gaps: solid 2, face 2, edge 2 and vertex 3 are free. Solid 1 is a lone vertex, 1, with
# face 3 and loop 2. Solid 3 is a triangle with a face on either side: face 1 has loop 3, whose half-edges 2, 6, 7 start
# at the vertices 2, 4, 5; face 4 has loop 1, whose half-edges 1, 8, 5 start at 4, 2, 5.
TWO_SOLIDS = [3, 4, 3, 4, 5] + [1, 0, 1] + [3, 3] + [0, 0] + [1, 2] + [3, 1] + [4, 1, 0] + [3, 0, 1] + [1, 2, 0] \
    + [4, 1, 8, 5] + [2, 3, 6, 7] + [0] * 8 + [5, 1, 1, 8] + [4, 3, 7, 2] + [5, 3, 2, 6] + [2, 1, 5, 1] \
    + [1, 3, 0, 3, 3]
TWO_POINTS = [7, 7, 7] + [-5, 0, 50_000] + [0, 0, 0] + [-50_000, 99, 100] + [1, -100, -101]
# The vertices 2, 4, 5 are counted 1, 2, 3; backwards the half-edges are 2, 7, 6 and 1, 5, 8.
TRIANGLE_TEXT = b"v -0.05 0.00 500.00\nv -500.00 0.99 1.00\nv 0.01 -1.00 -1.01\nf 1 3 2\nf 2 3 1\n"


def two_solids(tally):
    tally.equal("two solids are sound", check(TWO_SOLIDS, TWO_POINTS), (0, 0))
    length = len(TRIANGLE_TEXT)
    for room in (length, length + 1, length + 50):
        out = bytearray(b"\xEE" * room)
        tally.equal(f"the triangle in {room} bytes", obj(TWO_SOLIDS, TWO_POINTS, 3, out), (0, 0, length))
        tally.equal(f"its text in {room} bytes", bytes(out), TRIANGLE_TEXT + b"\xEE" * (room - length))
    for room in (0, 1, length - 1):
        out = bytearray(b"\xEE" * room)
        tally.equal(f"the triangle in {room} bytes", obj(TWO_SOLIDS, TWO_POINTS, 3, out), (13, 0, length))
        tally.equal(f"no byte of {room} written", bytes(out), b"\xEE" * room)


def refusals_in_order(tally):
    """Each with all that come behind it too: 1, 2, then 5 and 6 for the solid, 12, 13."""
    for solid in (0, 4, 1, 2, 3):
        tally.equal(f"1 before all, solid {solid}", obj(TWO_SOLIDS[:-1], TWO_POINTS, solid, bytearray()), (1, 0, 0))
        tally.equal(f"1 by points, solid {solid}", obj(TWO_SOLIDS, TWO_POINTS + [0], solid, bytearray()), (1, 0, 0))
        broken = TWO_POINTS[:-1] + [-50_001]
        tally.equal(f"2 before all others, solid {solid}", obj(TWO_SOLIDS, broken, solid, bytearray()), (2, 1, 0))
    for rule, (links, points) in BREAKERS.items():
        tally.equal(f"2 names rule {rule}", obj(links, points, 0, bytearray()), (2, rule, 0))
    for solid, refusal in ((0, 5), (4, 5), (65_537, 5), (65_539, 5), (1 << 32, 5), ((1 << 64) - 1, 5), (2, 6), (1, 12)):
        for room in (0, 1_000):
            answer = obj(TWO_SOLIDS, TWO_POINTS, solid, bytearray(room))
            tally.equal(f"solid {solid} with {room} bytes", answer, (refusal, 0, 0))


def scope_examples(tally):
    """A lone loop, one of two sides, and two of two sides: none can be written."""
    desk = Desk(SMALL)
    tally.equal("the empty table", obj(desk.links, desk.points, 1, bytearray()), (6, 0, 0))
    for name, script in (("b", B), ("c", C), ("d", D)):
        desk.run(script)
        tally.equal(f"example {name}", obj(desk.links, desk.points, 1, bytearray(500)), (12, 0, 0))


# A block of 10 by 20 by 30 mm from one corner on, as a person writes it.
BLOCK = Mesh([(x, y, z) for z in (0, 3_000) for x, y in ((0, 0), (1_000, 0), (1_000, 2_000), (0, 2_000))],
             [[4, 3, 2, 1], [5, 6, 7, 8], [1, 2, 6, 5], [2, 3, 7, 6], [3, 4, 8, 7], [4, 1, 5, 8]])
BLOCK_TEXT = b"""\
v 0.00 0.00 0.00
v 10.00 0.00 0.00
v 10.00 20.00 0.00
v 0.00 20.00 0.00
v 0.00 0.00 30.00
v 10.00 0.00 30.00
v 10.00 20.00 30.00
v 0.00 20.00 30.00
f 4 3 2 1
f 5 6 7 8
f 1 2 6 5
f 2 3 7 6
f 3 4 8 7
f 4 1 5 8
"""


def block(tally):
    tally.equal("the block written", text_of(BLOCK), BLOCK_TEXT)
    tally.equal("the block read", read_text(BLOCK_TEXT), BLOCK)
    tally.equal("the block's volume", six_volumes(BLOCK), 6 * 1_000 * 2_000 * 3_000)
    turned = Mesh(BLOCK.points, [face[::-1] for face in BLOCK.faces])
    tally.equal("the block turned inside out", six_volumes(turned), -6 * 1_000 * 2_000 * 3_000)


# Changes of the block's text after which it is not read.
SPOILED = [
    ("no LF at the end", b"f 4 1 5 8\n", b"f 4 1 5 8"), ("CR LF", b"\n", b"\r\n"),
    ("a blank line", b"f 4 3", b"\nf 4 3"), ("two spaces", b"f 4 3", b"f  4 3"), ("a tab", b"f 4 3", b"f\t4 3"),
    ("a space behind", b"2 1\n", b"2 1 \n"),
    ("a space in front", b"f 4 3", b" f 4 3"), ("one decimal", b"10.00 0.00 0.00", b"10.0 0.00 0.00"),
    ("three decimals", b"10.00 0.00 0.00", b"10.000 0.00 0.00"), ("no point", b"v 10.00", b"v 10"),
    ("a comma", b"v 10.00", b"v 10,00"), ("no digit before the point", b"v 0.00", b"v .00"),
    ("a leading zero", b"v 10.00", b"v 010.00"), ("two zeros before the point", b"v 0.00", b"v 00.00"),
    ("a plus sign", b"v 10.00", b"v +10.00"), ("minus zero", b"v 0.00", b"v -0.00"),
    ("two signs", b"v 10.00", b"v --10.00"),
    ("an exponent", b"v 10.00", b"v 1e1"), ("two coordinates", b"v 10.00 0.00 0.00", b"v 10.00 0.00"),
    ("four coordinates", b"v 10.00 0.00 0.00", b"v 10.00 0.00 0.00 1.00"), ("two sides", b"f 4 3 2 1", b"f 4 3"),
    ("place 0", b"f 4 3 2 1", b"f 4 3 2 0"), ("a place from behind", b"f 4 3 2 1", b"f 4 3 2 -1"),
    ("a place that is not there", b"f 5 6 7 8", b"f 5 6 7 9"), ("a place with a zero in front", b"f 4 3", b"f 04 3"),
    ("textures", b"f 4 3 2 1", b"f 4/1 3/1 2/1 1/1"), ("a comment", b"f 4 3", b"# bottom\nf 4 3"),
    ("an object's name", b"v 0.00 0.00 0.00\n", b"o block\nv 0.00 0.00 0.00\n"), ("capitals", b"v ", b"V "),
    ("a vertex behind a face", b"f 4 1 5 8\n", b"f 4 1 5 8\nv 0.00 0.00 0.00\n"),
    ("a byte from above ASCII", b"v 10.00", b"v\xA010.00"), ("other digits", b"v 10.00", "v \u0661\u0660.00".encode()),
]


def reads(text):
    try:
        return read_text(text)
    except ValueError:
        return None


def spoiled_texts(tally):
    for name, old, new in SPOILED:
        tally.holds(f"there to be spoiled: {name}", old in BLOCK_TEXT)
        tally.equal(f"not read: {name}", reads(BLOCK_TEXT.replace(old, new, 1)), None)
    tally.equal("nothing at all", reads(b""), Mesh([], []))


def triangle(n):
    """The n-th of triangles with a face on either side, by operators.

    Of the first, loop 2 has the half-edges 1, 3, 6 from the vertices 1, 2, 3, loop 1 has 2, 5, 4 from 2, 1, 3.
    """
    face, edge = 2 * n - 1, 3 * n - 2
    return script_bytes([operator("mvsf", n, face, face, edge, 0, 0, 0),
                         operator("mev", face, 0, edge, edge + 1, 0, 1_000 * n, 0, 0),
                         operator("mev", face, 2 * edge, edge + 1, edge + 2, 0, 0, 1_000, 0),
                         operator("mef", face, 2 * edge - 1, 2 * edge + 2, edge + 2, face + 1, face + 1, 0)])


FIRST, SECOND, KILLED = triangle(1), triangle(2), operator_bytes(operator("kvsf", 1))
FIRST_TEXT = b"v 0.00 0.00 0.00\nv 10.00 0.00 0.00\nv 0.00 10.00 0.00\nf 2 3 1\nf 1 3 2\n"
SECOND_TEXT = FIRST_TEXT.replace(b"v 10", b"v 20")
PRINTED = [
    ("nothing", b"", b"# refusal 5\n"), ("example b", B, b"# refusal 12\n"), ("cut off", B[:-1], b"# refusal 3\n"),
    ("a solid made and killed", B + KILLED, b"# refusal 5\n"), ("a code that there is not", b"\x0E", b"# refusal 4\n"),
    ("vertex 1,024", operator_bytes(operator("mvsf", 1, 1, 1, 1_024, 0, 0, 0)), b"# refusal 12\n"),
    ("vertex 1,025", operator_bytes(operator("mvsf", 1, 1, 1, 1_025, 0, 0, 0)), b"# refusal 5\n"),
    ("a free loop", operator_bytes(operator("mev", 2, 0, 1, 2, 0, 0, 0, 0)), b"# refusal 6\n"),
    ("example b twice", B + B, b"# refusal 7\n"), ("a condition that fails", FIRST + KILLED, b"# refusal 8\n"),
    ("a triangle", FIRST, FIRST_TEXT), ("a triangle, then a refusal", FIRST + b"\x00", b"# refusal 4\n"),
    ("the second triangle", SECOND, SECOND_TEXT), ("both", FIRST + SECOND, FIRST_TEXT),
    ("both, the second first", SECOND + FIRST, FIRST_TEXT),
    ("one a ring of the other", FIRST + SECOND + operator_bytes(operator("kfmrh", 1, 3)), b"# refusal 12\n"),
    ("a lone vertex and a triangle", B + SECOND, b"# refusal 12\n"),
    ("the same, the vertex killed", B + SECOND + KILLED, SECOND_TEXT),
    ("as long as may be", bytes(PROGRAM_INPUT), b"# refusal 4\n"),
    ("a byte more", bytes(PROGRAM_INPUT + 1), b"# input too long\n"),
]


def printed(tally):
    for name, script, wanted in PRINTED:
        tally.equal(f"the program on {name}", obj_program(script), wanted)


WAVEFRONT_EXAMPLES = (coordinates, two_solids, refusals_in_order, scope_examples, block, spoiled_texts, printed)
