"""Hand-made cases for the sweep (document 02, job 7): words, operators and log bytes as a person writes them down, each
refusal and their order.
"""

import itertools

from boundary import Boundary
from examples import B, BREAKERS, C, D, WORDS_B, Desk
from kernel import Session
from layout import Table
from operators import carry_out
from rules import check, count
from script import describe, operator, script_bytes
from sweep import sweep, swept
from takedown_tables import body_of, table_with
from wavefront_parts import circle, prism, square
from wavefront_properties import volumes_by_loops

UP = (1, 2, 3)


def desk_with(script, capacities, log=40, redo=60):
    desk = Desk(capacities, log, redo)
    answer = desk.run(script)
    assert answer.refusal == 0, answer
    return desk


def state(desk):
    """Everything that a call may change."""
    return desk.state(), bytes(desk.log), bytes(desk.redo_log), (desk.session.log, desk.session.redo)


# Words

# Example d, whose loop 2 has the half-edges 1, 4 from the vertices 1, 2. Edges 3 and 4 rise to the vertices 3 and 4,
# edges 5 and 6 are the top: loop 2 has 9, 11, loop 3 has 1, 7, 10, 6, loop 4 has 4, 5, 12, 8.
LIFTED_D = [1, 4, 4, 6, 4] + [1] + [1, 1] + [1, 2] + [1, 3] + [1, 4] + [1, 2, 0] + [2, 9, 0] + [3, 1, 0] + [4, 4, 0] \
    + [1, 3, 7, 6] + [2, 1, 3, 3] + [1, 1, 2, 2] + [2, 4, 5, 8] + [1, 4, 12, 4] + [3, 3, 1, 10] \
    + [2, 3, 10, 1] + [4, 4, 4, 12] + [3, 2, 11, 11] + [4, 3, 6, 7] + [4, 2, 9, 9] + [3, 4, 8, 5] + [4, 4, 4, 4]
SCRIPT_D = bytes.fromhex("03 02 01 03 03 00 00 00 E8 07" "03 02 04 04 04 00 C8 01 00 E8 07"
                         "05 02 06 08 05 03 03 00" "05 02 08 09 06 04 04 00")
# One edge around a cylinder's end, from vertex 1 to itself: loop 2 has half-edge 2. Edge 2 rises to vertex 2, edge 3 is
# the top: loop 2 has 5 alone, loop 3 has 2, 3, 6, 4.
ROUND = script_bytes([operator("mef", 1, 0, 0, 1, 2, 2, 0)])
LIFTED_ROUND = [1, 3, 3, 3, 2] + [1] + [1, 1] + [1, 2] + [1, 3] + [1, 1, 0] + [2, 5, 0] + [3, 2, 0] \
    + [1, 1, 1, 1] + [1, 3, 3, 4] + [1, 3, 6, 2] + [2, 3, 2, 6] + [2, 2, 5, 5] + [2, 3, 4, 3] + [4, 4]
SCRIPT_ROUND = bytes.fromhex("03 02 02 02 02 00 02 04 05" "05 02 04 04 03 03 03 02")
WORDS = [
    ("two corners", B + C + D, (1, 4, 4, 6, 4), (0, 0, 500), LIFTED_D, [0, 0, 0, 100, 0, 0, 0, 0, 500, 100, 0, 500],
     SCRIPT_D, "060C 060A 0407 0405 0604 0401 0201"),
    ("one corner", B + ROUND, (1, 3, 3, 3, 2), (1, 2, -3), LIFTED_ROUND, [0, 0, 0, 1, 2, -3], SCRIPT_ROUND,
     "0606 0403 0602 0201"),
]


def words(tally):
    """Every byte after the sweep of face 2, its undo and its redo; by a run of its script the same bytes."""
    for name, script, capacities, vector, links, points, operators, live in WORDS:
        desk, other = desk_with(script, capacities), desk_with(script, capacities)
        before, done, log = state(desk), len(points) // 3, b"\xEE" * 40
        desk.session.redo = 7
        log = log[len(bytes.fromhex(live)):] + bytes.fromhex(live)
        start = 40 - len(bytes.fromhex(live))
        tally.equal(f"{name}: sweep", sweep(*desk.lent(), 2, *vector), (0, 0, done))
        swept_state = (links, points), log, b"\xEE" * 60, (start, 60)
        tally.equal(f"{name}: every byte", state(desk), swept_state)
        tally.equal(f"{name}: sound", check(links, points), (0, 0))
        tally.equal(f"{name}: undo", desk.undo(done)[:3], (0, 0, done))
        room = 60 - len(operators)
        tally.equal(f"{name}: undone", state(desk),
                    (before[0], log, b"\xEE" * room + operators, (before[3][0], room)))
        tally.equal(f"{name}: redo", desk.redo(done), (0, 0, done))
        tally.equal(f"{name}: redone", state(desk), (swept_state[0], log, b"\xEE" * room + operators, (start, 60)))
        tally.equal(f"{name}: run", other.run(operators), (0, 0, done, len(operators), start))
        tally.equal(f"{name}: by a run", state(other), swept_state)


# Operators: loops, face of each, outer loop of each face, the face to lift, and the operators. All vertices are at 0.

STEPS = [
    ("one corner", {1: [1], 2: [2]}, {1: 1, 2: 2}, {1: 1, 2: 2}, 1, ["mev 1 1 2 2 0", "mef 1 4 4 3 3 3 2"]),
    ("a spur", {1: [1, 2]}, {1: 1}, {1: 1}, 1,
     ["mev 1 1 2 3 0", "mev 1 2 3 4 0", "mef 1 4 6 4 2 2 0", "mef 1 6 7 5 3 3 0"]),
    ("from the first half-edge", {1: [5, 3, 2], 2: [1, 4, 6]}, {1: 1, 2: 2}, {1: 1, 2: 2}, 1,
     ["mev 1 2 4 4 0", "mev 1 5 5 5 0", "mev 1 3 6 6 0", "mef 1 8 10 7 3 3 0", "mef 1 10 12 8 4 4 0",
      "mef 1 12 13 9 5 5 0"]),
    ("a vertex met twice has two risers", {1: [1, 2, 3, 4]}, {1: 1}, {1: 1}, 1,
     ["mev 1 1 3 4 0", "mev 1 2 4 5 0", "mev 1 3 5 6 0", "mev 1 4 6 7 0", "mef 1 6 8 7 2 2 0", "mef 1 8 10 8 3 3 0",
      "mef 1 10 12 9 4 4 0", "mef 1 12 13 10 5 5 0"]),
    ("a vertex met four times", {1: [1, 3, 2, 4]}, {1: 1}, {1: 1}, 1,
     ["mev 1 1 3 2 0", "mev 1 3 4 3 0", "mev 1 2 5 4 0", "mev 1 4 6 5 0", "mef 1 6 8 7 2 2 0", "mef 1 8 10 8 3 3 0",
      "mef 1 10 12 9 4 4 0", "mef 1 12 13 10 5 5 0"]),
    ("loops by number, a ring first", {1: [7, 9], 2: [1, 3, 5], 3: [6, 4, 2], 4: [10, 8]}, {1: 1, 2: 1, 3: 2, 4: 3},
     {1: 2, 2: 3, 3: 4}, 1,
     ["mev 1 7 6 6 0", "mev 1 9 7 7 0", "mef 1 12 14 8 4 5 0", "mef 1 14 15 9 5 6 0",
      "mev 2 1 10 8 0", "mev 2 3 11 9 0", "mev 2 5 12 10 0", "mef 2 20 22 13 6 7 0", "mef 2 22 24 14 7 8 0",
      "mef 2 24 25 15 8 9 0"]),
    ("both sides of an edge, in two loops of one face", {1: [1], 2: [2]}, {1: 1, 2: 1}, {1: 2}, 1,
     ["mev 1 1 2 2 0", "mef 1 4 4 3 2 3 2", "mev 2 2 4 3 0", "mef 2 8 8 5 3 4 2"]),
    ("the least free numbers, with gaps", {2: [5], 4: [6]}, {2: 3, 4: 1}, {3: 2, 1: 4}, 1,
     ["mev 4 6 1 2 0", "mef 4 2 2 2 2 1 2"]),
    ("the least free numbers, above and below", {1: [3, 7], 3: [8, 4]}, {1: 2, 3: 4}, {2: 1, 4: 3}, 4,
     ["mev 3 4 1 3 0", "mev 3 8 3 4 0", "mef 3 2 6 5 1 2 0", "mef 3 6 9 6 3 4 0"]),
]


def operators_in_order(tally):
    """The operators in words, the counts, and that undo gives back every byte."""
    for name, cycles, loop_face, face_outer, face, wanted in STEPS:
        table = table_with(body_of(cycles, loop_face, face_outer), (12,) * 5)
        before = list(table.links), list(table.points)
        tally.equal(f"{name}: sound", check(*before), (0, 0))
        done = [describe(op) for op in swept(*before, face, UP).operators]
        tally.equal(name, done, [words + " 1 2 3" * words.startswith("mev") for words in wanted])
        desk = Desk((1,) * 5, 100, 300)
        desk.links, desk.points = list(table.links), list(table.points)
        tally.equal(f"{name}: sweep", sweep(*desk.lent(), face, *UP), (0, 0, len(wanted)))
        _, _, s, f, l, e, v, r, h = count(*before)
        n = len(wanted) // 2
        tally.equal(f"{name}: counts", count(*desk.state()), (0, 0, s, f + n, l + n, e + 2 * n, v + n, r, h))
        tally.equal(f"{name}: undo", desk.undo(2 * n)[:3], (0, 0, 2 * n))
        tally.equal(f"{name}: undone", desk.state(), before)


# A block

TOP = ["mev 5 2 13 9 0 -2000 -2000 1500", "mev 5 10 14 10 0 -2000 2000 1500", "mev 5 16 15 11 0 2000 2000 1500",
       "mev 5 22 16 12 0 2000 -2000 1500", "mef 5 26 28 17 7 7 0", "mef 5 28 30 18 8 8 0", "mef 5 30 32 19 9 9 0",
       "mef 5 32 33 20 10 10 0"]
# A square on the block's top, face 5: drawn by a line from a corner, closed by face 7, the line then taken away.
SQUARE = [operator("mev", 5, 2, 13, 9, 0, -500, -500, 1_000), operator("mev", 5, 26, 14, 10, 0, -500, 500, 1_000),
          operator("mev", 5, 28, 15, 11, 0, 500, 500, 1_000), operator("mev", 5, 30, 16, 12, 0, 500, -500, 1_000),
          operator("mef", 5, 27, 32, 17, 7, 7, 0), operator("kemr", 25, 8)]
# The lifted square's loop 7 has the half-edges 27, 29, 31 and 34, edge 13 is free again.
BOSS = ["mev 7 27 13 13 0 -500 -500 1400", "mev 7 29 18 14 0 -500 500 1400", "mev 7 31 19 15 0 500 500 1400",
        "mev 7 34 20 16 0 500 -500 1400", "mef 7 26 36 21 8 9 0", "mef 7 36 38 22 9 10 0", "mef 7 38 40 23 10 11 0",
        "mef 7 40 41 24 11 12 0"]


def block_with(operators, spares=(1, 20, 20, 40, 20)):
    """A block of 40 by 40 by 10 mm after these operators."""
    b = Boundary(table_with(prism(square(2_000), 0, 1_000), spares))
    for op in operators:
        assert carry_out(b, op)[0] == 0, describe(op)
    return table_with(b, spares)


def lifted(table, face, vector):
    """The operators in words, and six times the volume that there is then."""
    links, points, log = list(table.links), list(table.points), bytearray(600)
    answer = sweep(links, points, log, b"", Session(600), face, *vector)
    assert answer.refusal == 0, answer
    words = [describe(op) for op in swept(table.links, table.points, face, vector).operators]
    return words, volumes_by_loops(Table(links, points), 1)


def block(tally):
    """The top lifted makes a higher block. A square on the top makes a boss, pushed down a pocket; the frame around it
    is a face with a ring."""
    plain, drawn = block_with([]), block_with(SQUARE)
    tally.equal("a block", volumes_by_loops(plain, 1), 6 * 4_000 * 4_000 * 1_000)
    tally.equal("a block's top", lifted(plain, 5, (0, 0, 500)), (TOP, 6 * 4_000 * 4_000 * 1_500))
    tally.equal("a square on it", count(drawn.links, drawn.points)[2:], (1, 7, 8, 16, 12, 1, 0))
    tally.equal("the square lifted", lifted(drawn, 7, (0, 0, 400)),
                (BOSS, 6 * (4_000 * 4_000 * 1_000 + 1_000 * 1_000 * 400)))
    for vector, height in (((0, 0, -400), -400), ((30, -70, -400), -400), ((900, 20, 0), 0)):
        tally.equal(f"the square by {vector}", lifted(drawn, 7, vector)[1],
                    6 * (4_000 * 4_000 * 1_000 + 1_000 * 1_000 * height))
    tally.equal("the frame around the square", lifted(drawn, 5, (0, 0, 400))[1],
                6 * (4_000 * 4_000 * 1_000 + (4_000 * 4_000 - 1_000 * 1_000) * 400))


# Refusals

def trial(table, face, vector, start, log=30):
    """The answer, and whether every byte is as before."""
    links, points, log, redo = list(table.links), list(table.points), bytearray(b"\xEE" * log), bytearray(b"abcde")
    session = Session(start, 3)
    answer = sweep(links, points, log, redo, session, face, *vector)
    same = (links, points, log, redo, session) == (table.links, table.points, b"\xEE" * len(log), b"abcde",
                                                   Session(start, 3))
    return tuple(answer), same


ORDER = {"beyond": (1, 0), "broken": (2, 1), "number": (5, 0), "free": (6, 0), "lone": (14, 0), "outside": (5, 0),
         "few": (10, 0), "short": (9, 0)}


def spoiled(reasons):
    """A table and a call with these reasons for a refusal. Face 1 has the corners 1, 3, face 2 has a lone ring too,
    face 3 is free; the sweep takes four inverses of two bytes each."""
    b = body_of({1: [1, 3], 2: [4, 2], 3: []}, {1: 1, 2: 2, 3: 2}, {1: 1, 2: 2}, lambda: (9_000, -50_000, 0))
    table = table_with(b, (0, 2, 2, 4, 1 if "few" in reasons else 2))
    if "broken" in reasons:
        table.points[2] = 50_001
    face = 0 if "number" in reasons else 3 if "free" in reasons else 2 if "lone" in reasons else 1
    start = 31 if "beyond" in reasons else 7 if "short" in reasons else 8
    return table, face, (0, -1, 0) if "outside" in reasons else (5, 0, -5), start


def refusals_in_order(tally):
    """Every set of reasons: the first one counts, and nothing changes."""
    for size in range(1, len(ORDER) + 1):
        for reasons in itertools.combinations(ORDER, size):
            tally.equal(f"refused: {', '.join(reasons)}", trial(*spoiled(reasons)), (ORDER[reasons[0]] + (0,), True))
    tally.equal("not refused", trial(*spoiled(())), ((0, 0, 4), False))


def tables_refused(tally):
    for rule, (links, points) in BREAKERS.items():
        tally.equal(f"rule {rule}", trial(Table(links, points), 0, (1 << 30,) * 3, 0), ((2, rule, 0), True))
        tally.equal(f"1 before rule {rule}", trial(Table(links, points), 1, (0, 0, 0), 31), ((1, 0, 0), True))
    for name, links, points in (("no links", [], [0] * 6), ("links long", WORDS_B + [0], [0] * 6),
                                ("links short", WORDS_B[:-1], [0] * 6), ("points short", WORDS_B, [0] * 5),
                                ("points long", WORDS_B, [0] * 7), ("capacity 0", [0] + WORDS_B[1:], [0] * 6),
                                ("capacity 4,097", [4_097] + WORDS_B[1:], [0] * 6)):
        lent = list(links), list(points), bytearray(9), b"", Session(9)
        tally.equal(name, sweep(*lent, 1, 0, 0, 0), (1, 0, 0))
    desk = desk_with(B + C + D, (1, 4, 4, 6, 4))
    for face in (0, 5, 65_536 + 2, (1 << 32) + 2, (1 << 63) + 2, (1 << 64) - 1):
        tally.equal(f"face {face} of 4", sweep(*desk.lent(), face, 0, 0, 0), (5, 0, 0))
    for face in (3, 4):
        tally.equal(f"free face {face}", sweep(*desk.lent(), face, 0, 0, 0), (6, 0, 0))
    lone = desk_with(B, (1, 4, 4, 6, 4))
    tally.equal("a lone vertex", sweep(*lone.lent(), 1, 0, 0, 0), (14, 0, 0))


def numbers_refused(tally):
    """One number less than n vertices, 2n edges, n faces and n loops; of solids none is taken."""
    cycles = {1: [7, 9], 2: [1, 3, 5], 3: [6, 4, 2], 4: [10, 8]}
    for less, refusal in enumerate((0, 10, 10, 10, 10)):
        b = body_of(dict(cycles), {1: 1, 2: 1, 3: 2, 4: 3}, {1: 2, 2: 3, 3: 4})
        spares = [spare - (place == less) for place, spare in enumerate((1, 5, 5, 10, 5))]
        (found, _, _), same = trial(table_with(b, spares), 1, UP, 20)
        tally.equal(f"face with a ring: place {less} a number less", (found, same), (refusal, refusal != 0))


def points_refused(tally):
    """Each coordinate of each corner, be it in a ring; 32 bits never overflow."""
    cycles = {1: [7, 9], 2: [1, 3, 5], 3: [6, 4, 2], 4: [10, 8]}
    for vertex, axis, sign in itertools.product(range(1, 6), range(3), (1, -1)):
        b = body_of(dict(cycles), {1: 1, 2: 1, 3: 2, 4: 3}, {1: 2, 2: 3, 3: 4})
        b.points[vertex] = tuple(49_000 * sign * (place == axis) for place in range(3))
        table = table_with(b, (0, 5, 5, 10, 5))
        for shift, refusal in ((1_000, 0), (1_001, 5), ((1 << 31) - 1, 5), (1 << 31, 5)):
            if (shift, sign) != (1 << 31, 1):
                vector = [sign * shift * (place == axis) for place in range(3)]
                found, same = trial(table, 1, vector, 20)
                tally.equal(f"vertex {vertex} by {vector}", (found[0], same), (refusal, refusal != 0))


def logs_refused(tally):
    """A side of a prism of so many sides takes eight edges from 3 x sides + 1 on: kev 2e - 1 has three bytes from edge
    65 on, kef 2e from edge 64 on."""
    for sides, need in ((18, 16), (19, 18), (20, 20), (21, 23), (22, 24)):
        table = table_with(prism(circle(sides, 1_000), 0, 1), (0, 4, 4, 8, 4))
        tally.equal(f"a prism of {sides} sides: {need - 1} bytes", trial(table, 1, UP, need - 1), ((9, 0, 0), True))
        tally.equal(f"a prism of {sides} sides: no byte", trial(table, 1, UP, 0), ((9, 0, 0), True))
        tally.equal(f"a prism of {sides} sides: {need} bytes", trial(table, 1, UP, need), ((0, 0, 8), False))


def redo_emptied(tally):
    """The redo log's bytes stay and its start is ignored, be it beyond the log; a refusal leaves it."""
    for redo_start in (0, 3, 60, 61, 1 << 63):
        desk = desk_with(B + C + D, (1, 4, 4, 6, 4))
        desk.session.redo = redo_start
        tally.equal(f"redo start {redo_start}: refused", sweep(*desk.lent(), 3, 0, 0, 0), (6, 0, 0))
        tally.equal(f"redo start {redo_start}: stays", desk.session, Session(34, redo_start))
        tally.equal(f"redo start {redo_start}: accepted", sweep(*desk.lent(), 1, 0, 0, 0), (0, 0, 4))
        tally.equal(f"redo start {redo_start}: emptied", (desk.session, bytes(desk.redo_log)),
                    (Session(26, 60), b"\xEE" * 60))


SWEEP_EXAMPLES = (words, operators_in_order, block, refusals_in_order, tables_refused, numbers_refused, points_refused,
                  logs_refused, redo_emptied)
