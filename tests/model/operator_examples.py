"""Hand-made cases for the operators: what each does, what each refuses, and the log's bounds."""

from examples import B, C, D, SMALL, WORDS_C, Desk
from layout import Table
from rules import check
from script import operator, script_bytes

# Operators: (capacities, operators, cycles of loops afterwards, starts of half-edges afterwards)

MVSF = operator("mvsf", 1, 1, 1, 1, 0, 0, 0)
WIDE = (3, 4, 4, 5, 5)


def mev(l, h, e, v, w=0):
    return operator("mev", l, h, e, v, w, 0, 0, 0)


SHAPES = [
    ("mev way 1 on a lone loop", [mev(1, 0, 1, 2, 1)], {1: [1, 2]}, {1: 2, 2: 1}),
    ("mev before h", [mev(1, 0, 1, 2), mev(1, 2, 2, 3)], {1: [1, 3, 4, 2]}, {1: 1, 2: 2, 3: 2, 4: 3}),
    ("mev way 1 before h", [mev(1, 0, 1, 2), mev(1, 1, 2, 3, 1)], {1: [1, 2, 4, 3]}, {1: 1, 2: 2, 4: 1, 3: 3}),
    ("kev to a lone loop", [mev(1, 0, 1, 2), operator("kev", 2)], {1: (2,)}, {}),
    ("mef on a lone loop", [operator("mef", 1, 0, 0, 1, 2, 2, 0)], {1: [1], 2: [2]}, {1: 1, 2: 1}),
    ("mef way 1 on a lone loop", [operator("mef", 1, 0, 0, 1, 2, 2, 1)], {1: [2], 2: [1]}, {1: 1, 2: 1}),
    ("mef equal corners way 0", [mev(1, 0, 1, 2), operator("mef", 1, 2, 2, 2, 2, 2, 0)],
     {1: [1, 3, 2], 2: [4]}, {1: 1, 2: 2, 3: 2, 4: 2}),
    ("mef equal corners way 1", [mev(1, 0, 1, 2), operator("mef", 1, 2, 2, 2, 2, 2, 1)],
     {1: [1, 4, 2], 2: [3]}, {1: 1, 2: 2, 3: 2, 4: 2}),
    ("mef equal corners way 2", [mev(1, 0, 1, 2), operator("mef", 1, 2, 2, 2, 2, 2, 2)],
     {1: [3], 2: [1, 4, 2]}, {1: 1, 2: 2, 3: 2, 4: 2}),
    ("mef equal corners way 3", [mev(1, 0, 1, 2), operator("mef", 1, 2, 2, 2, 2, 2, 3)],
     {1: [4], 2: [1, 3, 2]}, {1: 1, 2: 2, 3: 2, 4: 2}),
    ("mef unequal corners way 1", [mev(1, 0, 1, 2), operator("mef", 1, 2, 1, 2, 2, 2, 1)],
     {1: [1, 4], 2: [2, 3]}, {1: 1, 2: 2, 4: 2, 3: 1}),
    ("kef: first is neither loop's old one", [mev(1, 0, 2, 2), operator("mef", 1, 3, 4, 1, 2, 2, 0),
                                              operator("kef", 2)], {1: [3, 4]}, {3: 1, 4: 2}),
    ("kef: first comes from the killed loop", [mev(1, 0, 1, 2), operator("mef", 1, 1, 2, 2, 2, 2, 0),
                                               operator("kef", 4)], {1: [1, 2]}, {1: 1, 2: 2}),
    ("kef of two single half-edges", [operator("mef", 1, 0, 0, 1, 2, 2, 0), operator("kef", 2)], {1: (1,)}, {}),
    ("kef puts the rest in the mate's place", [mev(1, 0, 1, 2), operator("mef", 1, 1, 2, 2, 2, 2, 0),
                                               operator("kef", 3)], {2: [1, 2]}, {1: 1, 2: 2}),
    ("kemr of the only edge", [mev(1, 0, 1, 2), operator("kemr", 1, 2)], {1: (1,), 2: (2,)}, {}),
    ("kemr of the only edge by its mate", [mev(1, 0, 1, 2), operator("kemr", 2, 2)], {1: (2,), 2: (1,)}, {}),
    ("kemr in the middle", [mev(1, 0, 1, 2), mev(1, 2, 2, 3), mev(1, 4, 3, 4), operator("kemr", 3, 3)],
     {1: [1, 2], 3: [5, 6]}, {1: 1, 2: 2, 5: 3, 6: 4}),
    ("mekr of two lone loops", [mev(1, 0, 1, 2), operator("kemr", 1, 2), operator("mekr", 1, 0, 2, 0, 3, 1)],
     {1: [5, 6]}, {6: 1, 5: 2}),
    ("mekr goes round the ring", [mev(1, 0, 1, 2), mev(1, 2, 2, 3), mev(1, 4, 3, 4), operator("kemr", 3, 3),
                                  operator("mekr", 1, 1, 3, 6, 4, 0)],
     {1: [1, 2, 7, 6, 5, 8]}, {1: 1, 2: 2, 5: 3, 6: 4, 7: 1, 8: 4}),
    ("semv where next of k is its mate", [mev(1, 0, 1, 2), operator("semv", 1, 2, 3, 0, 0, 0, 0)],
     {1: [1, 3, 4, 2]}, {1: 1, 3: 3, 4: 2, 2: 3}),
    ("semv of the mate, way 1", [mev(1, 0, 1, 2), operator("semv", 2, 2, 3, 1, 0, 0, 0)],
     {1: [1, 2, 4, 3]}, {1: 3, 2: 2, 4: 3, 3: 1}),
    ("semv of a loop of one half-edge", [operator("mef", 1, 0, 0, 1, 2, 2, 0), operator("semv", 1, 2, 2, 0, 0, 0, 0)],
     {1: [1, 3], 2: [2, 4]}, {1: 1, 3: 2, 2: 2, 4: 1}),
    ("jekv undoes that at the other half", [operator("mef", 1, 0, 0, 1, 2, 2, 0), operator("semv", 1, 2, 2, 0, 0, 0, 0),
                                            operator("jekv", 3)], {1: [3], 2: [4]}, {3: 2, 4: 2}),
]


def loops_in_words(table):
    """Loops as written in the words: half-edges from first on, or (lone vertex,)."""
    found = {}
    for loop, (_, first, lone) in table.used("loop").items():
        found[loop] = (lone,)
        if first != 0:
            found[loop] = [first]
            while table.record("half", found[loop][-1])[2] != first:
                found[loop].append(table.record("half", found[loop][-1])[2])
    return found


def shapes(tally):
    for name, operators, loops, starts in SHAPES:
        desk = Desk(WIDE)
        script = script_bytes([MVSF] + operators)
        answer = desk.run(script)
        tally.equal(f"{name}: run", answer[:4], (0, 0, 1 + len(operators), len(script)))
        table = Table(desk.links, desk.points)
        tally.equal(f"{name}: loops", loops_in_words(table), loops)
        tally.equal(f"{name}: starts", {h: words[0] for h, words in table.used("half").items()}, starts)
        tally.equal(f"{name}: sound", check(desk.links, desk.points), (0, 0))


# Refusals: (name, operators before, the refused operator, refusal)

LINE = [mev(1, 0, 1, 2), mev(1, 2, 2, 3)]                  # loop 1: 1 3 4 2
TWO_FACES = [mev(1, 0, 1, 2), operator("mef", 1, 1, 2, 2, 2, 2, 0)]  # loop 1: 3 2, loop 2: 1 4
LONE_RING = [mev(1, 0, 1, 2), operator("kemr", 1, 2)]      # loop 1 lone at 1, ring 2 lone at 2
SECOND = operator("mvsf", 2, 3, 3, 4, 0, 0, 0)
# Two faces sharing only edge 1, which runs inside ring 2 of face 1.
ONLY_RING_SHARED = LONE_RING + [operator("mef", 2, 0, 0, 1, 2, 3, 0)]
# Two faces joined into one with a ring: the hole of example e.
HANDLE = [operator("mef", 1, 0, 0, 1, 2, 2, 0), operator("kfmrh", 1, 2)]

REFUSALS = [
    ("kvsf of a solid with an edge", LINE, operator("kvsf", 1), 8),
    ("kvsf of a lone face with a ring", LONE_RING, operator("kvsf", 1), 8),
    ("kvsf of a free solid", [], operator("kvsf", 2), 6),
    ("mvsf with a used loop", [], operator("mvsf", 2, 2, 1, 2, 0, 0, 0), 7),
    ("mev at 0 of a loop not lone", LINE, mev(1, 0, 3, 4), 8),
    ("mev at a half-edge of another loop", TWO_FACES, mev(1, 1, 3, 4), 8),
    ("mev at a free half-edge", LINE, mev(1, 7, 3, 4), 6),
    ("mev in a free loop, with a used edge", LINE, mev(2, 1, 1, 4), 6),
    ("mev with a used edge", LINE, mev(1, 1, 2, 4), 7),
    ("mev with a used vertex", LINE, mev(1, 1, 3, 3), 7),
    ("mev: 7 before 8", LINE, mev(1, 0, 3, 3), 7),
    ("kev in the middle", LINE, operator("kev", 1), 8),
    ("kev towards the middle", LINE, operator("kev", 4), 8),
    ("kev of a loop of one half-edge", [operator("mef", 1, 0, 0, 1, 2, 2, 0)], operator("kev", 1), 8),
    ("mef at one lone corner", LINE, operator("mef", 1, 1, 0, 3, 2, 2, 0), 8),
    ("mef to a corner of another loop", TWO_FACES, operator("mef", 1, 2, 1, 3, 3, 3, 0), 8),
    ("mef way 2 with two corners", LINE, operator("mef", 1, 1, 2, 3, 2, 2, 2), 8),
    ("mef way 3 on a lone loop", [], operator("mef", 1, 0, 0, 1, 2, 2, 3), 8),
    ("mef with the same loop", LINE, operator("mef", 1, 1, 2, 3, 2, 1, 0), 7),
    ("kef inside one loop", LINE, operator("kef", 1), 8),
    ("kef of a face with a ring", ONLY_RING_SHARED, operator("kef", 1), 8),
    ("kef beside a face with a ring", ONLY_RING_SHARED, operator("kef", 2), 0),
    ("kef inside one face", HANDLE, operator("kef", 2), 8),
    ("kemr between two loops", TWO_FACES, operator("kemr", 1, 3), 8),
    ("kemr between two loops of one face", HANDLE, operator("kemr", 1, 3), 8),
    ("kemr into a used loop", LINE, operator("kemr", 1, 1), 7),
    ("mekr of a loop with itself", LONE_RING, operator("mekr", 2, 0, 2, 0, 1, 0), 8),
    ("mekr with the outer loop as ring", LONE_RING, operator("mekr", 2, 0, 1, 0, 1, 0), 8),
    ("mekr across two faces", TWO_FACES, operator("mekr", 1, 2, 2, 1, 3, 0), 8),
    ("mekr to a ring of another face", ONLY_RING_SHARED, operator("mekr", 3, 2, 2, 1, 2, 0), 8),
    ("mekr to a wrong corner", HANDLE, operator("mekr", 1, 1, 2, 1, 2, 0), 8),
    ("kfmrh of a face with itself", LINE, operator("kfmrh", 1, 1), 8),
    ("kfmrh of a face with a ring", ONLY_RING_SHARED, operator("kfmrh", 2, 1), 8),
    ("kfmrh into a face with a ring", ONLY_RING_SHARED, operator("kfmrh", 1, 2), 0),
    ("mfkrh of an outer loop", TWO_FACES, operator("mfkrh", 1, 3, 0), 8),
    ("mfkrh of a lone ring without a solid", LONE_RING, operator("mfkrh", 2, 2, 0), 8),
    ("mfkrh of a lone ring", LONE_RING, operator("mfkrh", 2, 2, 2), 0),
    ("mfkrh of a linked ring with a solid", HANDLE, operator("mfkrh", 2, 2, 2), 8),
    ("mfkrh with the used solid", LONE_RING, operator("mfkrh", 2, 2, 1), 7),
    ("mfkrh with a used face", HANDLE, operator("mfkrh", 2, 1, 0), 7),
    ("semv of a free edge", LINE, operator("semv", 5, 3, 4, 0, 0, 0, 0), 6),
    ("jekv where next is the mate", LINE, operator("jekv", 3), 8),
    ("jekv of a loop of one half-edge", [operator("mef", 1, 0, 0, 1, 2, 2, 0)], operator("jekv", 1), 8),
    ("jekv at a vertex of three edges", LINE + [mev(1, 2, 3, 4)], operator("jekv", 1), 8),
    ("jekv at a vertex of two edges", LINE, operator("jekv", 1), 0),
    ("rmov of an outer loop", TWO_FACES, operator("rmov", 1, 2), 8),
    ("rmov of an outer loop in its face", LINE, operator("rmov", 1, 1), 8),
    ("rmov by an edge of the moved ring", ONLY_RING_SHARED, operator("rmov", 2, 2), 8),
    ("rmov in its own face", ONLY_RING_SHARED, operator("rmov", 2, 1), 0),
    ("rmov to another solid", LONE_RING + [SECOND], operator("rmov", 2, 3), 8),
    ("rmov to a free face", LONE_RING, operator("rmov", 2, 2), 6),
]


def refusals(tally):
    for name, before, op, wanted in REFUSALS:
        desk = Desk(WIDE)
        setup = desk.run(script_bytes([MVSF] + before))
        tally.equal(f"{name}: before", setup[:3], (0, 0, 1 + len(before)))
        words, log, start = desk.state(), bytes(desk.log), desk.session.log
        answer = desk.run(script_bytes([op]))
        tally.equal(name, answer[:3], (wanted, 0, 1 if wanted == 0 else 0))
        if wanted != 0:
            tally.equal(f"{name}: unchanged", (desk.state(), bytes(desk.log), desk.session.log), (words, log, start))
        else:
            tally.equal(f"{name}: sound", check(desk.links, desk.points), (0, 0))


def solids_of_faces(desk):
    table = Table(desk.links, desk.points)
    return {face: words for face, words in table.used("face").items()}


def faces_and_solids(tally):
    desk = Desk(WIDE)
    desk.run(script_bytes([MVSF] + TWO_FACES + [SECOND, operator("mef", 3, 0, 0, 3, 4, 4, 0)]))
    tally.equal("two solids", solids_of_faces(desk), {1: (1, 1), 2: (1, 2), 3: (2, 3), 4: (2, 4)})
    tally.equal("kfmrh of two solids", desk.run(script_bytes([operator("kfmrh", 2, 3)]))[:3], (0, 0, 1))
    tally.equal("its faces pass over", solids_of_faces(desk), {1: (1, 1), 2: (1, 2), 4: (1, 4)})
    tally.equal("the loop is a ring", Table(desk.links, desk.points).record("loop", 3), (2, 5, 0))
    tally.equal("solid 2 is free", Table(desk.links, desk.points).record("solid", 2), (0,))
    tally.equal("its inverse", desk.live()[:4], bytes([10, 3, 3, 2]))
    tally.equal("mfkrh with another solid", desk.run(bytes([10, 3, 3, 3]))[:3], (0, 0, 1))
    tally.equal("the linked face goes along", solids_of_faces(desk), {1: (1, 1), 2: (1, 2), 3: (3, 3), 4: (3, 4)})
    tally.equal("that inverse", desk.live()[:3], bytes([9, 2, 3]))
    tally.equal("undo all", desk.undo(7), (0, 0, 7, 200))
    tally.equal("rmov swaps", rmov_case(operator("rmov", 2, 1)), ({1: (1, 2), 2: (1, 3)}, {1: 1, 2: 1, 3: 2, 4: 1}))
    tally.equal("rmov moves", rmov_case(operator("rmov", 4, 2)), ({1: (1, 1), 2: (1, 3)}, {1: 1, 2: 1, 3: 2, 4: 2}))


def rmov_case(op):
    """Face 1 has outer loop 1 with edge 2 to face 2, and the lone rings 2 and 4."""
    desk = Desk(WIDE)
    desk.run(script_bytes([MVSF, mev(1, 0, 1, 2), operator("kemr", 1, 2), mev(1, 0, 1, 3), operator("kemr", 1, 4),
                           operator("mef", 1, 0, 0, 2, 2, 3, 0), op]))
    loops = Table(desk.links, desk.points).used("loop")
    return solids_of_faces(desk), {loop: words[0] for loop, words in loops.items()}


def log_bounds(tally):
    """9 exactly when the inverse does not fit, after 8, and no byte is written."""
    for room, wanted in ((0, 9), (1, 9), (2, 0)):
        desk = Desk(SMALL, 5)
        desk.session.log = room
        tally.equal(f"mvsf with room {room}", desk.run(B)[0], wanted)
        tally.equal(f"log with room {room}", bytes(desk.log), b"\xEE" * 5 if wanted else b"\x02\x01\xEE\xEE\xEE")
        tally.equal(f"table with room {room}", desk.state()[0][5], 0 if wanted else 1)
    desk = Desk(SMALL, 4)
    tally.equal("third does not fit", desk.run(B + C + D), (9, 0, 2, 18, 0))
    tally.equal("two stand", desk.state()[0], WORDS_C)
    tally.equal("8 before 9", desk.run(bytes.fromhex("0201")), (8, 0, 0, 0, 0))
    tally.equal("undo 5 of 2", desk.undo(5), (11, 0, 2, 4))
    tally.equal("undo 0 at the end", desk.undo(0), (0, 0, 0, 4))
    desk.log = bytearray.fromhex("0401 02")
    desk.session.log = 3
    tally.equal("log ended", desk.undo(1), (11, 0, 0, 3))
    desk.session.log = 2
    tally.equal("log cut off", desk.undo(1), (3, 0, 0, 2))
    desk.session.log = 0
    tally.equal("log of another table", desk.undo(1), (6, 0, 0, 0))


OPERATOR_EXAMPLES = (shapes, refusals, faces_and_solids, log_bounds)
