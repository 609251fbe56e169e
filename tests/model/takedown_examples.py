"""Hand-made cases for the take-down: example e, the operators that document 01 asks for on small tables, refusals, and
where a number lacks (document 02, job 6).
"""

from boundary import Boundary
from examples import B, BREAKERS, SMALL, WORDS_B, Desk
from kernel import Session, run
from layout import Table, cleared_table
from rules import check, count
from script import describe, operator, script_bytes
from takedown import bytes_needed, carry_out_step, most_operators, steps, take_down, taken
from takedown_tables import body_of, table_with
from wavefront_parts import circle, prism

HANDLE = script_bytes([operator("mef", 1, 0, 0, 1, 2, 2, 0), operator("kfmrh", 1, 2)])
# Two free numbers of each kind at least: the least of them has to be taken.
SPARES = (1, 2, 2, 2, 1)


def operators_of(table):
    """The take-down's operators in words."""
    body, words = Boundary(table), []
    for op in steps(body):
        carry_out_step(body, op)
        words.append(describe(op))
    return words


def refused(tally, name, links, points, log, start, wanted):
    """The refusal and its rule, done 0, the start as it was; answers what is left of links, points and log."""
    links, points, changed = list(links), list(points), bytearray(log)
    tally.equal(name, take_down(links, points, changed, b"", Session(start)), wanted + (0, start))
    return links, points, bytes(changed)


# Example e

def example_e(tally):
    """Three operators with L = 2, where no loop is free, as with L = 3; the log holds what made the table."""
    logged = bytes.fromhex("0101010101000000" "0501000001020200" "090102")
    for loops in (2, 3):
        name, capacities = f"example e, L = {loops}", (1, 2, loops, 2, 2)
        desk = Desk(capacities)
        tally.equal(f"{name}: made", (desk.run(B)[:3], desk.run(HANDLE)[:3]), ((0, 0, 1), (0, 0, 2)))
        before, log = desk.state(), bytearray(b"\xEE" * 120)
        tally.equal(f"{name}: counts", count(*before), (0, 0, 1, 1, 2, 1, 1, 1, 1))
        tally.equal(f"{name}: at most", most_operators(*before), 6)
        tally.equal(f"{name}: operators", operators_of(Table(*before)), ["mfkrh 2 2 0", "kef 2", "kvsf 1"])
        for start in (113, 0):
            left = refused(tally, f"{name}: room {start}", *before, log, start, (9, 0))
            tally.equal(f"{name}: room {start}, nothing changes", left, before + (bytes(log),))
        tally.equal(f"{name}: take-down", take_down(desk.links, desk.points, log, b"", Session(114)), (0, 0, 3, 95))
        empty = cleared_table(capacities)
        tally.equal(f"{name}: empty", desk.state(), (empty.links, empty.points))
        tally.equal(f"{name}: log", bytes(log), b"\xEE" * 95 + logged + b"\xEE" * 6)
        inverses = bytearray(8)
        built = run(empty.links, empty.points, inverses, b"", Session(8), logged)
        tally.equal(f"{name}: built again", built, (0, 0, 3, 19, 0))
        tally.equal(f"{name}: the same words", (empty.links, empty.points), before)
        tally.equal(f"{name}: its inverses", bytes(inverses), bytes.fromhex("0A020200" "0602" "0201"))


# The steps: loops, face of each, outer loop of each face, and the operators that document 01 asks for

STEPS = [
    ("no solid", {}, {}, {}, []),
    ("solids by number", {1: [], 2: []}, {1: 1, 2: 2}, {1: 1, 2: 2}, ["kvsf 1", "kvsf 2"]),
    ("A: least k by number, not by face", {1: [1, 4], 2: [3, 6], 3: [5, 2]}, {1: 3, 2: 1, 3: 2}, {3: 1, 1: 2, 2: 3},
     ["kef 4", "kef 2", "kev 5", "kvsf 1"]),
    ("A: the mate has to be in the root", {1: [5, 6, 4], 2: [3, 1], 3: [2]}, {1: 1, 2: 2, 3: 3}, {1: 1, 2: 2, 3: 3},
     ["kef 3", "kef 2", "kev 5", "kvsf 1"]),
    ("A: k's loop is a ring", {1: [], 2: [1], 3: [2]}, {1: 2, 2: 2, 3: 1}, {1: 3, 2: 1},
     ["rmov 2 2", "rmov 1 1", "kef 1", "mekr 3 0 1 0 1 0", "kev 1", "kvsf 1"]),
    ("A: rings by number", {1: [2], 2: [], 3: [], 4: [1]}, {1: 1, 2: 2, 3: 2, 4: 2}, {1: 1, 2: 4},
     ["rmov 2 1", "rmov 3 1", "kef 1", "mekr 1 0 2 0 1 0", "kev 1", "mekr 1 0 3 0 1 0", "kev 1", "kvsf 1"]),
    ("A: rings to the root, not to another neighbour", {1: [2], 2: [1, 3], 3: [4], 4: []}, {1: 1, 2: 2, 3: 3, 4: 2},
     {1: 1, 2: 2, 3: 3}, ["rmov 4 1", "kef 1", "kef 4", "mekr 1 0 4 0 1 0", "kev 1", "kvsf 1"]),
    ("B: the least spur", {1: [1, 3, 4, 2]}, {1: 1}, {1: 1}, ["kev 2", "kev 3", "kvsf 1"]),
    ("B: rings before spurs", {1: [1, 2, 3], 2: [4]}, {1: 1, 2: 1}, {1: 1},
     ["mfkrh 2 2 0", "kef 4", "kev 1", "kvsf 1"]),
    ("B: a face below the root", {1: [1], 2: [2]}, {1: 2, 2: 2}, {2: 1}, ["mfkrh 2 1 0", "kef 2", "kvsf 1"]),
    ("B: two rings", {1: [], 2: [1], 3: [2]}, {1: 1, 2: 1, 3: 1}, {1: 1},
     ["mfkrh 2 2 0", "kef 1", "mekr 1 0 3 0 1 0", "kev 1", "kvsf 1"]),
    ("B: a ring cut, into the least free loop", {1: [], 3: [1, 3, 2, 4]}, {1: 1, 3: 1}, {1: 1},
     ["kemr 1 2", "mfkrh 2 2 0", "kef 3", "mekr 1 0 3 0 1 0", "kev 1", "kvsf 1"]),
    ("B: spurs before cuts", {1: [1, 3, 2, 4, 5, 6]}, {1: 1}, {1: 1},
     ["kev 5", "kemr 1 2", "mfkrh 2 2 0", "kef 3", "kvsf 1"]),
    ("B: a bridge is not crossed", {1: [1, 3, 5, 4, 6, 2, 7, 9, 8, 10]}, {1: 1}, {1: 1},
     ["kemr 3 2", "mfkrh 2 2 0", "kef 5", "kev 1", "kemr 7 2", "mfkrh 2 2 0", "kef 9", "kvsf 1"]),
    ("C: the least free edge, from the outer loop", {1: [], 2: [], 3: []}, {1: 1, 2: 1, 3: 1}, {1: 2},
     ["mekr 2 0 1 0 1 0", "kev 1", "mekr 2 0 3 0 1 0", "kev 1", "kvsf 1"]),
]


def steps_in_order(tally):
    for name, cycles, loop_face, face_outer, wanted in STEPS:
        table = table_with(body_of(cycles, loop_face, face_outer), SPARES)
        tally.equal(f"{name}: sound", check(table.links, table.points), (0, 0))
        tally.equal(name, operators_of(table), wanted)
        tally.holds(f"{name}: at most", len(wanted) <= most_operators(table.links, table.points))
    desk = Desk((2, 3, 3, 2, 2))
    desk.run(script_bytes([operator("mvsf", 2, 1, 1, 1, 0, 0, 0), operator("mvsf", 1, 2, 2, 2, 7, 0, 0)]))
    tally.equal("solids by number, not by face", operators_of(Table(*desk.state())), ["kvsf 1", "kvsf 2"])
    taken = take_down(desk.links, desk.points, desk.log, b"", Session(190))
    tally.equal("two solids: take-down", taken, (0, 0, 2, 174))
    tally.equal("two solids: log", bytes(desk.log[174:190]), bytes.fromhex("0102010101000000" "01010202020E0000"))


# Refusals

def refusals(tally):
    for rule, (links, points) in BREAKERS.items():
        for start, wanted in ((3, (2, rule)), (4, (1, 0)), (1 << 63, (1, 0))):
            left = refused(tally, f"breaker of rule {rule}, start {start}", links, points, b"abc", start, wanted)
            tally.equal(f"breaker of rule {rule}, start {start}: nothing changes", left, (links, points, b"abc"))
    for name, links, points in (("no links", [], [0] * 6), ("links long", WORDS_B + [0], [0] * 6),
                                ("points short", WORDS_B, [0] * 5), ("capacity 0", [0] + WORDS_B[1:], [0] * 6),
                                ("capacity 4,097", [4_097] + WORDS_B[1:], [0] * 6)):
        refused(tally, name, links, points, bytes(200), 200, (1, 0))


def sizes(tally):
    """9 where a byte is lacking; none of these steps calls for a number, so that no kind has to have a free one."""
    for full, kind in enumerate(("solid", "face", "loop", "edge", "vertex")):
        table = table_with(body_of({1: [3, 2], 2: [1, 4]}, {1: 1, 2: 2}, {1: 1, 2: 2}),
                           [0 if place == full else 1 for place in range(5)])
        words, need = (table.links, table.points), bytes_needed(table.links, table.points)
        tally.equal(f"no {kind} free: at most", need, 19 * 4)
        log = b"\xEE" * (need + 30)
        for start in (need - 1, 0):
            left = refused(tally, f"no {kind} free, room {start}", *words, log, start, (9, 0))
            tally.equal(f"no {kind} free, room {start}: nothing changes", left, words + (log,))
        answer = take_down(list(words[0]), list(words[1]), bytearray(log), b"", Session(need))
        tally.equal(f"no {kind} free", answer[:3], (0, 0, 3))
    empty = cleared_table((1,) * 5)
    taken_down = take_down(empty.links, empty.points, bytearray(), b"", Session(0))
    tally.equal("an empty table needs no log", taken_down, (0, 0, 0, 0))


# Loops, face of each, outer loop of each face; spare numbers; the kind that lacks, and what the steps log before, as
# the log has it: the inverse of the last operator in front.
KNOT = [1, 3, 2, 4]
LACKS = [
    ("mfkrh, at once", {1: [1], 2: [2]}, {1: 1, 2: 1}, {1: 1}, (0, 0, 1, 1, 0), "face", []),
    ("mfkrh behind kemr", {1: KNOT}, {1: 1}, {1: 1}, (0, 0, 1, 0, 0), "face", [operator("mekr", 1, 4, 2, 3, 1, 0)]),
    ("kemr, at once", {1: KNOT}, {1: 1}, {1: 1}, (0, 1, 0, 1, 0), "loop", []),
    ("kemr behind kev", {1: KNOT + [5, 6]}, {1: 1}, {1: 1}, (0, 1, 0, 1, 0), "loop",
     [operator("mev", 1, 1, 3, 2, 0, 0, 0, 0)]),
    ("mekr, at once", {1: [], 2: [], 3: [1, 2]}, {1: 1, 2: 1, 3: 2}, {1: 1, 2: 3}, (0, 1, 1, 0, 1), "edge", []),
    ("mekr of the second solid", {1: [], 2: [], 3: [], 4: [1, 2]}, {1: 1, 2: 2, 3: 2, 4: 3}, {1: 1, 2: 2, 3: 4},
     (0, 1, 1, 0, 1), "edge", [operator("mvsf", 1, 1, 1, 3, 0, 0, 0)]),
]


def lacks(tally):
    """10 for each kind: table, live log and session stay, and in front of the start is what the steps logged."""
    for name, cycles, loop_face, face_outer, spares, kind, inverses in LACKS:
        table = table_with(body_of(cycles, loop_face, face_outer), spares)
        words, need = (table.links, table.points), bytes_needed(table.links, table.points)
        tally.equal(f"{name}: sound", check(*words), (0, 0))
        tally.equal(f"{name}: what lacks, and behind what", taken(*words)[1:], (inverses[::-1], kind))
        log, logged = b"\xEE" * (need + 30), script_bytes(inverses)
        left = refused(tally, name, *words, log, need, (10, 0))
        wanted = log[:need - len(logged)] + logged + log[need:]
        tally.equal(f"{name}: only logged bytes differ", left, words + (wanted,))
        left = refused(tally, f"{name}: 9 comes first", *words, log, need - 1, (9, 0))
        tally.equal(f"{name}: 9 changes nothing", left, words + (log,))
        links, points, session = list(words[0]), list(words[1]), Session(need, 3)
        take_down(links, points, bytearray(log), b"abcde", session)
        tally.equal(f"{name}: the redo log is not emptied", session, Session(need, 3))
        roomy = table_with(body_of(cycles, loop_face, face_outer), SPARES)
        tally.equal(f"{name}: with numbers to spare", taken(roomy.links, roomy.points).lacking, None)


def solids_before(tally):
    """A solid that is down has left a face and a loop, so that the next one's mfkrh and kemr find theirs."""
    table = table_with(body_of({1: [], 2: KNOT}, {1: 1, 2: 2}, {1: 1, 2: 2}), (0,) * 5)
    tally.equal("a full table of a vertex and a torus", operators_of(table),
                ["kvsf 1", "kemr 1 1", "mfkrh 1 1 0", "kef 3", "kvsf 2"])
    table = table_with(body_of({1: KNOT, 2: []}, {1: 1, 2: 2}, {1: 1, 2: 2}), (0,) * 5)
    tally.equal("of a torus and a vertex", taken(table.links, table.points)[1:], ([], "loop"))


def full_box(tally):
    """A plain box with no number free of any kind: "its take-down never makes an edge", nor a face nor a ring."""
    table = table_with(prism(circle(4, 1_000), 0, 500), (0,) * 5)
    words, need = (table.links, table.points), bytes_needed(table.links, table.points)
    tally.equal("a full box: sound", check(*words), (0, 0))
    tally.equal("a full box: counts", count(*words)[2:], (1, 6, 6, 12, 8, 0, 0))
    tally.equal("a full box: capacities", tuple(table.links[:5]), (1, 6, 6, 12, 8))
    kinds = [op.split()[0] for op in operators_of(table)]
    tally.equal("a full box: operators", kinds, ["kef"] * 5 + ["kev"] * 7 + ["kvsf"])
    refused(tally, "a full box: a byte less", *words, b"\xEE" * need, need - 1, (9, 0))
    links, points, log = list(words[0]), list(words[1]), bytearray(b"\xEE" * need)
    answer = take_down(links, points, log, b"", Session(need))
    tally.equal("a full box: taken down", answer[:3], (0, 0, 13))
    again = cleared_table(tuple(table.links[:5]))
    tally.equal("a full box: empty", (links, points), (again.links, again.points))
    script = bytes(log[answer.start:])
    built = run(again.links, again.points, bytearray(need), b"", Session(need), script)
    tally.equal("a full box: built again", (built[:3], again.links, again.points), ((0, 0, 13),) + words)


TAKEDOWN_EXAMPLES = (example_e, steps_in_order, refusals, sizes, lacks, solids_before, full_box)
