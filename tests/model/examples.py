"""Hand-made cases with concrete words: the examples of document 01, and corner cases of the rules and of scripts."""

from kernel import Session, clear, program, redo, run, undo
from layout import Table, cleared_table, links_length
from rules import RULES, check, count
from script import (NO_OPERATOR, Operator, fold_coordinate, number_bytes, operator, read_number,
                    read_operator, script_bytes, write_operator)

SMALL = (1, 2, 2, 2, 2)
B = bytes.fromhex("0101010101000000")
C = bytes.fromhex("0301000102 00C8010000".replace(" ", ""))
D = bytes.fromhex("0501010202020200")

WORDS_B = [1, 2, 2, 2, 2] + [1] + [1, 1] + [0, 0] + [1, 0, 1] + [0, 0, 0] + [0] * 16 + [1, 0]
WORDS_C = [1, 2, 2, 2, 2] + [1] + [1, 1] + [0, 0] + [1, 1, 0] + [0, 0, 0] \
    + [1, 1, 2, 2] + [2, 1, 1, 1] + [0] * 8 + [2, 2]
WORDS_D = [1, 2, 2, 2, 2] + [1] + [1, 1] + [1, 2] + [1, 2, 0] + [2, 1, 0] \
    + [1, 2, 4, 4] + [2, 1, 3, 3] + [1, 1, 2, 2] + [2, 2, 1, 1] + [3, 3]


class Desk:
    """A table with a log and a redo log, and the session of calls made one after the other."""

    def __init__(self, capacities, log=200, redo=200):
        table = cleared_table(capacities)
        self.links, self.points = table.links, table.points
        self.log, self.redo_log, self.session = bytearray(b"\xEE" * log), bytearray(b"\xEE" * redo), Session(log, redo)

    def lent(self):
        return self.links, self.points, self.log, self.redo_log, self.session

    def run(self, script):
        return run(*self.lent(), script)

    def undo(self, wanted):
        return undo(*self.lent(), wanted)

    def redo(self, wanted):
        return redo(*self.lent(), wanted)

    def state(self):
        return list(self.links), list(self.points)

    def live(self):
        return bytes(self.log[self.session.log:])


def examples_a_to_d(tally):
    desk = Desk(SMALL)
    tally.equal("example a run", desk.run(b""), (0, 0, 0, 0, 200))
    tally.equal("example a undo", desk.undo(0), (0, 0, 0, 200))
    tally.equal("example a table", desk.state(), ([1, 2, 2, 2, 2] + [0] * 29, [0] * 6))
    tally.equal("example b run", desk.run(B), (0, 0, 1, 8, 198))
    tally.equal("example b words", desk.state(), (WORDS_B, [0] * 6))
    tally.equal("example b log", desk.live(), bytes.fromhex("0201"))
    tally.equal("example c run", desk.run(C), (0, 0, 1, 10, 196))
    tally.equal("example c words", desk.state(), (WORDS_C, [0, 0, 0, 100, 0, 0]))
    tally.equal("example c log", desk.live(), bytes.fromhex("04010201"))
    tally.equal("example d run", desk.run(D), (0, 0, 1, 8, 194))
    tally.equal("example d words", desk.state(), (WORDS_D, [0, 0, 0, 100, 0, 0]))
    tally.equal("example d log", desk.live(), bytes.fromhex("060404010201"))
    tally.equal("example d rest of the log", bytes(desk.log[:194]), b"\xEE" * 194)
    tally.equal("example d undo 1", desk.undo(1), (0, 0, 1, 196))
    tally.equal("example d undone", desk.state(), (WORDS_C, [0, 0, 0, 100, 0, 0]))
    tally.equal("example d undo 3", desk.undo(3), (11, 0, 2, 200))
    tally.equal("example d empty", desk.state(), ([1, 2, 2, 2, 2] + [0] * 29, [0] * 6))


def example_e_counts(tally):
    """The part of e that needs no take-down."""
    desk = Desk(SMALL)
    desk.run(B)
    script = script_bytes([operator("mef", 1, 0, 0, 1, 2, 2, 0), operator("kfmrh", 1, 2)])
    tally.equal("example e run", desk.run(script), (0, 0, 2, len(script), 200 - 2 - 2 - 4))
    tally.equal("example e log", desk.live(), bytes.fromhex("0A020200 0602 0201"))
    tally.equal("example e counts", count(*desk.state()), (0, 0, 1, 1, 2, 1, 1, 1, 1))


def examples_f_to_h(tally):
    for text, wanted in (("0E", 4), ("00", 4), ("8100", 3), ("818000", 3), ("81", 3), ("8E01", 4),
                         ("8E00", 4), ("8E8000", 4), ("8000", 4), ("808000", 4), ("8E808000", 3)):
        data = bytes.fromhex(text)
        tally.equal(f"example f read {text}", read_operator(data, 0), (wanted, NO_OPERATOR, 0))
        tally.equal(f"example f run {text}", Desk(SMALL).run(data), (wanted, 0, 0, 0, 200))
    for coordinate, wanted in ((50_000, 0), (-50_000, 0), (50_001, 5), (-50_001, 5)):
        for place in range(3):
            data = B[:5] + b"\0" * place + number_bytes(fold_coordinate(coordinate)) + b"\0" * (2 - place)
            tally.equal(f"example f coordinate {coordinate}", Desk(SMALL).run(data)[0], wanted)
    desk = Desk(SMALL)
    desk.run(B)
    tally.equal("example g again", desk.run(B), (7, 0, 0, 0, 198))
    tally.equal("example g unchanged", desk.state(), (WORDS_B, [0] * 6))
    desk.run(C)
    tally.equal("example g kvsf", desk.run(bytes.fromhex("0201")), (8, 0, 0, 0, 196))
    tally.equal("example g still", desk.state()[0], WORDS_C)
    for capacity, wanted in ((4_096, 0), (1, 0), (0, 1), (4_097, 1)):
        for place in range(5):
            example_h(tally, capacity, wanted, place)


def example_h(tally, capacity, wanted, place):
    capacities = [1] * 5
    capacities[place] = capacity
    links = [9] * links_length(capacities)
    points = [9] * (3 * capacities[4])
    before = list(links), list(points)
    session = Session(7, 9)
    tally.equal(f"example h {capacities}", clear(capacities, links, points, b"xyz", b"st", session), (wanted,))
    tally.equal(f"example h starts {capacities}", session, Session(7, 9) if wanted else Session(3, 2))
    if wanted == 0:
        before = capacities + [0] * (len(links) - 5), [0] * len(points)
    tally.equal(f"example h words {capacities}", (links, points), before)
    links[:5] = capacities
    tally.equal(f"example h check {capacities}", check(links, points), (wanted, 0))


def program_lines(tally):
    wanted = "refusal 0 done 1 used 8\ns 1 f 1 l 1 e 0 v 1 r 0 h 0\n"
    tally.equal("program on b", program(B), wanted)
    tally.equal("program on nothing", program(b""), "refusal 0 done 0 used 0\ns 0 f 0 l 0 e 0 v 0 r 0 h 0\n")
    tally.equal("program too long", program(bytes(4_097)), "input too long\n")
    tally.equal("program longest", program(B + bytes(4_088)),
                "refusal 4 done 1 used 8\ns 1 f 1 l 1 e 0 v 1 r 0 h 0\n")
    tally.equal("program cut off", program(B + C[:-1]),
                "refusal 3 done 1 used 8\ns 1 f 1 l 1 e 0 v 1 r 0 h 0\n")


# Rules

# The smallest table found for each rule that breaks this rule and no other.
BREAKERS = {
    1: ([1, 1, 1, 1, 1] + [1] + [1, 1] + [1, 0, 1] + [0] * 8 + [1], [50_001, 0, 0]),
    2: ([1, 1, 1, 1, 1] + [1] + [0, 0] + [0, 0, 0] + [0] * 8 + [0], [0, 0, 0]),
    3: ([1, 1, 1, 1, 1] + [1] + [1, 1] + [1, 0, 0] + [0] * 8 + [0], [0, 0, 0]),
    4: ([1, 1, 1, 1, 2] + [1] + [1, 1] + [1, 2, 0] + [1, 1, 2, 2] + [2, 1, 1, 1] + [2, 2], [0] * 6),
    5: ([1, 1, 1, 1, 1] + [0] + [0, 0] + [0, 0, 0] + [0] * 8 + [1], [0, 0, 0]),
    6: ([1, 2, 2, 1, 2] + [1] + [1, 1] + [1, 2] + [1, 0, 1] + [2, 0, 2] + [0] * 8 + [1, 1], [0] * 6),
}


def each_rule_alone(tally):
    for rule, (links, points) in BREAKERS.items():
        tally.equal(f"breaker of rule {rule}", check(links, points), (2, rule))
        tally.equal(f"count on breaker {rule}", count(links, points), (2, rule) + (0,) * 7)
        table = Table(links, points)
        holding = [number for number, holds in enumerate(RULES, 1) if holds(table)]
        tally.equal(f"only rule {rule} broken", holding, [n for n in range(1, 7) if n != rule])
        log = bytearray(b"\x02\x01")
        lent = links, points, log, bytearray(b"\x02\x01")
        tally.equal(f"run on breaker {rule}", run(*lent, Session(1), b"\x02\x01"), (2, rule, 0, 0, 1))
        tally.equal(f"undo on breaker {rule}", undo(*lent, Session(0), 1), (2, rule, 0, 0))
        tally.equal(f"redo on breaker {rule}", redo(*lent, Session(0), 1), (2, rule, 0))
        tally.equal(f"1 before 2 ({rule})", run(*lent, Session(3), b""), (1, 0, 0, 0, 3))
        for session in (Session(3, 0), Session(0, 3)):
            tally.equal(f"1 before 2 in undo ({rule})", undo(*lent, session, 1), (1, 0, 0, session.log))
            tally.equal(f"1 before 2 in redo ({rule})", redo(*lent, session, 1), (1, 0, 0))


# Edits to the words of example d (places in links, new words) and the rule they break.
# 5 solid; 6-9 faces; 10-15 loops; 16-31 half-edges; 32-33 vertices.
EDITS_OF_D = [
    ("solid mark 2", {5: 2}, 1), ("solid mark 2 before a wrong vertex word", {5: 2, 32: 2}, 1),
    ("vertex word 2 for 3", {32: 2}, 5), ("vertex word 4 for 3", {33: 4}, 5), ("vertex word 1 for 3", {32: 1}, 5),
    ("vertex word 65,535 for 3", {33: 65_535}, 5), ("both vertex words wrong", {32: 2, 33: 4}, 5),
    ("a wrong vertex word behind rule 4", {32: 2, 11: 3}, 4),
    ("face names solid 2 of 1", {6: 2}, 1), ("face names loop 3 of 2", {7: 3}, 1),
    ("used face without outer loop", {7: 0}, 1), ("free face with outer loop", {8: 0}, 1),
    ("loop names face 3 of 2", {10: 3}, 1), ("loop's first 5 of 4", {11: 5}, 1),
    ("lone vertex 3 of 2", {12: 3}, 1), ("free loop with first", {13: 0}, 1),
    ("start 3 of 2", {16: 3}, 1), ("half-edge in loop 0", {17: 0}, 1), ("next 0", {18: 0}, 1),
    ("previous 5 of 4", {19: 5}, 1), ("one half free", {20: 0, 21: 0, 22: 0, 23: 0}, 1),
    ("free vertex with a point", {33: 0}, 1), ("vertex in no use", {32: 0}, 2),
    ("vertex in no use, its point 0", {33: 0, "point": 0}, 2),
    ("solid free but named", {5: 0}, 2), ("outer loop of another face", {9: 1}, 2),
    ("first and lone vertex", {12: 1}, 3), ("neither first nor lone", {11: 0}, 3),
    ("first not the least", {11: 3}, 4), ("first of another loop", {11: 1}, 4),
    ("next to itself", {18: 1}, 4), ("previous to itself", {19: 1}, 4),
    ("start of another vertex", {16: 2}, 4), ("half-edge names another loop", {17: 1}, 4),
    ("lone loop that is named", {11: 0, 12: 1}, 4),
    ("both next and previous itself", {18: 1, 19: 1, 30: 4, 31: 4}, 4),
    ("two cycles in one loop", {17: 1, 29: 1, 13: 2, 14: 0, 15: 2, 11: 1}, 4),
    ("vertex with two cycles", {20: 1, 28: 1, 32: 5, 33: 0, "point": 0}, 5),
]
# The same for example c, whose second face, second loop, edge 2 are free; and for b.
EDITS_OF_C = [
    ("outer loop free", {7: 2}, 2), ("loop names a free face", {10: 2}, 2), ("first free", {11: 3}, 2),
    ("half-edge names a free loop", {17: 2}, 2), ("next free", {18: 3}, 2), ("previous free", {19: 4}, 2),
    ("vertex lone and starting", {13: 1, 15: 1}, 5), ("second face lone at a starting vertex", {8: 1, 9: 2, 13: 2, 14: 0, 15: 2}, 5),
]
EDITS_OF_B = [
    ("lone vertex free", {12: 2}, 2), ("solid in use without a face", {6: 0, 7: 0, 10: 0, 12: 0, 32: 0}, 2),
    ("vertex idle", {33: 1}, 5), ("vertex idle with word 2", {33: 2}, 5), ("idle with word 65,535", {33: 65_535}, 5),
    ("lone vertex with word 2", {32: 2}, 5), ("lone vertex with word 0", {32: 0}, 2), ("unlinked face", {8: 1, 9: 2, 13: 2, 15: 2, 33: 1}, 6),
    ("ring lone at the same vertex", {13: 1, 15: 1}, 5), ("sound lone ring", {13: 1, 15: 2, 33: 1}, 0),
]


def clauses_of_rules(tally):
    for words, edits in ((WORDS_D, EDITS_OF_D), (WORDS_C, EDITS_OF_C), (WORDS_B, EDITS_OF_B)):
        points = [0, 0, 0, 0, 0, 0] if words is WORDS_B else [0, 0, 0, 100, 0, 0]
        tally.equal("rule: unedited", check(list(words), points), (0, 0))
        for name, edit, rule in edits:
            edit = dict(edit)
            moved = points[:3] + [edit.pop("point", points[3]), 0, 0]
            links = [edit.get(place, word) for place, word in enumerate(words)]
            tally.equal(f"rule: {name}", check(links, moved), (2, rule) if rule else (0, 0))
    start = [2, 2, 2, 2, 2]
    tally.equal("rule: an edge between two solids", check(start + [1, 1, 1, 1, 2, 2] + WORDS_D[10:], [0] * 6), (2, 6))
    tally.equal("rule: the same in one solid", check(start + [1, 0, 1, 1, 1, 2] + WORDS_D[10:], [0] * 6), (0, 0))
    tally.equal("rule: coordinate 50,000", check(list(WORDS_B), [50_000, -50_000, 0, 0, 0, 0]), (0, 0))
    tally.equal("rule: coordinate -50,001", check(list(WORDS_B), [0, 0, -50_001, 0, 0, 0]), (2, 1))
    tally.equal("rule: point of a free vertex", check(list(WORDS_B), [0, 0, 0, 0, 1, 0]), (2, 1))


def lengths(tally):
    points = [0] * 6
    for name, links, pts in (("no links", [], points), ("four words", [1, 2, 2, 2], points),
                             ("links short", WORDS_B[:-1], points), ("links long", WORDS_B + [0], points),
                             ("points short", WORDS_B, points[:-1]), ("points long", WORDS_B, points + [0]),
                             ("capacity 0", [0] + WORDS_B[1:], points)):
        tally.equal(f"lengths: {name}", check(list(links), list(pts)), (1, 0))
        tally.equal(f"lengths in undo: {name}", undo(list(links), list(pts), b"", b"", Session(0), 0), (1, 0, 0, 0))
        tally.equal(f"lengths in redo: {name}", redo(list(links), list(pts), b"", b"", Session(0), 0), (1, 0, 0))
    lent = list(WORDS_B), points, bytearray(3), bytearray(5)
    tally.equal("start at the log's end", run(*lent, Session(3), b""), (0, 0, 0, 0, 3))
    tally.equal("start beyond the log", run(*lent, Session(4), b""), (1, 0, 0, 0, 4))
    tally.equal("undo start beyond the log", undo(*lent, Session(4), 0), (1, 0, 0, 4))


# Scripts

def numbers(tally):
    for value, text in ((0, "00"), (127, "7F"), (128, "8001"), (16_383, "FF7F"), (16_384, "808001"),
                        (100_000, "A08D06"), ((1 << 21) - 1, "FFFF7F")):
        data = bytes.fromhex(text)
        tally.equal(f"number {value} written", number_bytes(value), data)
        tally.equal(f"number {value} read", read_number(data + b"\xFF", 0), (value, len(data)))
    for text in ("", "80", "8080", "808080", "80808000", "80808001", "FFFFFF7F"):
        tally.equal(f"number {text} refused", read_number(bytes.fromhex(text), 0), None)


def reading_order(tally):
    def refusal(text, capacities=None):
        return read_operator(bytes.fromhex(text.replace(" ", "")), 0, capacities)[0]
    tally.equal("all operands 3 before any 5", refusal("01 00 01 01 01 00 00 80"), 3)
    tally.equal("code before operands", refusal("0E 80"), 4)
    tally.equal("zero solid", refusal("01 00 01 01 01 00 00 00"), 5)
    tally.equal("zero solid in mfkrh", refusal("0A 01 01 00"), 0)
    tally.equal("way 2 in mev", refusal("03 01 00 01 01 02 00 00 00"), 5)
    tally.equal("way 3 in mef", refusal("05 01 00 00 01 01 01 03"), 0)
    tally.equal("way 4 in mef", refusal("05 01 00 00 01 01 01 04"), 5)
    tally.equal("half-edge 8,192", refusal("04 80 40"), 0)
    tally.equal("half-edge 8,193", refusal("04 81 40"), 5)
    tally.equal("face 4,096", refusal("09 80 20 01"), 0)
    tally.equal("face 4,097", refusal("09 81 20 01"), 5)
    tally.equal("half-edge 4 of E = 2", refusal("04 04", SMALL), 0)
    tally.equal("half-edge 5 of E = 2", refusal("04 05", SMALL), 5)
    tally.equal("place at the end", read_operator(b"\x02\x01", 2), (3, NO_OPERATOR, 0))
    tally.equal("place inside", read_operator(b"\x02\x02\x01", 1), (0, operator("kvsf", 1), 2))
    longest = operator("mev", 4_096, 8_192, 4_096, 4_096, 1, 50_000, -50_000, 50_000)
    tally.equal("the longest operator", len(script_bytes([longest])), 19)


def writing(tally):
    def write(op, size, place=0):
        destination = bytearray(b"\xEE" * size)
        return write_operator(op, destination, place), bytes(destination)
    kev, blank = operator("kev", 300), b"\xEE" * 4
    tally.equal("write", write(kev, 4), ((0, 3), bytes.fromhex("04AC02EE")))
    tally.equal("write at 1", write(kev, 4, 1), ((0, 3), bytes.fromhex("EE04AC02")))
    tally.equal("write too short", write(kev, 2), ((9, 0), b"\xEE" * 2))
    tally.equal("write too far", write(kev, 4, 2), ((9, 0), blank))
    tally.equal("write code 0", write(kev._replace(code=0), 4), ((4, 0), blank))
    tally.equal("write code 14", write(kev._replace(code=14), 0), ((4, 0), b""))
    tally.equal("write count 2", write(kev._replace(count=2), 4), ((5, 0), blank))
    tally.equal("write unused operand", write(Operator(4, 1, (1, 0, 0, 0, 0, 0, 0, 1)), 0), ((5, 0), b""))
    tally.equal("write operand 8,193", write(operator("kev", 8_193), 4), ((5, 0), blank))
    tally.equal("write operand 0", write(operator("kev", 0), 4), ((5, 0), blank))
    tally.equal("write operand -1", write(operator("kev", -1), 4), ((5, 0), blank))
    tally.equal("write coordinates", write(operator("mvsf", 1, 1, 1, 1, -1, 50_000, -64), 20)[1][:10],
                bytes.fromhex("0101010101 01 A08D06 7F".replace(" ", "")))
    tally.equal("write coordinate 50,001", write(operator("mvsf", 1, 1, 1, 1, 0, 50_001, 0), 4), ((5, 0), blank))


EXAMPLES = (examples_a_to_d, example_e_counts, examples_f_to_h, program_lines, each_rule_alone,
            clauses_of_rules, lengths, numbers, reading_order, writing)
