"""Hand-made cases for document 02, job 4: the examples b, c and d of document 01 undone and redone, and every refusal.

Bytes are written down by hand: undo of d writes d itself into the redo log, and so on, so that its live part is the
script of what was undone.
"""

from examples import B, C, D, SMALL, WORDS_B, WORDS_C, WORDS_D, Desk
from kernel import Session, clear
from takedown import take_down

POINTS_B, POINTS_C = [0] * 6, [0, 0, 0, 100, 0, 0]
EMPTY = [1, 2, 2, 2, 2] + [0] * 29
# What b, c and d leave in the log, read forward: kef 4, kev 1, kvsf 1.
INVERSES = bytes.fromhex("0604 0401 0201")
CD = bytes.fromhex("03 01 00 01 02 00 C8 01 00 00" "05 01 01 02 02 02 02 00")
BCD = bytes.fromhex("0101010101000000") + CD


def drawn(log=10, redo=30):
    """The desk behind b, c and d; with a log of 10 bytes they leave it from 4 on."""
    desk = Desk(SMALL, log, redo)
    desk.run(B + C + D)
    return desk


def state(desk):
    """Everything that a call may change."""
    return desk.state(), bytes(desk.log), bytes(desk.redo_log), (desk.session.log, desk.session.redo)


def blank(length):
    return b"\xEE" * length


# There and back

def undo_and_redo(tally):
    desk = drawn()
    log = blank(4) + INVERSES
    tally.equal("b c d", state(desk), ((WORDS_D, POINTS_C), log, blank(30), (4, 30)))
    tally.equal("undo 2", desk.undo(2), (0, 0, 2, 8))
    # d's 8 bytes end the redo log, c's 10 lie in front of them: 30 - 18 = 12
    tally.equal("two undone", state(desk), ((WORDS_B, POINTS_B), log, blank(12) + CD, (8, 12)))
    tally.equal("redo 1", desk.redo(1), (0, 0, 1))
    tally.equal("c is back", state(desk), ((WORDS_C, POINTS_C), log, blank(12) + CD, (6, 22)))
    tally.equal("redo 2: only one is left", desk.redo(2), (11, 0, 1))
    tally.equal("d is back", state(desk), ((WORDS_D, POINTS_C), log, blank(12) + CD, (4, 30)))
    tally.equal("redo past the end", desk.redo(1), (11, 0, 0))
    tally.equal("redo 0 at the end", desk.redo(0), (0, 0, 0))
    tally.equal("undo 3", desk.undo(3), (0, 0, 3, 10))
    tally.equal("all undone", state(desk), ((EMPTY, POINTS_B), log, blank(4) + BCD, (10, 4)))
    tally.equal("undo past the end", desk.undo(1), (11, 0, 0, 10))
    tally.equal("redo 3", desk.redo(3), (0, 0, 3))
    tally.equal("all back", state(desk), ((WORDS_D, POINTS_C), log, blank(4) + BCD, (4, 30)))


def part_by_part(tally):
    """Undo 1 and then 2 is undo 3, and undo 3 with redo 1 is undo 2."""
    one, two, three = drawn(), drawn(), drawn()
    one.undo(1), one.undo(2), two.undo(3)
    tally.equal("undo 1, undo 2", state(one), state(two))
    two.redo(1), three.undo(2)
    tally.equal("undo 3, redo 1: table, log and session", (two.state(), two.log, two.session),
                (three.state(), three.log, three.session))
    tally.equal("undo 3, redo 1: the redo log", bytes(two.redo_log), blank(4) + BCD)
    tally.equal("undo 2: the redo log", bytes(three.redo_log), blank(12) + CD)


# What empties the redo log

def emptied(tally):
    desk = drawn()
    desk.undo(2)
    before = state(desk)
    for name, script, wanted in (("nothing", b"", (0, 0, 0, 0, 8)), ("b again", B, (7, 0, 0, 0, 8)),
                                 ("c cut off", C[:-1], (3, 0, 0, 0, 8)), ("code 14", b"\x0E", (4, 0, 0, 0, 8))):
        tally.equal(f"run of {name}", desk.run(script), wanted)
        tally.equal(f"run of {name} keeps the redo log", state(desk), before)
    tally.equal("run of c and c", desk.run(C + C), (7, 0, 1, 10, 6))
    tally.equal("one done empties it", state(desk), ((WORDS_C, POINTS_C), before[1], before[2], (6, 30)))
    tally.equal("nothing to redo", desk.redo(1), (11, 0, 0))


def cleared(tally):
    desk = drawn()
    desk.undo(2)
    log, redo = bytes(desk.log), bytes(desk.redo_log)
    tally.equal("clear refused", clear((1, 2, 2, 2, 3), *desk.lent()), (1,))
    tally.equal("refused, the session stays", state(desk), ((WORDS_B, POINTS_B), log, redo, (8, 12)))
    for session in (Session(8, 12), Session(11, 31), Session(1 << 63, (1 << 64) - 1)):
        desk.session = session
        tally.equal(f"clear of {session}", clear(SMALL, *desk.lent()), (0,))
        tally.equal("both logs begin empty", state(desk), ((EMPTY, POINTS_B), log, redo, (10, 30)))
    tally.equal("nothing to redo behind clearing", desk.redo(1), (11, 0, 0))
    tally.equal("nothing to undo behind clearing", desk.undo(1), (11, 0, 0, 10))


def taken_down(tally):
    """b alone: kvsf, logged as b; v + 2f - 2s is 1, so 19 bytes are asked for."""
    desk = Desk(SMALL, 30, 30)
    desk.run(B + C)
    desk.undo(1)
    tally.equal("c undone", (desk.session.log, desk.session.redo), (28, 20))
    short = Desk(SMALL, 20, 30)
    short.run(B + C)
    short.undo(1)
    tally.equal("take-down without room", take_down(*short.lent()), (9, 0, 0, 18))
    tally.equal("refused, the session stays", (short.session.log, short.session.redo), (18, 20))
    tally.equal("take-down", take_down(*desk.lent()), (0, 0, 1, 20))
    tally.equal("it empties the redo log", state(desk),
                ((EMPTY, POINTS_B), blank(20) + B + bytes.fromhex("0201"), blank(20) + C, (20, 30)))
    desk.session.redo = 20
    tally.equal("take-down of nothing", take_down(*desk.lent()), (0, 0, 0, 20))
    tally.equal("it keeps the redo log", (desk.session.log, desk.session.redo), (20, 20))


# Refusals

def bad_starts(tally):
    """A redo start beyond its log matters to undo and redo alone, a log start to all but clearing."""
    for start in (31, 1 << 32, (1 << 64) - 1):
        desk = drawn()
        desk.session.redo = start
        before = state(desk)
        tally.equal(f"undo with redo start {start}", desk.undo(1), (1, 0, 0, 4))
        tally.equal(f"undo 0 with redo start {start}", desk.undo(0), (1, 0, 0, 4))
        tally.equal(f"redo with redo start {start}", desk.redo(0), (1, 0, 0))
        tally.equal(f"take-down with redo start {start}", take_down(*desk.lent()), (9, 0, 0, 4))
        tally.equal(f"run of nothing with redo start {start}", desk.run(b""), (0, 0, 0, 0, 4))
        tally.equal(f"nothing changes with redo start {start}", state(desk), before)
        tally.equal(f"run without room with redo start {start}", desk.run(bytes.fromhex("0604")), (9, 0, 0, 0, 4))
        tally.equal(f"nor then with redo start {start}", state(desk), before)
        desk = drawn(30)
        desk.session.redo = start
        tally.equal(f"run of kef 4 with redo start {start}", desk.run(bytes.fromhex("0604")), (0, 0, 1, 2, 16))
        tally.equal(f"it mends redo start {start}", desk.session, Session(16, 30))
    for start in (11, 1 << 32, (1 << 64) - 1):
        desk = drawn()
        desk.session = Session(start, 30)
        before = state(desk)
        answers = desk.undo(0), desk.redo(0), desk.run(b""), take_down(*desk.lent())
        tally.equal(f"log start {start}", answers, ((1, 0, 0, start), (1, 0, 0), (1, 0, 0, 0, start), (1, 0, 0, start)))
        tally.equal(f"nothing changes with log start {start}", state(desk), before)


def room_in_the_redo_log(tally):
    """d needs 8 bytes, c 10 more, b 8 more."""
    log = blank(4) + INVERSES
    for room, wanted, words, points, redo in (
            (0, (9, 0, 0, 4), WORDS_D, POINTS_C, b""), (7, (9, 0, 0, 4), WORDS_D, POINTS_C, b""),
            (8, (9, 0, 1, 6), WORDS_C, POINTS_C, D), (17, (9, 0, 1, 6), WORDS_C, POINTS_C, D),
            (18, (9, 0, 2, 8), WORDS_B, POINTS_B, CD), (25, (9, 0, 2, 8), WORDS_B, POINTS_B, CD),
            (26, (0, 0, 3, 10), EMPTY, POINTS_B, BCD)):
        desk = drawn(redo=room)
        tally.equal(f"undo 3 with room {room}", desk.undo(3), wanted)
        front = room - len(redo)
        tally.equal(f"what stands with room {room}", state(desk),
                    ((words, points), log, blank(front) + redo, (wanted[3], front)))
    desk = drawn(redo=0)
    tally.equal("undo 0 without a redo log", desk.undo(0), (0, 0, 0, 4))
    desk.session.log = 10
    tally.equal("11 before 9", desk.undo(1), (11, 0, 0, 10))
    # by live bytes behind the start: room is what lies in front of it
    desk = drawn(redo=30)
    desk.session.redo = 7
    tally.equal("undo with 7 bytes in front", desk.undo(1), (9, 0, 0, 4))
    desk.session.redo = 8
    tally.equal("undo with 8 bytes in front", desk.undo(1), (0, 0, 1, 6))
    tally.equal("they are all written", (bytes(desk.redo_log), desk.session), (D + blank(22), Session(6, 0)))


def redo_refused(tally):
    """A redo log that a stranger has written, behind b."""
    for text, wanted in (("", 11), ("83", 3), ("03 01", 3), ("0E", 4), ("04 05", 5), ("04 01", 6), ("02 02", 5),
                         ("01 01 02 02 02 00 00 00", 7), ("0D 01 01", 8), ("03 01 00 01 02 00 C8 01 00 00", 0)):
        data = bytes.fromhex(text)
        desk = Desk(SMALL, 10, 0)
        desk.run(B)
        desk.redo_log, desk.session.redo = bytearray(data), 0
        before = state(desk)
        tally.equal(f"redo of {text}", desk.redo(1), (wanted, 0, 0 if wanted else 1))
        if wanted:
            tally.equal(f"redo of {text} changes nothing", state(desk), before)
    # kev 1 and kef 4 take two bytes each
    for room, wanted in ((1, (9, 0, 0)), (3, (9, 0, 1))):
        desk = Desk(SMALL, 10, 18)
        desk.run(B)
        desk.redo_log[:], desk.session = CD, Session(room, 0)
        tally.equal(f"redo with room {room}", desk.redo(2), wanted)
    tally.equal("the one stands", state(desk),
                ((WORDS_C, POINTS_C), bytes.fromhex("EE0401") + blank(5) + bytes.fromhex("0201"), CD, (1, 10)))


# Padded numbers

def padded(tally):
    """Undo reads kef 4 from five bytes; redo writes it in two, so that the log's start is three farther on."""
    desk = drawn()
    desk.log, desk.session.log = bytearray(blank(1) + bytes.fromhex("8600848000" "0401" "0201")), 1
    tally.equal("padded undo", desk.undo(1), (0, 0, 1, 6))
    tally.equal("d is in shortest form", (bytes(desk.redo_log), desk.session), (blank(22) + D, Session(6, 22)))
    tally.equal("redo behind it", desk.redo(1), (0, 0, 1))
    log = bytes.fromhex("EE 860084" "0604" "0401" "0201")
    tally.equal("the start does not return", state(desk), ((WORDS_D, POINTS_C), log, blank(22) + D, (4, 30)))
    desk.redo_log[22:], desk.session.redo = bytes.fromhex("8500 01"), 22
    tally.equal("padded redo cut off", desk.redo(1), (3, 0, 0))


REDO_EXAMPLES = (undo_and_redo, part_by_part, emptied, cleared, taken_down, bad_starts, room_in_the_redo_log,
                 redo_refused, padded)
