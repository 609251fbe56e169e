"""Properties on random cases, and the inverse table as a check."""

from collections import Counter

import cases
import generate
import wire
from boundary import Boundary
from kernel import Session, run, undo
from layout import Table, edge_of, mate, way_of
from operators import carry_out, plan
from rules import RULES, check, count
from script import (PATTERNS, describe, operator, operator_bytes, read_operator, read_script,
                    script_bytes, shorten, write_operator)

ROOM = 19


def words_of(table):
    return list(table.links), list(table.points)


# Walks: at each step one operator is run on words, and everything is asked of it

def walks(tally, rng, scale):
    """Random walks over tables; answers how often each situation was met."""
    met = Counter()
    for _ in range(int(90 * scale)):
        table = generate.random_table(rng)
        # A step costs as much as the table is long; a few are enough on a long one.
        for _ in range(rng.choice((10, 20, 40)) if len(table.links) < 600 else 1):
            op = generate.random_operator(rng, Boundary(table))
            step(tally, rng, table, op, met)
    return met


def step(tally, rng, table, op, met):
    links, points = words_of(table)
    log = bytearray(rng.randrange(256) for _ in range(ROOM + 3))
    log_before = bytes(log)
    answer = run(links, points, log, b"", Session(ROOM), operator_bytes(op))
    met[PATTERNS[op.code][0], answer.refusal] += 1
    name = f"{describe(op)} on {table.links} {table.points}"
    if answer.refusal != 0:
        tally.equal(f"refused changes nothing: {name}", (links, points, bytes(log), answer[1:]),
                    (table.links, table.points, log_before, (0, 0, 0, ROOM)))
        return
    for situation in situations(table, op):
        met[situation] += 1
    accepted_step(tally, name, table, op, Table(links, points), log, log_before, answer)
    table.links[:], table.points[:] = links, points


def accepted_step(tally, name, before, op, after, log, log_before, answer):
    tally.equal(f"stays sound: {name}", check(*words_of(after)), (0, 0))
    tally.equal(f"done and used: {name}", answer[:4], (0, 0, 1, len(operator_bytes(op))))
    refusal, inverse, length = read_operator(log, answer.start, before.capacities)
    tally.equal(f"one inverse just below the start: {name}", (refusal, answer.start + length), (0, ROOM))
    tally.equal(f"other log bytes: {name}", log[:answer.start] + log[ROOM:],
                log_before[:answer.start] + log_before[ROOM:])
    tally.equal(f"inverse by the table of inverses: {name}", inverse, tabled_inverse(before, op))
    links, points = words_of(after)
    body = Boundary(Table(links, points))
    tally.equal(f"inverse of the inverse: {name}", plan(body, inverse)[:2], (0, op))
    room = len(operator_bytes(op))
    redo = bytearray(room)
    undone = undo(links, points, log, redo, Session(answer.start, room), 1)
    tally.equal(f"undo: {name}", undone, (0, 0, 1, ROOM))
    tally.equal(f"undo writes the operator: {name}", bytes(redo), operator_bytes(op))
    tally.equal(f"undo restores: {name}", (links, points), words_of(before))
    tally.equal(f"only what the text names: {name}", stray_changes(before, after, op), set())


# The inverse table of the design notes, word for word over links; it is checked, not used

def tabled_inverse(table, op):
    def nxt(half):
        return table.record("half", half)[2]

    def loop(half):
        return table.record("half", half)[1]

    def face(half):
        return table.record("loop", loop(half))[0]

    def start(half):
        return table.record("half", half)[0]

    k, args = op.args[0], op.args
    m, name = mate(k), PATTERNS[op.code][0]
    if name == "kev":
        return operator("mev", loop(k), 0 if nxt(m) == k else nxt(m), edge_of(k), start(m), way_of(k),
                        *table.point(start(m)))
    if name == "kef":
        return operator("mef", loop(m), *kef_corners(nxt, k, m), edge_of(k), face(k), loop(k),
                        way_of(m) + (2 if nxt(m) == m and nxt(k) != k else 0))
    if name == "kemr":
        return operator("mekr", loop(k), 0 if nxt(m) == k else nxt(m), args[1],
                        0 if nxt(k) == m else nxt(k), edge_of(k), way_of(k))
    if name == "jekv":
        n = nxt(k)
        return operator("semv", k, edge_of(n), start(n), way_of(n), *table.point(start(n)))
    return tabled_inverse_of_makers(table, name, args)


def kef_corners(nxt, k, m):
    rest, others = nxt(k) != k, nxt(m) != m
    if rest and others:
        return nxt(k), nxt(m)
    corner = nxt(m) if others else nxt(k) if rest else 0
    return corner, corner


def tabled_inverse_of_makers(table, name, args):
    if name == "mvsf":
        return operator("kvsf", args[0])
    if name == "kvsf":
        (face, outer), = [(f, w[1]) for f, w in table.used("face").items() if w[0] == args[0]]
        vertex = table.record("loop", outer)[2]
        return operator("mvsf", args[0], face, outer, vertex, *table.point(vertex))
    if name == "mev":
        return operator("kev", 2 * args[2] - 1 if args[4] == 0 else 2 * args[2])
    if name == "mef":
        return operator("kef", 2 * args[3] if args[6] % 2 == 0 else 2 * args[3] - 1)
    if name == "mekr":
        return operator("kemr", 2 * args[4] - 1 if args[5] == 0 else 2 * args[4], args[2])
    if name == "semv":
        return operator("jekv", args[0])
    if name == "kfmrh":
        (s1, _), (s2, outer) = table.record("face", args[0]), table.record("face", args[1])
        return operator("mfkrh", outer, args[1], s2 if s1 != s2 else 0)
    old = table.record("loop", args[0])[0]
    if name == "mfkrh":
        return operator("kfmrh", old, args[1])
    return operator("rmov", table.record("face", old)[1], old) if args[1] == old else operator("rmov", args[0], old)


# What an operator may change, by the text alone: items it names and those beside them

def stray_changes(before, after, op):
    """The records that changed although the operator's text gives no reason for it."""
    changed = {(kind, n) for kind in before.counts for n in before.numbers(kind)
               if before.record(kind, n) != after.record(kind, n)}
    changed |= {("point", v) for v in before.numbers("vertex") if before.point(v) != after.point(v)}
    return changed - allowed_changes(before, after, op)


def allowed_changes(before, after, op):
    """Items born or killed, named ones, and for half-edges the members of changed loops."""
    allowed = set()
    for kind in before.counts:
        allowed |= {(kind, n) for n in set(before.used(kind)) ^ set(after.used(kind))}
    allowed |= {("point", v) for kind, v in allowed if kind == "vertex"}
    named = {"edge": "half"}
    for operand, value in zip(PATTERNS[op.code][1], op.args):
        if operand.role == "old":
            allowed.add((named.get(operand.kind, operand.kind), value))
    name = PATTERNS[op.code][0]
    if name in ("kfmrh", "mfkrh"):
        allowed |= {("face", f) for f in before.used("face")} | {("loop", outer_of(before, op))}
    if name == "rmov":
        allowed.add(("face", before.record("loop", op.args[0])[0]))
    if name in ("mev", "kev", "mef", "kef", "kemr", "mekr", "semv", "jekv"):
        allowed |= edge_surroundings(before, op) | edge_surroundings(after, op)
    # semv and jekv leave as many half-edges at the ends of the edge as there were.
    if name not in ("semv", "jekv"):
        allowed |= ends_of_an_edge(before, after)
    return allowed


def ends_of_an_edge(before, after):
    """The vertices at which half-edges that are born or killed start."""
    here, there = before.used("half"), after.used("half")
    return {("vertex", (here.get(h) or there.get(h))[0]) for h in set(here) ^ set(there)}


def outer_of(table, op):
    return table.record("face", op.args[1])[1] if op.code == 9 else op.args[0]


def edge_surroundings(table, op):
    """The loops an edge operator names or has its half-edges in, with their half-edges."""
    loops = set()
    for operand, value in zip(PATTERNS[op.code][1], op.args):
        if operand.kind == "loop":
            loops.add(value)
        halves = {"half": (value, mate(value) if value else 0), "edge": (2 * value - 1, 2 * value)}.get(operand.kind, ())
        loops |= {table.record("half", h)[1] for h in halves if h in table.used("half")}
    members = {("half", h) for h, words in table.used("half").items() if words[1] in loops}
    return members | {("loop", l) for l in loops}


# Situations that the random walks have to meet, or they show little

def situations(table, op):
    b, args, name = Boundary(table), op.args, PATTERNS[op.code][0]
    if name in ("mev", "mef", "mekr"):
        yield f"{name} at a lone loop" if args[1] == 0 else f"{name} at a half-edge"
    if name == "mef":
        yield f"mef {'equal' if args[1] == args[2] else 'unequal'} corners way {args[6]}"
        yield "mef of a ring" if b.is_ring(args[0]) else "mef of an outer loop"
    if name == "mekr":
        yield f"mekr to a {'lone ring' if args[3] == 0 else 'ring'}, from a {'ring' if b.is_ring(args[0]) else 'outer loop'}"
    if name in ("kev", "kef", "kemr", "semv", "jekv"):
        behind, beyond = b.after(args[0]), b.loop_of(mate(args[0]))
        sizes = tuple("one" if len(b.cycles[l]) == 1 else "more" for l in (b.loop_of(args[0]), beyond))
        yield f"{name} with loops of {sizes[0]} and {sizes[1]}"
        yield f"{name} with next the mate {behind[:1] == [mate(args[0])]}"
        yield f"{name} across a ring {b.is_ring(b.loop_of(args[0])) or b.is_ring(beyond)}"
    if name == "kemr":
        place = b.after(args[0]).index(mate(args[0]))
        yield f"kemr cut {'empty' if place == 0 else 'full'}, rest {'empty' if place == len(b.after(args[0])) - 1 else 'full'}"
    if name == "kfmrh":
        yield f"kfmrh in one solid {b.face_solid[args[0]] == b.face_solid[args[1]]}"
    if name == "mfkrh":
        yield "mfkrh with a new solid" if args[2] else "mfkrh in one solid"
    if name == "rmov":
        yield "rmov in its face" if b.loop_face[args[0]] == args[1] else "rmov to another face"


WANTED_SITUATIONS = [f"{n} at a {c}" for n in ("mev", "mef", "mekr") for c in ("lone loop", "half-edge")]
WANTED_SITUATIONS += [f"mef equal corners way {w}" for w in range(4)]
WANTED_SITUATIONS += ["mef unequal corners way 0", "mef unequal corners way 1", "mef of a ring", "mef of an outer loop"]
WANTED_SITUATIONS += [f"mekr to a {a}, from a {b}" for a in ("lone ring", "ring") for b in ("ring", "outer loop")]
WANTED_SITUATIONS += [f"kef with loops of {a} and {b}" for a in ("one", "more") for b in ("one", "more")]
WANTED_SITUATIONS += [f"semv with loops of {a} and {b}" for a in ("one", "more") for b in ("one", "more")]
WANTED_SITUATIONS += ["semv with next the mate True", "semv with next the mate False", "kev across a ring True",
                      "kef across a ring True", "kemr across a ring True", "jekv across a ring True",
                      "kfmrh in one solid True", "kfmrh in one solid False", "mfkrh with a new solid",
                      "mfkrh in one solid", "rmov in its face", "rmov to another face"]
WANTED_SITUATIONS += [f"kemr cut {a}, rest {b}" for a in ("empty", "full") for b in ("empty", "full")]
WANTED_SITUATIONS += [(name, 0) for name, _ in PATTERNS.values()]
WANTED_SITUATIONS += [(name, 8) for name, _ in PATTERNS.values() if name not in ("mvsf", "semv")]


def walks_meet_everything(tally, rng, scale):
    met = walks(tally, rng, scale)
    # Fewer cases than by default cannot be asked to meet everything.
    for situation in WANTED_SITUATIONS if scale >= 1 else ():
        tally.holds(f"met: {situation}", met[situation] > 0)
    tally.equal("mvsf and semv never give 8", (met["mvsf", 8], met["semv", 8]), (0, 0))


# Lists of scripts, undone together

def scripts_and_undo(tally, rng, scale):
    for _ in range(int(250 * scale)):
        table, (log, start) = generate.random_table(rng), generate.random_log(rng)
        links, points = words_of(table)
        live, log, session, done, redo = log[start:], bytearray(log), Session(start), 0, bytearray()
        for _ in range(rng.randint(1, 4)):
            b = Boundary(Table(links, points))
            script = generate.random_script(rng, Table(links, points))
            here, answer = session.log, run(links, points, log, redo, session, script)
            one_run(tally, b, script, here, answer, Table(links, points))
            done, redo = done + answer.done, redo + bytearray(len(shorten(script[:answer.used])))
        # Just the room that is needed: undo writes the operators that were done, in shortest form.
        session.redo = len(redo)
        undone = undo(links, points, log, redo, session, done)
        tally.equal("undone to the byte", (links, points), words_of(table))
        if start <= len(log):
            tally.equal("undo's answer", undone, (0, 0, done, start))
            tally.equal("log from the first start on", bytes(log[start:]), bytes(live))
        else:
            tally.equal("undo beyond the log", undone, (1, 0, 0, start))


def one_run(tally, b, script, start, answer, after):
    """Done operators carried out one by one give the same table, used and start."""
    used = 0
    for _ in range(answer.done):
        _, op, length = read_operator(script, used, b.capacities)
        refusal, inverse = carry_out(b, op)
        used, start = used + length, start - len(operator_bytes(inverse))
    tally.equal("run's used and start", (answer.used, answer.start), (used, start))
    tally.equal("run's table", words_of(after), words_of(generate.table_of(b)))
    tally.equal("run ends by a refusal or the script's end", answer.refusal == 0, used == len(script) and answer.refusal != 1)


# Scripts

def round_trips(tally, rng, scale):
    for _ in range(int(300 * scale)):
        table = generate.random_table(rng)
        script = generate.random_script(rng, table)
        refusal, operators, place = read_script(script)
        tally.equal("script read and written", script_bytes(operators), shorten(script[:place]))
        tally.holds("read to the end or refused with 3 to 5", refusal in (3, 4, 5) or place == len(script))
        for op in operators:
            destination = bytearray(b"\xEE" * 20)
            refusal, length = write_operator(op, destination)
            tally.equal("operator written and read", (refusal, read_operator(destination[:length], 0)), (0, (0, op, length)))
            tally.equal("nothing behind it", bytes(destination[length:]), b"\xEE" * (20 - length))
            tally.equal("one byte short", write_operator(op, bytearray(length - 1)), (9, 0))
            tally.equal("cut off", read_operator(destination[:length - 1], 0)[0], 3)


# Tables

def tables(tally, rng, scale):
    for _ in range(int(250 * scale)):
        table = generate.random_table(rng)
        tally.equal("made tables are sound", check(*words_of(table)), (0, 0))
        tally.equal("lists and words say the same", words_of(generate.table_of(Boundary(table))), words_of(table))
        _, _, s, f, l, e, v, r, h = count(*words_of(table))
        tally.equal("formula", (v - e + f, r), (2 * (s - h) + r, l - f))
        tally.holds("h whole and from 0 on", isinstance(h, int) and h >= 0)
        other = generate.renumbered(rng, Boundary(table), table.capacities)
        tally.equal("a stranger's numbers", count(*words_of(other)), count(*words_of(table)))


def damaged_tables(tally, rng, scale):
    """What passes the check is sound in lists too; every rule is met as the lowest broken."""
    met = Counter()
    for _ in range(int(800 * scale)):
        links, points = generate.damaged_table(rng)
        answer = check(links, points)
        met[answer] += 1
        if answer == (0, 0):
            again = generate.table_of(Boundary(Table(links, points)))
            tally.equal("sound tables come back", words_of(again), (links, points))
        elif answer[0] == 2:
            broken = RULES[answer[1] - 1]
            tally.equal("the named rule is broken, lower ones hold",
                        [rule(Table(links, points)) for rule in RULES[:answer[1]]], [True] * (answer[1] - 1) + [broken is None])
    for answer in [(0, 0), (1, 0)] + [(2, rule) for rule in range(1, 7)] if scale >= 1 else ():
        tally.holds(f"damage met: {answer}", met[answer] > 0)


# Wire

def wire_frames(tally, rng, scale):
    met = Counter()
    for _ in range(int(450 * scale)):
        case = cases.random_case(rng)
        data = wire.encode_case(case)
        back, place = wire.decode_answer(data)
        tally.equal("case encoded and decoded", (wire.encode_case(back), place), (data, len(data)))
        answer = wire.answer_case(back)
        met[case.kind] += 1
        tally.equal("answer encoded and decoded", wire.decode_stream(wire.encode_case(answer) * 2), [answer, answer])
        if answer.numbers[0] != 0 and case.kind not in (wire.RUN, wire.UNDO, wire.REDO):
            # but what a take-down that lacked a number has logged in front of the start
            place = case.session[0] if answer.numbers[0] == 10 else 0
            left, before = (frame._replace(log=frame.log[place:])[2:] for frame in (answer, back))
            tally.equal("a refused call leaves everything", left, before)
    for kind, name in wire.KIND_NAMES.items():
        tally.holds(f"wire met: {name}", met[kind] > 0)


PROPERTIES = (walks_meet_everything, scripts_and_undo, round_trips, tables, damaged_tables, wire_frames)
