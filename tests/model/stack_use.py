"""How much stack the compiled library takes, by tests/driver/stack.c, which makes each call on a stack of its own.

Scratch memory of kef could only be stack: the library has no variables of its own and asks for no memory. A run takes
most of its stack in the check at its head, so that scratch memory of an operator could hide in the room that the check
has left; hence what counts is how many bytes a kef writes to, behind another operator in the same run. These have to be
as many for a killed loop of 3 half-edges as for one of 8,000, and too few to hold one bit for each of the 8,000. (What
lies above the frame in which the log is stored to, some 300 bytes, is not counted. What is reserved and not written is
not kef's: compiled into one function, all operators have one frame, and mfkrh has a union-find in it.)
"""

import shutil
import subprocess

import wire
from boundary import Boundary
from cases import exchanged, operator_for
from generate import grown, pools_of, renumbered
from layout import CAPACITY_LIMIT, links_length, points_length
from library import ask
from script import PATTERNS, operator, operator_bytes
from sweep_cases import FARTHEST, long_face
from takedown import LONGEST_OPERATOR, bytes_needed
from takedown_tables import body_of
from watch_cases import kef_bytes, long_kef
from wavefront_cases import large_cases

LARGEST = (CAPACITY_LIMIT,) * 5
SHORT, LONG = 3, 8_000
# What docs/GUIDE.md says that a call took, 35 KB, and a little more; callers are told to allow 64. A sweep has its whole
# script on the stack: it took 157, of the 256 that the guide allows for it.
ALLOWED, ALLOWED_BY = 36 * 1024, {"sweep": 160 * 1024}
# What the library may ask for: functions that move or compare bytes in memory that they are handed.
ASKED = {"memset", "memcpy", "memmove", "memcmp", "bcmp"}


def stacks(driver, cases):
    """What each case took: bytes reached, whether the last number is measured, bytes written to behind the first store
    to the log. None where there was no answer, or a refusal, but 10: then a take-down had to find its way back."""
    return [answer.numbers[-3:] if answer is not None and answer.numbers[0] in (0, 10) else None
            for answer in ask(driver, cases)]


# kef

def first_solid(table):
    """An operator to come before: a solid of the least free numbers."""
    pools = pools_of(Boundary(table))
    return operator_bytes(operator("mvsf", *(pools["new", kind][0] for kind in ("solid", "face", "loop", "vertex")),
                                   0, 0, 0))


def stack_cases(rng, killed, capacities=None):
    """One kef alone, and one behind another operator."""
    table, k = long_kef(rng, killed, 3, capacities)
    room = 2 * LONGEST_OPERATOR
    return [wire.case(wire.RUN, (), table.links, table.points, bytes(room), front + kef_bytes(k), session=(room, 0))
            for front in (b"", first_solid(table))]


def compare_kef_stacks(tally, driver, rng):
    """A short and a long loop at the same capacities, and for the record a short one in a table with little room."""
    sizes = ((SHORT, LARGEST), (LONG, LARGEST), (SHORT, None))
    taken = stacks(driver, [case for killed, capacities in sizes for case in stack_cases(rng, killed, capacities)])
    if not tally.holds("kefs are carried out on a stack of their own", None not in taken):
        return
    short, long, small = (reached for reached, _, _ in taken[0::2])
    tally.equal(f"stack of a run of one kef: killed loop of {LONG} half-edges, as of {SHORT}", long, short)
    print(f"  stack of a run of one kef, in bytes: {short} for a killed loop of {SHORT} half-edges, {long} for one of"
          f" {LONG}, both at capacities {CAPACITY_LIMIT}; {small} for one of {SHORT} in a small table")
    if all(measured for _, measured, _ in taken):
        compare_written(tally, *(written for _, _, written in taken[1::2]))
    else:
        print("  what a kef alone writes to cannot be measured here (Linux on x86-64 is needed)")


def compare_written(tally, short, long, small):
    tally.holds("stack that a kef writes to: is seen", short > 0)
    tally.equal(f"stack that a kef writes to: killed loop of {LONG} half-edges, as of {SHORT}", long, short)
    tally.holds("stack that a kef writes to: too little for a bit for each half-edge", 8 * long < LONG)
    print(f"  stack that the kef alone writes to, read, admitted, carried out and logged: {short}, {long}; {small}")


def compare_memory(tally, archives):
    """The library has no variables, and asks for nothing that could lend it memory."""
    if shutil.which("nm") is None:
        print("  nm is not installed: whether the library has memory of its own was not looked at")
        return
    lines = subprocess.run(["nm", "-P", *archives], stdout=subprocess.PIPE, text=True, check=True).stdout.splitlines()
    # name, kind, and for what is defined its place and size; a line of one word names a file of an archive
    kinds = [(line.split()[0], line.split()[1]) for line in lines if len(line.split()) > 1]
    there = {name for name, kind in kinds if kind not in "Uw"}
    wanted = {("zoghvari_run", "T"), ("zoghvari_sweep", "T")}
    tally.equal("the library's functions are listed", wanted - set(kinds), set())
    tally.equal("the library's variables", [name for name, kind in kinds if kind not in "TtRrUw"], [])
    tally.equal("the library asks for no memory", {name for name, _ in kinds} - there - ASKED, set())


# All calls

def one_of_each(rng):
    """For each code a run of one accepted operator, an undo and a redo, on tables of the largest capacities."""
    runs, undos, left, room = [], [], set(PATTERNS), bytes(LONGEST_OPERATOR)
    while left:
        table = renumbered(rng, grown(rng, (12,) * 5, 40), LARGEST)
        b = Boundary(table)
        for code in sorted(left):
            op = operator_for(rng, b, code)
            if op.code != code:
                continue
            script, lent = operator_bytes(op), (table.links, table.points)
            runs.append(wire.case(wire.RUN, (), *lent, room, script, session=(len(room), 0)))
            undos.append(wire.case(wire.UNDO, (1,), *lent, script, redo=room, session=(0, len(room))))
            left.remove(code)
    return runs + undos + list(map(exchanged, undos))


def lacking_take_down(rng):
    """One that does a kev before a loop lacks: as large as a table can be of which two loops are all."""
    knot = body_of({1: [1, 3, 2, 4, 5, 6], 2: []}, {1: 1, 2: 2}, {1: 1, 2: 2})
    table = renumbered(rng, knot, (2, 2, 2, CAPACITY_LIMIT, CAPACITY_LIMIT), in_order=True)
    need = bytes_needed(table.links, table.points)
    return wire.case(wire.TAKEDOWN, (), table.links, table.points, bytes(need), session=(need, 0))


def large_sweep(rng, edges):
    """The face around so many edges has twice as many corners; a corner has two inverses of at most three bytes."""
    table, room = renumbered(rng, long_face(edges), LARGEST), 2 * edges * 2 * 3
    face = min(table.used("face"))
    return wire.case(wire.SWEEP, (face, *FARTHEST), table.links, table.points, bytes(room), session=(room, 0))


def large_calls(rng):
    """A case or more of each kind at the largest capacities, all accepted, and a take-down that is refused with 10."""
    operators, texts = one_of_each(rng), large_cases(rng)[:1]
    table = renumbered(rng, grown(rng, (12,) * 5, 40), LARGEST)
    lent, need = (table.links, table.points), bytes_needed(table.links, table.points)
    return operators + texts + [
        wire.case(wire.CLEAR, LARGEST, [0] * links_length(LARGEST), [0] * points_length(LARGEST), session=(0, 0)),
        wire.case(wire.CHECK, (), *lent), wire.case(wire.COUNT, (), *lent),
        wire.case(wire.TAKEDOWN, (), *lent, bytes(need), session=(need, 0)), lacking_take_down(rng),
        large_sweep(rng, 2), large_sweep(rng, CAPACITY_LIMIT // 5),
        wire.case(wire.READ, (0,), script=operators[0].script),
        wire.case(wire.WRITE, (2, 1, 1) + (0,) * 8, script=bytes(LONGEST_OPERATOR))]


def compare_calls(tally, driver, rng):
    cases, most = large_calls(rng), {}
    for case, taken in zip(cases, stacks(driver, cases)):
        name = wire.KIND_NAMES[case.kind]
        if tally.holds(f"{name} is carried out on a stack of its own", taken is not None):
            most[name] = max(most.get(name, 0), taken[0])
    print("  stack of calls at the largest capacities, in bytes: "
          + ", ".join(f"{name} {taken}" for name, taken in most.items()))
    for name, taken in most.items():
        allowed = ALLOWED_BY.get(name, ALLOWED)
        tally.holds(f"{name} takes no more stack than the {allowed} bytes that it may", taken <= allowed)


def compare_stacks(tally, driver, archives, rng):
    compare_memory(tally, archives)
    compare_kef_stacks(tally, driver, rng)
    compare_calls(tally, driver, rng)
