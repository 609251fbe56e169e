"""The take-down of documents 01 ("The take-down") and 02 (job 6), its steps in their order.

A step is a generator: it yields its next operator and goes on only when that one has been carried out, so what is least
is always looked for in the table that the operator before has left. Of how operators are carried out it knows nothing.
"""

from collections import namedtuple

from boundary import Boundary, write_back
from kernel import entry_refusal, put_in_front
from layout import Table, half_of, mate
from operators import plan
from rules import count
from script import PATTERNS, limits_of, operands_of, operator, operator_bytes

# "An operator is its code and operands, 19 bytes at most".
LONGEST_OPERATOR = 19
# The kinds of number that the steps call for, each with the operator that does.
CALLED_FOR = {"face": "mfkrh", "loop": "kemr", "edge": "mekr"}

TakeDownAnswer = namedtuple("TakeDownAnswer", "refusal rule done start")
# How the steps ended: the body they left, the inverse of each operator done, and the kind of which they called for a
# number when none was left, None where they came to their end.
Taken = namedtuple("Taken", "body inverses lacking")


def take_down(links, points, log, redo, session):
    """Takes a table down; links, points, log (a bytearray) and session change in place.

    By 1, 2 and 9 nothing changes. By 10 "only those that the steps logged into may differ" of the bytes in front of the
    log's start; links and points are written only behind the last step, so that there is nothing to take back.
    """
    refusal, rule = take_down_refusal(links, points, log, session.log)
    if refusal != 0:
        return TakeDownAnswer(refusal, rule, 0, session.log)
    body, inverses, lacking = taken(links, points)
    start = session.log
    for inverse in inverses:
        start = put_in_front(log, start, operator_bytes(inverse))
    if lacking is not None:
        return TakeDownAnswer(10, 0, 0, session.log)
    write_back(body, links, points)
    session.log = start
    session.empty_redo(redo, len(inverses))
    return TakeDownAnswer(0, 0, len(inverses), start)


def taken(links, points):
    """The steps on a body of their own, up to their end or to where they lack a number."""
    body, inverses = Boundary(Table(links, points)), []
    for op in steps(body):
        lacking = lacking_kind(op)
        if lacking is not None:
            return Taken(body, inverses, lacking)
        inverses.append(carry_out_step(body, op))
    return Taken(body, inverses, None)


def lacking_kind(op):
    """The kind of the number that an operator of the steps was to have and that is not there."""
    lacking = [operand.kind for operand, number in zip(operands_of(op.code), op.args) if number is None]
    # What a step looks for among used items is always there: only the calls for a free number may come back empty.
    assert all(CALLED_FOR.get(kind) == PATTERNS[op.code][0] for kind in lacking), f"the take-down's own {op}"
    return lacking[0] if lacking else None


def carry_out_step(body, op):
    """Carries out an operator of the steps and answers its inverse; a refused one is a finding about the steps."""
    refusal, inverse, effect = plan(body, op)
    assert refusal == 0, f"the take-down's own {op} is refused by {refusal}"
    effect()
    return inverse


# Refusals

def take_down_refusal(links, points, log, start):
    """1 and 2, then 9: "The log-space test comes ahead of" 10; answers (refusal, rule)."""
    refusal, rule = entry_refusal(links, points, (log, start))
    if refusal != 0:
        return refusal, rule
    # "Free log bytes are those in front of a start not beyond the log."
    return (9 if start < bytes_needed(links, points) else 0), 0


def most_operators(links, points):
    """The number in "at most v + 2f + 2r + 3h - 2s operators", of a sound table."""
    _, _, s, f, _, _, v, r, h = count(links, points)
    return v + 2 * f + 2 * r + 3 * h - 2 * s


def bytes_needed(links, points):
    """By "9 [...] for the take-down fewer than 19 x (v + 2f + 2r + 3h - 2s) bytes free"."""
    return LONGEST_OPERATOR * most_operators(links, points)


# Steps

def steps(b):
    """By "Solids by number; root is the solid's least face", each by A, B and C, and "Last, kvsf."."""
    for solid in sorted(b.solids):
        root = min(faces_of_solid(b, solid))
        yield from step_a(b, solid, root)
        yield from step_b(b, root)
        yield from step_c(b, root)
        yield operator("kvsf", solid)


def step_a(b, solid, root):
    """By "A. While another face is left: least half-edge k outside the root with mate in the root. If k's loop is a
    ring, rmov makes it outer; rmov its face's rings to the root by number; kef k."
    """
    while faces_of_solid(b, solid) != [root]:
        k = least_beside(b, root)
        loop = b.loop_of(k)
        face = b.loop_face[loop]
        if b.is_ring(loop):
            yield operator("rmov", loop, face)
        for ring in rings_of_face(b, face):
            yield operator("rmov", ring, root)
        yield operator("kef", k)


def step_b(b, root):
    """By "B. While edges are left: least k in a ring with its mate in another loop: mfkrh to the least free face, kef
    k. If none: kev of the least k followed by its mate. If none: kemr, into the least free loop, of the least k for
    which some edge has exactly one half between k and its mate."
    """
    while halves_of_face(b, root):
        across, spur = least_across(b, root), least_spur(b, root)
        if across is not None:
            # The edge of k links the new face with the root, so no solid is made: s is 0.
            yield operator("mfkrh", b.loop_of(across), least_free(b, "face"), 0)
            yield operator("kef", across)
        elif spur is not None:
            yield operator("kev", spur)
        else:
            yield operator("kemr", least_crossed(b, root), least_free(b, "loop"))


def step_c(b, root):
    """By "C. Rings by number: mekr from the outer loop, least free edge, w = 0, then kev of 2e - 1."

    No edge is left, so both loops are lone and their corners are 0.
    """
    for ring in rings_of_face(b, root):
        edge = least_free(b, "edge")
        yield operator("mekr", b.face_outer[root], 0, ring, 0, edge, 0)
        yield operator("kev", half_of(edge, 0))


# What the steps look for: "least" always by number, None where there is none

def least(numbers):
    return min(numbers, default=None)


def least_free(b, kind):
    limit = limits_of(b.capacities)[kind]
    return next((number for number in range(1, limit + 1) if not b.in_use(kind, number)), None)


def faces_of_solid(b, solid):
    return [face for face, of in b.face_solid.items() if of == solid]


def rings_of_face(b, face):
    """By number."""
    return sorted(loop for loop in b.loops_of_face(face) if loop != b.face_outer[face])


def halves_of_face(b, face):
    """The half-edges of a face, each with its loop."""
    return {half: loop for loop in b.loops_of_face(face) for half in b.cycles[loop]}


def least_beside(b, root):
    """The "least half-edge k outside the root with mate in the root"."""
    inside = halves_of_face(b, root)
    return least(mate(half) for half in inside if mate(half) not in inside)


def least_across(b, root):
    """The "least k in a ring with its mate in another loop"; the root is the only face left, so both are in it."""
    loop = halves_of_face(b, root)
    return least(k for k in loop if loop[k] != b.face_outer[root] and loop[mate(k)] != loop[k])


def least_spur(b, root):
    """Of kev: "the least k followed by its mate"."""
    cycles = [b.cycles[loop] for loop in b.loops_of_face(root)]
    pairs = [pair for cycle in cycles for pair in zip(cycle, cycle[1:] + cycle[:1])]
    return least(k for k, following in pairs if following == mate(k))


def least_crossed(b, root):
    """Of kemr: "the least k for which some edge has exactly one half between k and its mate"."""
    return next((k for k in sorted(halves_of_face(b, root)) if is_crossed(b, k)), None)


def is_crossed(b, k):
    """Whether the run after k up to its mate holds one half of some edge and not the other."""
    behind = b.after(k)
    between = set(behind[:behind.index(mate(k))])
    return any(mate(half) not in between for half in between)
