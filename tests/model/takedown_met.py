"""What comparisons of the take-down have met: the situations of its operators, and those of its cases."""

from boundary import Boundary
from layout import Table
from rules import check, count
from script import PATTERNS, limits_of
from takedown import CALLED_FOR, bytes_needed, halves_of_face, least_free, most_operators, taken

# What the operators that call for a number leave in the log.
INVERSES = {"face": "kfmrh", "loop": "mekr", "edge": "kemr"}


# Operators

def step_situations(b, op):
    """What the take-down's operator does in the table just before it."""
    name, number = PATTERNS[op.code][0], op.args[0]
    yield f"takes down by {name}"
    if name == "rmov":
        face = b.loop_face[number]
        yield "A makes a ring outer" if op.args[1] == face else "A moves a ring to the root"
        if len(b.loops_of_face(face)) > 2:
            yield "A comes to a face of several rings"
    if name == "mfkrh" and op.args[1] < b.loop_face[number]:
        yield "B makes a face below the root"
    if name == "kemr":
        # No spur is left, so the half-edges below k are those of edges that nothing crosses.
        lowest = min(halves_of_face(b, b.face_of(number)))
        yield "B passes over an uncrossed edge" if lowest < number else "B cuts the least edge"
        if b.is_ring(b.loop_of(number)):
            yield "B cuts a ring"


# Cases

def case_situations(case, answer):
    """What is special about a case, by the answer that it has to get."""
    (refusal, _, done, _), (broken, _) = answer.numbers, check(case.links, case.points)
    if refusal == 1 and broken == 2:
        yield "1 before 2"
    if refusal in (1, 2):
        return
    spare_room = case.session[0] - bytes_needed(case.links, case.points)
    if spare_room in (0, -1):
        yield f"{refusal} with {'just the room asked for' if spare_room == 0 else 'a byte less'}"
    full = full_kinds(Boundary(Table(case.links, case.points)))
    yield from (f"{refusal} with no {kind} free" for kind in full)
    if refusal == 10 or full:
        yield from lack_situations(refusal, full, *taken(case.links, case.points)[1:])
    if refusal == 0:
        yield from size_situations(case, done)


def full_kinds(b):
    """The kinds that the steps call for and of which no number is free before them; "number" where none is of any."""
    full = {kind for kind in limits_of(b.capacities) if kind != "half" and least_free(b, kind) is None}
    return [kind for kind in CALLED_FOR if kind in full] + ["number"] * (len(full) == 5)


def lack_situations(refusal, full, inverses, lacking):
    """Of full tables: which number the steps lack, be it that 9 comes first, and what they have done by then."""
    done = {PATTERNS[inverse.code][0] for inverse in inverses}
    if lacking is None:
        # Of a kind that was full, a step before has freed a number.
        yield from (f"{refusal}, {kind} freed by a step" for kind in full if INVERSES.get(kind) in done)
    elif refusal == 9:
        yield "9 before 10"
    else:
        yield f"10, no {lacking} left"
        yield f"10, no {lacking} left behind steps" if done else "10 behind no step"
        # Each solid that is down has left a mvsf.
        yield from ["10 behind steps"] * bool(done) + ["10 at a later solid"] * ("mvsf" in done)


def size_situations(case, done):
    _, _, s, f, _, _, _, r, h = count(case.links, case.points)
    sizes = {"no solid": s == 0, "several solids": s > 1, "a solid of several faces": f > s, "several rings": r > 1,
             "no hole": h == 0, "several holes": h > 1,
             "as many operators as allowed": done == most_operators(case.links, case.points)}
    yield from (name for name, holds in sizes.items() if holds)


WANTED = [f"takes down by {name}" for name in ("kvsf", "kev", "kef", "kemr", "mekr", "mfkrh", "rmov")]
WANTED += ["A makes a ring outer", "A moves a ring to the root", "A comes to a face of several rings",
           "B makes a face below the root", "B passes over an uncrossed edge", "B cuts the least edge", "B cuts a ring"]
WANTED += ["0 with just the room asked for", "9 with a byte less", "1 before 2"]
WANTED += ["no solid", "several solids", "a solid of several faces", "several rings", "no hole", "several holes",
           "as many operators as allowed"]
# Of full tables; lacks come up seldom by chance, so they are wanted often.
WANTED_FULL = [f"0 with no {kind} free" for kind in (*CALLED_FOR, "number")]
WANTED_FULL += [f"0, {kind} freed by a step" for kind in CALLED_FOR]
WANTED_FULL += [f"{refusal} with just the room asked for" for refusal in (0, 10)]
WANTED_FULL += ["9 with a byte less", "9 before 10", "10 behind no step"]
WANTED_LACKS = [f"10, no {kind} left{behind}" for kind in CALLED_FOR for behind in ("", " behind steps")]
WANTED_LACKS += ["10 behind steps", "10 at a later solid"]
