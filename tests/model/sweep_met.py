"""What comparisons of the sweep have met."""

import wire
from boundary import Boundary
from layout import COORDINATE_LIMIT, Table, mate
from rules import check
from sweep import TAKEN, bytes_needed, corners_of_face, free_counts, lacking_kinds, moved_points, swept
from sweep_cases import HIGHEST, LOWEST
from wavefront_met import LARGEST, holding

REFUSALS = (0, 1, 2, 5, 6, 9, 10, 14)
# How often each refusal and the most important shapes have to be met; how many corners an accepted sweep has to have on
# the average.
OFTEN, CORNERS_AT_LEAST = 100, 5
CORNERS = "corners of accepted sweeps"


def asked_for(case):
    """The body, the face and the vector."""
    return Boundary(Table(case.links, case.points)), case.numbers[0], [*map(wire.signed, case.numbers[1:])]


def sweep_situations(case, answer):
    """What is special about a case, by the answer that it has to get; each with the refusal in front."""
    refusal = answer.numbers[0]
    found = SITUATIONS[refusal](case, answer)
    return [f"{refusal}, {name}" for name in found]


def table_situations(case, answer):
    """1 and 2 come before all others, 1 before 2."""
    (refusal, rule, _), beyond = answer.numbers, case.session[0] > len(case.log)
    return holding({f"rule {rule}": refusal == 2, "a start beyond the log": beyond,
                    "a table that is not sound either": beyond and check(case.links, case.points)[0] == 2,
                    "a length or a capacity": check(case.links, case.points)[0] == 1,
                    "the face out of range": case.numbers[0] in (0, LARGEST)})


def number_situations(case, _answer):
    """5 by the face or by a moved point."""
    b, face, vector = asked_for(case)
    if 1 <= face <= b.capacities[1]:
        return point_situations(b, face, vector) + later_reasons(case, "outside")
    return ["the face"] + holding({
        "the face 0": face == 0, "the face one above": face == b.capacities[1] + 1,
        "the face the largest": face == LARGEST,
        "16 low bits of a face in use": face > 65_535 and face % (1 << 16) in b.face_solid,
        "32 low bits of a face in use": face > 65_535 and face % (1 << 32) in b.face_solid,
        "the face, and no log byte": case.session[0] == 0})


def point_situations(b, face, vector):
    over = [(loop, place) for (loop, _), point in zip(corners_of_face(b, face), moved_points(b, face, vector))
            for place, c in enumerate(point) if abs(c) > COORDINATE_LIMIT]
    just = [c for point in moved_points(b, face, vector) for c in point if abs(c) == COORDINATE_LIMIT + 1]
    axes, loops = {place for _, place in over}, {loop for loop, _ in over}
    return ["a moved point"] + holding({
        **{f"{'xyz'[place]} alone": axes == {place} for place in range(3)}, "by one": len(just) == len(over),
        "one corner of several": len(over) == 1 < len(corners_of_face(b, face)),
        "in a ring alone": all(map(b.is_ring, loops)),
        "not in the first loop by number": min(b.loops_of_face(face)) not in loops,
        "the lowest i32": LOWEST in vector, "the highest i32": HIGHEST in vector})


def free_situations(case, _answer):
    return ["no log byte"] * (case.session[0] == 0)


def lone_situations(case, _answer):
    b, face, _ = asked_for(case)
    loops = b.loops_of_face(face)
    lone = [loop for loop in loops if loop in b.lone]
    found = holding({"a ring": any(map(b.is_ring, lone)), "the outer loop": not all(map(b.is_ring, lone)),
                     "other loops are not": len(lone) < len(loops),
                     "not the first loop by number": min(loops) not in lone})
    return found + later_reasons(case, "lone")


def few_situations(case, _answer):
    b, face, _ = asked_for(case)
    lacking, corners, free = lacking_kinds(b, face), len(corners_of_face(b, face)), free_counts(b)
    one = [kind for kind in lacking if free[kind] == TAKEN[kind] * corners - 1]
    return [f"one {lacking[0]} short"] * (one == lacking and len(one) == 1) + later_reasons(case, "few")


def later_reasons(case, reason):
    """The reasons for later refusals that hold too. A log is too short by any count where an inverse had no 2 bytes."""
    b, face, vector = asked_for(case)
    outside = any(abs(c) > COORDINATE_LIMIT for point in moved_points(b, face, vector) for c in point)
    corners = len(corners_of_face(b, face))
    later = {"lone": False, "outside": outside, "few": lacking_kinds(b, face) != [],
             "short": case.session[0] < 2 * 2 * corners}
    behind = list(later)[list(later).index(reason) + 1:]
    return [f"and {name}" for name in behind if later[name]]


# Sweeps that are refused by the log alone, or not at all

def room_situations(case, _answer):
    """An inverse has two bytes, or three: so a call that counts two for each or three for each is found out."""
    inverses = inverses_of(case)
    need, start = bytes_needed(inverses), case.session[0]
    return holding({"exactly the room": start == need, "a byte short": start == need - 1, "no byte": start == 0,
                    "inverses of two and three bytes": 2 * len(inverses) < need < 3 * len(inverses),
                    "room for two bytes each": start >= 2 * len(inverses) and need > 2 * len(inverses),
                    "no room for three bytes each": start < 3 * len(inverses)})


def inverses_of(case):
    _, face, vector = asked_for(case)
    return swept(case.links, case.points, face, vector).inverses


def lifted_situations(case, answer):
    b, face, vector = asked_for(case)
    corners, loops, free = corners_of_face(b, face), b.loops_of_face(face), free_counts(b)
    halves, met_by = {half for _, half in corners}, {(loop, b.start[half]) for loop, half in corners}
    points = moved_points(b, face, vector)
    found = holding({
        "a loop of one corner": any(len(b.cycles[loop]) == 1 for loop in loops),
        "a loop of two corners": any(len(b.cycles[loop]) == 2 for loop in loops),
        "a ring": len(loops) > 1, "several rings": len(loops) > 2,
        "a ring numbered below": min(loops) != b.face_outer[face],
        "a vertex met twice": len(met_by) < len(corners),
        "a vertex met by two loops": len({vertex for _, vertex in met_by}) < len(met_by),
        "an edge met twice": any(mate(half) in halves for half in halves),
        "a point on the limit": any(abs(c) == COORDINATE_LIMIT for point in points for c in point),
        "the vector 0": not any(vector), "several solids": len(b.solids) > 1,
        "something to redo": case.session[1] < len(case.redo), "a redo start beyond": case.session[1] > len(case.redo)})
    found += [f"no {kind} left" for kind, each in TAKEN.items() if free[kind] == each * len(corners)]
    return found + number_gaps(b, answer) + room_situations(case, answer)


def number_gaps(b, answer):
    """New numbers that are not in a row, and one below a number in use."""
    new = sorted(set(Boundary(Table(answer.links, answer.points)).loop_face) - set(b.loop_face))
    return holding({"new numbers with gaps": new[-1] - new[0] >= len(new),
                    "a new number below": new[0] < max(b.loop_face)})


SITUATIONS = {0: lifted_situations, 1: table_situations, 2: table_situations, 5: number_situations, 6: free_situations,
              9: room_situations, 10: few_situations, 14: lone_situations}

# What has to be met often, and what has to be met.
WANTED_OFTEN = ["5, the face", "5, a moved point", "0, a loop of one corner", "0, a ring", "0, a vertex met twice",
                "0, exactly the room", "9, a byte short", "undone and redone"]
WANTED_BY = {
    0: ["a loop of two corners", "several rings", "a ring numbered below", "a vertex met by two loops",
        "an edge met twice", "a point on the limit", "the vector 0", "several solids", "something to redo",
        "a redo start beyond",
        "new numbers with gaps", "a new number below", "inverses of two and three bytes",
        "no room for three bytes each"] + [f"no {kind} left" for kind in TAKEN],
    1: ["a start beyond the log", "a table that is not sound either", "a length or a capacity",
        "the face out of range"],
    2: ["the face out of range"] + [f"rule {rule}" for rule in range(1, 7)],
    5: ["the face 0", "the face one above", "the face the largest", "16 low bits of a face in use",
        "32 low bits of a face in use", "the face, and no log byte", "x alone", "y alone", "z alone", "by one",
        "one corner of several", "in a ring alone", "not in the first loop by number", "the lowest i32",
        "the highest i32", "and few", "and short"],
    6: ["no log byte"],
    9: ["inverses of two and three bytes", "room for two bytes each", "no byte"],
    10: [f"one {kind} short" for kind in TAKEN] + ["and short"],
    14: ["a ring", "the outer loop", "other loops are not", "not the first loop by number", "and outside", "and few",
         "and short"],
}
WANTED = [f"{refusal}, {name}" for refusal, names in WANTED_BY.items() for name in names]


def want_sweeps(tally, met):
    met.want_answers(tally, {"sweep": REFUSALS}, OFTEN)
    met.want_situations(tally, WANTED_OFTEN, OFTEN)
    met.want_situations(tally, WANTED)
    corners, accepted = met.situations[CORNERS], met.answers["sweep", 0]
    tally.holds(f"accepted sweeps have {CORNERS_AT_LEAST} corners on the average: {corners} in {accepted}",
                corners >= CORNERS_AT_LEAST * accepted > 0)


def want_small(tally, met):
    """Of the sweeps that are listed: some are done, and some have each refusal that they can get."""
    for refusal in (0, 5, 14):
        tally.holds(f"listed sweeps with {refusal}", met.answers["sweep", refusal] >= 10)


def add_sweep(met, case, answer):
    """Counts an answer, its situations, and the corners that were lifted."""
    met.add(case, answer)
    met.situations.update(sweep_situations(case, answer))
    met.situations[CORNERS] += answer.numbers[2] // 2
