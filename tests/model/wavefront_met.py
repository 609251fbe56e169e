"""What comparisons of the OBJ text have met."""

from boundary import Boundary
from layout import Table, mate
from wavefront import can_be_written, mesh_of

LARGEST = (1 << 64) - 1


def holding(conditions):
    """The names of the conditions that hold."""
    return [name for name, holds in conditions.items() if holds]


def obj_situations(case, answer):
    """What is special about a case, by the answer that it has to get; each with the refusal in front."""
    refusal = answer.numbers[0]
    return [f"{refusal}, {name}" for name in SITUATIONS[refusal](case, answer) + room_situations(case, answer)]


def body_of_case(case):
    return Boundary(Table(case.links, case.points)), case.numbers[0]


def room_situations(case, answer):
    refusal, _, length = answer.numbers
    left = len(case.script) - length
    fits = refusal in (0, 13)
    return holding({"no room": not case.script, "just enough room": fits and left == 0,
                    "a byte short": fits and left == -1, "a byte left": fits and left == 1})


def table_situations(case, _answer):
    """1 and 2 come before all others."""
    return holding({"number out of range": case.numbers[0] in (0, LARGEST)})


def number_situations(case, _answer):
    b, solid = body_of_case(case)
    return holding({"0": solid == 0, "one above the capacity": solid == b.capacities[0] + 1,
                    "the largest": solid == LARGEST,
                    "16 low bits of one in use": solid % (1 << 16) in b.solids,
                    "32 low bits of one in use": solid % (1 << 32) in b.solids})


def free_situations(case, _answer):
    return ["another in use" if body_of_case(case)[0].solids else "none in use"]


def spoiled_situations(case, _answer):
    """Each reason of 12 where it is the only one; a lone loop outside has a ring inside, or is all that there is."""
    b, solid = body_of_case(case)
    sides = {loop: len(b.cycles[loop]) for loop, face in b.loop_face.items() if b.face_solid[face] == solid}
    found = holding({"a ring": any(b.is_ring(loop) and n >= 3 for loop, n in sides.items()),
                     "a lone ring": any(b.is_ring(loop) and n == 0 for loop, n in sides.items()),
                     "a lone loop outside": any(not b.is_ring(loop) and n == 0 for loop, n in sides.items()),
                     "one side": 1 in sides.values(), "two sides": 2 in sides.values()})
    alone = len(found) == 1 or found == ["a ring", "a lone loop outside"]
    return [f"for {' and '.join(found)} alone"] * alone + other_solids(b, solid)


def other_solids(b, solid):
    return sorted({"another can be written" if can_be_written(b, other) else "another cannot be written"
                   for other in b.solids - {solid}})


def text_situations(case, _answer):
    b, solid = body_of_case(case)
    mesh, outer = mesh_of(b, solid), [b.face_outer[face] for face, of in sorted(b.face_solid.items()) if of == solid]
    cycles = [b.cycles[loop] for loop in outer]
    mates = [set(map(mate, cycle)) for cycle in cycles]
    found = holding({
        "places are not the numbers": any(b.start[half] > len(mesh.points) for cycle in cycles for half in cycle),
        "faces in another order than their loops": outer != sorted(outer),
        "a vertex twice in a face": any(len(set(face)) < len(face) for face in mesh.faces),
        "an edge on both sides in a face": not all(map(set.isdisjoint, mates, cycles)),
        "one vertex": len(mesh.points) == 1, "one face": len(mesh.faces) == 1})
    found += sorted({f"a face of {len(face)} sides" for face in mesh.faces if len(face) < 6})
    digits = {len(str(place)) for face in mesh.faces for place in face}
    return found + [f"places of {n} digits" for n in sorted(digits)] + other_solids(b, solid)


SITUATIONS = {1: table_situations, 2: table_situations, 5: number_situations, 6: free_situations,
              12: spoiled_situations, 13: text_situations, 0: text_situations}

OTHERS = ["another can be written", "another cannot be written"]
WANTED_BY = {
    1: ["number out of range", "no room"], 2: ["number out of range", "no room"],
    5: ["0", "one above the capacity", "the largest", "16 low bits of one in use", "32 low bits of one in use"],
    6: ["another in use", "none in use", "no room"],
    12: [f"for {reason} alone" for reason in ("a ring", "a lone ring", "a lone loop outside", "one side", "two sides",
                                              "a ring and a lone loop outside")] + ["no room"] + OTHERS,
    13: ["a byte short", "no room"] + OTHERS,
    0: ["just enough room", "a byte left", "places are not the numbers", "faces in another order than their loops",
        "a vertex twice in a face", "an edge on both sides in a face", "one vertex", "one face", "places of 1 digits",
        "places of 2 digits"] + [f"a face of {sides} sides" for sides in (3, 4, 5)] + OTHERS,
}
WANTED = [f"{refusal}, {name}" for refusal, names in WANTED_BY.items() for name in names]
