"""The OBJ text on the model alone: the promise on random tables, each coordinate, parts, and how strict reading is."""

from collections import Counter
from decimal import Decimal

import wire
from boundary import Boundary
from generate import renumbered, table_of
from layout import COORDINATE_LIMIT, cleared_table
from met import Met
from takedown_tables import capacities_with
from wavefront import backwards, determinant, hundredths_of, millimetres, obj, read_text, six_volumes, text_of
from wavefront_cases import obj_case, random_body, small_cases, sound_table
from wavefront_met import WANTED, obj_situations
from wavefront_parts import parts
from wavefront_promise import keep_promise, read_or_why


# Coordinates

def coordinate_words(tally, _rng, _scale):
    """Each of the 100,001 coordinates: as decimal numbers are written, and back."""
    words = {c: millimetres(c) for c in range(-COORDINATE_LIMIT, COORDINATE_LIMIT + 1)}
    for c, word in words.items():
        tally.equal(f"{c} in millimetres", word, f"{Decimal(c).scaleb(-2):.2f}")
        tally.equal(f"{word} in hundredths", hundredths_of(word.encode()), c)
    tally.equal("a word for each", len(set(words.values())), 100_001)


# Random tables

def keep(tally, met, case):
    """The promise of a call that is not refused; of the others that they change nothing, and what 13 tells."""
    answer = wire.answer_case(case)
    refusal, rule, length = answer.numbers
    met.situations.update(obj_situations(case, answer))
    tally.equal(f"the table is only read: {case}", answer[2:5], case[2:5])
    if refusal == 0:
        keep_promise(tally, case, answer)
        return
    tally.equal(f"refused writes nothing: {case}", answer.script, case.script)
    tally.equal(f"a rule with 2, a length with 13: {case}", (rule > 0, length > 0), (refusal == 2, refusal == 13))
    if refusal == 13:
        tally.holds(f"13 only where it does not fit: {case}", length > len(case.script))
        again = wire.answer_case(case._replace(script=bytes(length)))
        tally.equal(f"as much room as 13 tells: {case}", again.numbers, (0, 0, length))


def random_texts(tally, rng, scale):
    met = Met()
    for _ in range(int(1_500 * scale)):
        keep(tally, met, obj_case(rng))
    # Fewer cases than by default cannot be asked to meet everything.
    met.want_situations(tally, WANTED if scale >= 1 else ())


def small_texts(tally, _rng, _scale):
    """Every table of two edges at most, and what can be written of three."""
    met = Met()
    for case in small_cases():
        keep(tally, met, case)


# Several solids

def alone(b, solid):
    """The table with this solid and nothing else, under the same numbers."""
    other = Boundary(cleared_table(b.capacities))
    other.solids = {solid}
    other.face_solid = {face: of for face, of in b.face_solid.items() if of == solid}
    other.face_outer = {face: b.face_outer[face] for face in other.face_solid}
    other.loop_face = {loop: face for loop, face in b.loop_face.items() if face in other.face_solid}
    other.cycles = {loop: b.cycles[loop] for loop in other.loop_face}
    other.lone = {loop: vertex for loop, vertex in b.lone.items() if loop in other.loop_face}
    other.start = {half: b.start[half] for cycle in other.cycles.values() for half in cycle}
    other.points = {v: b.points[v] for v in {*other.start.values(), *other.lone.values()}}
    return table_of(other)


def answer_and_text(table, solid):
    out = bytearray(200_000)
    answer = obj(table.links, table.points, solid, out)
    return answer, bytes(out[:answer.length])


def solids_by_themselves(tally, rng, scale):
    """A solid's answer does not hang on what else is in the table; its vertices are those that it has alone."""
    met = Counter()
    for _ in range(int(250 * scale)):
        table = sound_table(rng)
        b = Boundary(table)
        for solid in sorted(b.solids):
            name, single = f"solid {solid} of {table.links}", alone(b, solid)
            answer, text = answer_and_text(table, solid)
            tally.equal(f"by itself: {name}", answer_and_text(single, solid), (answer, text))
            if answer.refusal == 0:
                points = [table.point(vertex) for vertex in single.used("vertex")]
                tally.equal(f"all its vertices: {name}", read_text(text).points, points)
            met[answer.refusal, len(b.solids) > 1] += 1
    for wanted in [(refusal, many) for refusal in (0, 12) for many in (False, True)] if scale >= 1 else ():
        tally.holds(f"met: {wanted}", met[wanted] > 0)


# Parts

def volumes_by_loops(table, solid):
    """By "minus the sum, over its loops, of the determinants of the loop's first start point with the two ends of each
    half-edge" (job 10), which takes loops as they run in the table.
    """
    b, total = Boundary(table), 0
    for loop in [loop for loop, face in b.loop_face.items() if b.face_solid[face] == solid]:
        corners = [b.points[b.start[half]] for half in b.cycles[loop]]
        total -= sum(determinant(corners[0], *ends) for ends in zip(corners, corners[1:] + corners[:1]))
    return total


def closed(mesh):
    """Whether each side of a face lies on one side of another face in the other direction."""
    sides = [pair for face in mesh.faces for pair in zip(face, face[1:] + face[:1])]
    return len(set(sides)) == len(sides) and {(two, one) for one, two in sides} == set(sides)


def parts_are_outward(tally, rng, _scale):
    """Written, read and measured: the volume meant, and positive, under the parts' own numbers and under strangers'."""
    for part in parts():
        capacities = capacities_with(part.body, (1, 2, 3, 4, 5))
        tables = [renumbered(rng, part.body, capacities) for _ in range(4)]
        part.body.capacities = capacities
        for table in [table_of(part.body)] + tables:
            found = [read_text(answer_and_text(table, solid)[1]) for solid in table.used("solid")]
            tally.holds(f"closed: {part.name}", all(map(closed, found)))
            tally.holds(f"outward: {part.name}", min(map(six_volumes, found)) > 0)
            tally.holds(f"the volume meant: {part.name}", part.volumes in map(six_volumes, found))
            tally.equal(f"by loops: {part.name}", [volumes_by_loops(table, solid) for solid in table.used("solid")],
                        list(map(six_volumes, found)))


def any_volumes(tally, rng, scale):
    """Also where corners lie anywhere and faces are no planes, the text's triangles are those of the loops."""
    for _ in range(int(200 * scale)):
        b = random_body(rng)
        table = renumbered(rng, b, capacities_with(b, (0,) * 5))
        for solid in table.used("solid"):
            mesh = read_text(answer_and_text(table, solid)[1])
            tally.equal(f"by loops: {table.links}", six_volumes(mesh), volumes_by_loops(table, solid))


# The reader

def spoiled(rng, text):
    """One byte changed, lost or put in, most often by another of the text's own."""
    place = rng.randrange(len(text))
    byte = bytes([rng.choice(text) if rng.random() < 0.8 else rng.choice(b" \t\r\n-+./0123456789vfo#\x00\xFF")])
    return rng.choice((text[:place] + byte + text[place + 1:], text[:place] + byte + text[place:],
                       text[:place] + text[place + 1:]))


def reader_is_strict(tally, rng, scale):
    """What is read after a damage is written again as it is, to the byte: so no two texts are read as the same."""
    texts, met = [text_of(read_text(text)) for text in some_texts(rng)], Counter()
    for _ in range(int(4_000 * scale)):
        text = spoiled(rng, rng.choice(texts))
        mesh = read_or_why(text)
        met["refused" if isinstance(mesh, str) else "read"] += 1
        if not isinstance(mesh, str):
            tally.equal(f"written again: {text}", text_of(mesh), text)
    tally.holds("some damages are read as another text", met["read"] > 0)
    tally.holds("most are refused", met["refused"] > met["read"])
    for face in ([1, 2, 3], [5, 4, 3, 2, 1, 7]):
        tally.equal("backwards and back", backwards(backwards(face)), face)


def some_texts(rng):
    found = [answer_and_text(sound_table(rng), 1)[1] for _ in range(60)]
    return [text for text in found if text]


WAVEFRONT_PROPERTIES = (coordinate_words, random_texts, small_texts, solids_by_themselves, parts_are_outward,
                        any_volumes, reader_is_strict)
