"""Compares the program that prints a part as OBJ text with the model: one process for each script, by standard input.

    python3 tests/model/compare_obj.py [COUNT [SEED]] [--program PATH]

COUNT random scripts (40 by default) besides the fixed ones: parts by scripts that build them, solids that cannot be
written, refused scripts, input up to the limit and above. What it prints must be equal to the byte, with nothing on
standard error and exit status 0; a crash or a hang is a failure. Prints what was met, and 'N passed, M failed' as its
last line.
"""

import os
import sys

from boundary import Boundary
from compare_program import EXAMPLE_B, PAIR
from examples import C, D
from generate import damaged_bytes, random_operator, random_operators, renumbered, table_of
from layout import COORDINATE_LIMIT, cleared_table
from library import ROOT
from padding import all_padded, half_padded
from programs import Program, compare_all
from script import number_forms, numbers_of, operator_bytes, script_bytes
from takedown_tables import body_of
from wavefront import PROGRAM_CAPACITY, PROGRAM_INPUT, obj_program
from wavefront_cases import several
from wavefront_examples import FIRST, KILLED, PRINTED
from wavefront_parts import beside, circle, flat, parts, prism, script_of

CAPACITIES = (PROGRAM_CAPACITY,) * 5


# Fixed input

def script_for(b):
    """A script that builds this body under its own numbers; for some the take-down calls for one more of a kind."""
    b.capacities = (PROGRAM_CAPACITY + 1,) * 5
    return script_of(table_of(b))


def stretched(script, length):
    """A script in shortest form behind solids made and killed again, padded so far that it has just this length."""
    pairs, left = divmod(length - len(script), len(PAIR))
    out = b""
    for value, form in numbers_of(PAIR * pairs + script)[0]:
        longer = [other for other in number_forms(value) if len(other) - len(form) <= left][-1]
        left -= len(longer) - len(form)
        out += longer
    return out


def example(name):
    with open(os.path.join(ROOT, "examples", name), "rb") as file:
        return file.read()


def least_solids(block):
    """The block beside a solid that cannot be written: the least, not the least, and the least once that is killed."""
    lone = body_of({1: []}, {1: 1}, {1: 1})
    in_front = script_for(beside(lone, block))
    return [script_for(beside(block, lone)), in_front, in_front + KILLED]


def largest():
    """As many vertices, and as many edges in faces of a prism, as the program's table holds."""
    many_vertices = flat([(-COORDINATE_LIMIT,) * 3] * PROGRAM_CAPACITY)
    many_faces = prism(circle(PROGRAM_CAPACITY // 3, 30_000), -1, 0)
    return [script_for(many_vertices), script_for(many_faces)]


def limits(block):
    """A block in as many bytes as there may be, in one less, and in one more; and bytes that are refused at once."""
    lengths = (PROGRAM_INPUT - 1, PROGRAM_INPUT, PROGRAM_INPUT + 1)
    return [stretched(block, length) for length in lengths] + [bytes(length) for length in (*lengths, 200_000)]


def fixed():
    bodies = [part.body for part in parts()]
    scripts = [script_for(body) for body in bodies]
    block = scripts[0]
    return [data for _, data, _ in PRINTED] \
        + [EXAMPLE_B + C, EXAMPLE_B + C + D, all_padded(FIRST), all_padded(block)] \
        + [example("pocket.script"), example("pocket-padded.script"), block + b"\0", block[:-1], block + block] \
        + scripts + least_solids(bodies[0]) + largest() + limits(block)


def pieces():
    """Whole input up to the limit, and just above it; in pieces that are no operators' boundaries."""
    full = stretched(FIRST, PROGRAM_INPUT)
    return [[FIRST[:3], FIRST[3:]], [b"", FIRST[:1], FIRST[1:]], [full[:1_000], full[1_000:]],
            [full[:40_000], full[40_000:-1], full[-1:]], [full, b"\x01"]]


# Random input

def random_build(rng):
    """A script, and the body that it builds: any operators, or the solids of a table, most of which can be written."""
    if rng.random() < 0.2:
        b = Boundary(cleared_table(CAPACITIES))
        return script_bytes(random_operators(rng, b, rng.choice((1, 5, 20)))), b
    table = renumbered(rng, several(rng), CAPACITIES)
    b = Boundary(table)
    return script_of(table), b


def obj_input(rng):
    script, b = random_build(rng)
    dice = rng.random()
    if dice < 0.6:
        return half_padded(rng, script)
    if dice < 0.8:
        return half_padded(rng, script + operator_bytes(random_operator(rng, b)))
    return damaged_bytes(rng, script or b"\0")


# The comparison

def printed_by_model(data):
    return obj_program(data).decode("ascii")


def kind(wanted):
    return wanted.strip() if wanted.startswith("#") else "a text"


WANTED = ["a text", "# input too long"] + [f"# refusal {number}" for number in (3, 4, 5, 6, 7, 8, 12)]

if __name__ == "__main__":
    PROGRAM = Program("zoghvari_obj", printed_by_model, fixed(), pieces(), obj_input, 40, kind, WANTED)
    sys.exit(compare_all(PROGRAM, sys.argv[1:]))
