"""What the examples show of the sweep: the wizard in C, held to the same parts made operator by operator."""

import os
import re

import library
import pocket
from files import digest_of, output_of, read
from generate import table_of
from geometry import body
from parts import Part, sheet, sweep
from rules import count

SQUARE = ((-1_500, -1_500), (-1_500, 1_500), (1_500, 1_500), (1_500, -1_500))
FLOOR = pocket.TOP - 1_200
# In cubic millimetres: 80 x 60 x 30 less the pocket's 30 x 30 x 12.
VOLUME = 80 * 60 * 30 - 30 * 30 * 12


def made():
    """The wizard's parts, as the model makes them without the sweep: a line for each, and the last one's table."""
    part, lines = Part(), []

    def tell(name):
        table = table_of(part.table)
        counts = " ".join(f"{kind} {n}" for kind, n in zip("sflevrh", count(table.links, table.points)[2:]))
        lines.append((name, counts, digest_of(table)))
    top = sheet(part, pocket.BLOCK, pocket.BOTTOM)
    tell("rectangle")
    sweep(part, top, pocket.TOP)
    tell("block")
    inner = pocket.outline(part, top, SQUARE, pocket.TOP)
    tell("square")
    sweep(part, inner, FLOOR)
    tell("pocket")
    return lines, part.table


def wizard_example(tally, folder, kernel, sweep_archive):
    wizard = library.compile_c(["examples/wizard.c"], os.path.join(folder, "wizard"), kernel, [sweep_archive])
    wanted = read("examples/wizard.expected")
    tally.equal("examples/wizard.c", output_of([wizard]), (0, wanted))
    (rectangle, block, square, swept), table = made()
    # The refused sweep leaves the square as it was, and so does the undo of the other one.
    lines = [rectangle, block, square, square, swept, ("undone", *square[1:])]
    told = re.findall(r"^(\w+) +(s \d.*), digest ([0-9a-f]{16})$", wanted, re.MULTILINE)
    tally.equal("the wizard's parts, by the model", told, lines)
    body(tally, "the wizard's pocket", table, VOLUME)
