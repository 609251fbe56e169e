"""What the examples' parts are made with: a table that grows operator by operator, an outline, a sweep.

Loops run clockwise seen from outside, rings the other way. Numbers are the least free ones. The model of the tests says
which half-edge lies where, and writes the bytes.
"""

import os
import sys

HERE = os.path.dirname(os.path.abspath(__file__))
sys.path.insert(0, os.path.join(HERE, "..", "tests", "model"))
from boundary import Boundary
from generate import pools_of
from layout import cleared_table
from operators import carry_out
from script import describe, operator, script_bytes

CAPACITIES = (64,) * 5


class Part:
    """The table so far, and the operators that made it with what each is for."""

    def __init__(self):
        self.table, self.steps = Boundary(cleared_table(CAPACITIES)), []

    def do(self, why, name, *args):
        op = operator(name, *args)
        refusal, _ = carry_out(self.table, op)
        assert refusal == 0, (refusal, describe(op))
        self.steps.append((op, why))

    def free(self, kind):
        return min(pools_of(self.table)["new", kind])

    def half_at(self, loop, vertex):
        """The half-edge of a loop that starts at a vertex; 0 where the loop is lone."""
        return next((half for half in self.table.cycles[loop] if self.table.start[half] == vertex), 0)

    def spur(self, why, loop, vertex, point):
        """An edge from a vertex of the loop to a new one; answers the half-edge that leads there and the new vertex."""
        edge, new = self.free("edge"), self.free("vertex")
        self.do(why, "mev", loop, self.half_at(loop, vertex), edge, new, 0, *point)
        return 2 * edge - 1, new

    def path(self, why, loop, vertex, points):
        """Edges along these points, one behind the other; answers the last vertex."""
        for point in points:
            _, vertex = self.spur(why, loop, vertex, point)
        return vertex

    def cut(self, why, loop, first, second):
        """A new face with the loop's run from first up to before second, and an edge back. Answers its loop."""
        edge, face, new = self.free("edge"), self.free("face"), self.free("loop")
        self.do(why, "mef", loop, first, second, edge, face, new, 0)
        return new


def at(points, height):
    return [(x, y, height) for x, y in points]


def sheet(part, points, height):
    """An outline, clockwise seen from above, as a solid of two faces. Loop 1 is seen from below; answers the loop seen
    from above."""
    corners = at(points, height)
    part.do("a solid: the first corner of the bottom", "mvsf", 1, 1, 1, 1, *corners[0])
    last = part.path("along the bottom's outline", 1, 1, corners[1:])
    return part.cut("the outline closed: a face above", 1, part.half_at(1, 1), part.half_at(1, last))


def sweep(part, loop, height):
    """Moves the face of a loop to a height: an edge from each corner, then a wall between each two of them."""
    corners = [part.table.start[half] for half in part.table.cycles[loop]]
    moved = [part.spur("an edge from a corner", loop, vertex, (*part.table.points[vertex][:2], height))[1]
             for vertex in corners]
    for here, there in zip(moved, moved[1:] + moved[:1]):
        part.cut("a wall", loop, part.half_at(loop, here), part.half_at(loop, there))


def script_of(part):
    return script_bytes([op for op, _ in part.steps])


def save(name, script):
    """Writes a script beside this file."""
    with open(os.path.join(HERE, name), "wb") as file:
        file.write(script)


def tell(part):
    """Prints a part's operators in words, with what each is for."""
    for op, why in part.steps:
        print(f"{describe(op):40} # {why}")
