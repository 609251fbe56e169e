"""A block with a pocket and a through hole, as a script: writes examples/pocket.script.

    python3 examples/pocket.py           writes the script
    python3 examples/pocket.py --padded  writes examples/pocket-padded.script: the same, each number in three groups
    python3 examples/pocket.py --text    prints its operators in words, with what each is for

The solid, in millimetres (the script counts in hundredths): a block of 80 by 60 by 30, in its top a pocket of 50 by 30, 12 deep,
and in the pocket's floor a square hole of 10 by 10 down through the bottom. It is made in these steps:

    mvsf, mev, mef      a rectangle of two faces, one seen from below and one from above
    mev, mef            the upper face swept up: four walls, and the face is the block's top
    mev, mef, kemr      an outline on the top, whose bridge to the rim is taken away again: the face around it keeps a ring
    mev, mef            the face inside the outline swept down: the pocket's walls and floor; then the same for the hole
    kfmrh               the hole's end joined with the bottom: its loop is a ring of the bottom now, and the solid has a hole
"""

import re
import sys

from parts import Part, at, save, script_of, sheet, sweep, tell

# Corners in the order that is clockwise seen from above.
BLOCK = ((-4_000, -3_000), (-4_000, 3_000), (4_000, 3_000), (4_000, -3_000))
POCKET = ((-2_500, -1_500), (-2_500, 1_500), (2_500, 1_500), (2_500, -1_500))
HOLE = ((-500, -500), (-500, 500), (500, 500), (500, -500))
BOTTOM, FLOOR, TOP = 0, 1_800, 3_000


def nearest(part, loop, point):
    """The loop's vertex nearest to a point, from where a bridge crosses nothing."""
    vertices = [part.table.start[half] for half in part.table.cycles[loop]]
    return min(vertices, key=lambda v: sum((a - b) ** 2 for a, b in zip(part.table.points[v], point)))


def outline(part, loop, points, height):
    """A ring on the face of a loop and a face inside it, whose loop is answered."""
    corners = at(points, height)
    rim = nearest(part, loop, corners[0])
    bridge, first = part.spur("a bridge from the rim to the outline", loop, rim, corners[0])
    last = part.path("along the outline", loop, first, corners[1:])
    inner = part.cut("the outline closed: a face inside it", loop, part.table.after(bridge)[0], part.half_at(loop, last))
    part.do("the bridge away: the outline is a ring of the face around it", "kemr", bridge, part.free("loop"))
    return inner


def pocket():
    """The whole part."""
    part = Part()
    loop = sheet(part, BLOCK, BOTTOM)
    sweep(part, loop, TOP)
    loop = outline(part, loop, POCKET, TOP)
    sweep(part, loop, FLOOR)
    loop = outline(part, loop, HOLE, FLOOR)
    sweep(part, loop, BOTTOM)
    bottom, end = part.table.loop_face[1], part.table.loop_face[loop]
    part.do("through: the hole's end is a ring of the bottom", "kfmrh", bottom, end)
    return part


def three_groups(number):
    """A number's bytes with groups of 0 behind them; all but the last have the high bit set."""
    first, second, last = number.ljust(3, b"\x00")
    return bytes((first | 128, second | 128, last))


def padded(script):
    """The same script with three groups for each number, as an exporter writes that does not ask how many it needs."""
    return b"".join(map(three_groups, re.findall(rb"[\x80-\xFF]*[\x00-\x7F]", script)))


def main(arguments):
    part = pocket()
    if arguments == ["--text"]:
        tell(part)
    elif arguments == ["--padded"]:
        save("pocket-padded.script", padded(script_of(part)))
    else:
        save("pocket.script", script_of(part))


if __name__ == "__main__":
    main(sys.argv[1:])
