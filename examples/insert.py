"""An L-shaped insert as a script: writes examples/insert.script.

    python3 examples/insert.py         writes the script
    python3 examples/insert.py --text  prints its operators in words, with what each is for

The solid, in millimetres (the script counts in hundredths): 60 by 40 with a corner of 30 by 20 cut away, 25 high. An
outline is lifted, and no face has a ring, so that the part can be looked at as it is:

    target/bin/zoghvari_obj < examples/insert.script > insert.obj
    python3 examples/draw_obj.py insert.obj insert.svg
"""

import sys

from parts import Part, save, script_of, sheet, sweep, tell

# Corners in the order that is clockwise seen from above; the corner that is cut away would be at (6_000, 4_000).
OUTLINE = ((0, 0), (0, 4_000), (3_000, 4_000), (3_000, 2_000), (6_000, 2_000), (6_000, 0))
BOTTOM, TOP = 0, 2_500


def insert():
    """The whole part."""
    part = Part()
    sweep(part, sheet(part, OUTLINE, BOTTOM), TOP)
    return part


def main(arguments):
    part = insert()
    if arguments == ["--text"]:
        tell(part)
    else:
        save("insert.script", script_of(part))


if __name__ == "__main__":
    main(sys.argv[1:])
