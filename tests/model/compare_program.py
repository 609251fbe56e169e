"""Compares the program with the model: one process for each script, by standard input.

    python3 tests/model/compare_program.py [COUNT [SEED]] [--program PATH]

COUNT random scripts (400 by default) besides the fixed ones. What it prints must be equal to the byte, with nothing on
standard error and exit status 0; a crash or a hang is a failure. Prints what was met, and 'N passed, M failed' as its
last line.
"""

import sys

from cases import program_input
from kernel import PROGRAM_INPUT, program
from padding import all_padded
from programs import Program, compare_all
from script import operator, script_bytes

EXAMPLE_B = bytes.fromhex("0101010101000000")
PADDED_B = all_padded(EXAMPLE_B)
# A solid made and killed again: the table accepts it any number of times.
PAIR = script_bytes([operator("mvsf", 1, 1, 1, 1, 0, 50_000, -1), operator("kvsf", 1)])


def filled(length):
    """Exactly so many bytes of accepted operators, but for the last one, which may be cut off."""
    return (PAIR * (length // len(PAIR) + 1))[:length]


FIXED = [b"", EXAMPLE_B, EXAMPLE_B + EXAMPLE_B, EXAMPLE_B[:-1], b"\x0E", b"\x81\x00", b"\0", b"\xFF" * 7] \
    + [PADDED_B, PADDED_B + PADDED_B, PADDED_B[:-1], b"\x8E\x00", b"\x80\x80\x00"] \
    + [filled(n) for n in (PROGRAM_INPUT - 1, PROGRAM_INPUT, PROGRAM_INPUT + 1, 2 * PROGRAM_INPUT, 100_000)] \
    + [bytes(PROGRAM_INPUT), bytes(PROGRAM_INPUT + 1)]
FULL = filled(PROGRAM_INPUT)
# Whole input up to the limit, and just above it; in pieces that are no operators' boundaries.
PIECES = [[EXAMPLE_B[:3], EXAMPLE_B[3:]], [b"", EXAMPLE_B[:1], EXAMPLE_B[1:]], [FULL[:1000], FULL[1000:]],
          [FULL, b"\x01"], [FULL[:-1], FULL[-1:]]]


def kind(wanted):
    return "input too long" if wanted.startswith("input") else " ".join(wanted.split()[:2])


ZOGHVARI = Program("zoghvari", program, FIXED, PIECES, program_input, 400, kind, ())

if __name__ == "__main__":
    sys.exit(compare_all(ZOGHVARI, sys.argv[1:]))
