"""The model in the place of a compiled driver: cases on standard input, answers out.

It shows that compare.py and the framing work, without a compiled driver.
"""

import sys

import wire


def main():
    for case in wire.decode_stream(sys.stdin.buffer.read()):
        sys.stdout.buffer.write(wire.encode_case(wire.answer_case(case)))


if __name__ == "__main__":
    main()
