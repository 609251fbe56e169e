"""Compares a compiled kernel with the model, by way of the framing in wire.py.

    python3 tests/model/compare.py make SEED COUNT > CASES
    DRIVER < CASES > ANSWERS
    python3 tests/model/compare.py check CASES ANSWERS

'check' prints 'N passed, M failed' as its last line; the exit status is 0 only when M is 0.
compare_library.py does all of it in one go, for cases of each kind.
"""

import sys

import wire
from cases import random_case
from generate import seeded
from tally import Tally


def make(seed, count):
    """The cases of a seed, one frame after the other."""
    rng = seeded(int(seed))
    for _ in range(int(count)):
        sys.stdout.buffer.write(wire.encode_case(random_case(rng)))


def check(cases_path, answers_path):
    with open(cases_path, "rb") as file:
        cases = wire.decode_stream(file.read())
    with open(answers_path, "rb") as file:
        answers = wire.decode_stream(file.read())
    tally = Tally()
    tally.equal("one answer for each case", len(answers), len(cases))
    for place, (case, answer) in enumerate(zip(cases, answers)):
        name = f"case {place}, {wire.KIND_NAMES[case.kind]}: {case}"
        tally.equal(name, wire.mask_free(answer), wire.answer_case(case))
    return tally


def main(arguments):
    if len(arguments) == 3 and arguments[0] == "make":
        make(*arguments[1:])
        return 0
    if len(arguments) == 3 and arguments[0] == "check":
        tally = check(*arguments[1:])
    else:
        print(__doc__)
        return 2
    print(f"{tally.passed} passed, {tally.failed} failed")
    return 0 if tally.failed == 0 and tally.passed > 0 else 1


if __name__ == "__main__":
    sys.exit(main(sys.argv[1:]))
