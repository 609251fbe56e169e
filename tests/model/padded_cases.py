"""Wire cases about numbers: runs, undos, redos of padded scripts and logs, each form of small numbers, short scripts."""

import itertools

import wire
from cases import any_bytes, exchanged, read_case, run_case, undo_case
from generate import damaged_bytes
from padding import all_padded, padded, padded_log
from script import PATTERNS, number_bytes, number_forms, operands_of

# Numbers below this have more than one form.
SMALLEST = 1 << 14
# Bytes for scripts of three: codes, the ends of ranges, and groups with their high bit.
NET = (0, 1, 2, 4, 6, 9, 12, 13, 14, 63, 64, 65, 126, 127, 128, 129, 130, 132, 141, 142, 192, 193, 254, 255)
# Groups, single ones and ends of numbers: any two of these follow each other sooner than any bytes do.
EDGES = (0, 1, 4, 13, 14, 127, 128, 129, 132, 141, 142, 255)


# Runs, undos and redos

def padded_run_case(rng):
    """A run, padded more often than other cases of runs are, and damaged behind the padding too."""
    case, dice = run_case(rng), rng.random()
    if dice < 0.5:
        case = case._replace(script=padded(rng, case.script))
    if dice > 0.3 and case.script:
        case = case._replace(script=any_damage(rng, case.script))
    return case


def padded_undo_case(rng):
    """The same of a log's live part."""
    case, dice = undo_case(rng), rng.random()
    start = case.session[0]
    if dice < 0.5:
        case = case._replace(log=padded_log(rng, case.log, start))
    if dice > 0.3 and case.log[start:]:
        case = case._replace(log=case.log[:start] + any_damage(rng, case.log[start:]))
    return case


def padded_redo_case(rng):
    """And of a redo log's."""
    return exchanged(padded_undo_case(rng))


def any_damage(rng, data):
    """No damage, one, a cut, which a padded number is likelier to be met by, or other bytes altogether."""
    dice = rng.random()
    if dice < 0.4:
        return data
    if dice < 0.75:
        return damaged_bytes(rng, data)
    if dice < 0.9:
        return data[:rng.randrange(len(data))]
    return bytes(rng.choice(EDGES) for _ in range(rng.randint(1, 12)))


# Reading one operator, without a table

def reading(script, place=0):
    return wire.case(wire.READ, (place,), script=script)


def padded_read_case(rng):
    """A place in a padded script, or an operator of any numbers that fit in three groups, each in any of its forms."""
    if rng.random() < 0.3:
        case = read_case(rng)
        return reading(padded(rng, case.script), case.numbers[0])
    code = rng.randint(1, 13)
    script = padded(rng, number_bytes(code) + b"".join(number_bytes(any_operand(rng, o)) for o in operands_of(code)))
    front = any_bytes(rng, rng.choice((0, 0, 0, 1, 5)))
    return reading(front + (script if rng.random() < 0.7 else damaged_bytes(rng, script)), len(front))


def any_operand(rng, operand):
    """A number as it travels, near an end of its range or anywhere in it; rarely beyond."""
    most = {"coordinate": 100_000, "half": 8_192}.get(operand.kind, 4_096)
    least, most = (0, operand.kind[1]) if operand.role == "" and operand.kind != "coordinate" else (1, most)
    if rng.random() < 0.03:
        return rng.choice((0, most + 1, 100_001, (1 << 21) - 1, rng.randrange(1 << 21)))
    return rng.choice((least, most, rng.randint(least, most), min(most, rng.choice((127, 128, 129)))))


def form_scripts():
    """Each form of each number below 2^14, in three places.

    As a coordinate, where every such number is in range and is answered, with others behind; as kev's half-edge, where
    nothing is behind it; as the code, where it may not pass for a number with the same low bits.
    """
    for form in itertools.chain.from_iterable(number_forms(value) for value in range(SMALLEST)):
        yield b"\x01\x01\x01\x01\x01" + form + b"\x02\x03"
        yield b"\x04" + form
        yield form + b"\x01" * 8


def short_scripts():
    """Every script of two bytes at most, and a net of three."""
    for length, letters in ((0, ()), (1, range(256)), (2, range(256)), (3, NET)):
        yield from (bytes(script) for script in itertools.product(letters, repeat=length))


def cut_scripts():
    """An operator of each code with each number in three groups, up to each of its bytes."""
    for code in PATTERNS:
        script = all_padded(bytes([code] + [1] * len(operands_of(code))))
        yield from (script[:end] for end in range(len(script) + 1))


def listed_cases():
    return [reading(script) for script in itertools.chain(cut_scripts(), short_scripts(), form_scripts())]
