"""Scripts of document 01: numbers, coordinates, one operator read or written.

An operator's record is code, count and eight signed numbers. PATTERNS is the one
place that knows which operands a code has.
"""

from collections import namedtuple

from layout import CAPACITY_LIMIT, COORDINATE_LIMIT

Operator = namedtuple("Operator", "code count args")
NO_OPERATOR = Operator(0, 0, (0,) * 8)

# kind: what the number counts; role: "old" must be used, "new" must be free, "" neither;
# zero: whether 0 is allowed.
Operand = namedtuple("Operand", "name kind role zero")


def old(name, kind, zero=False):
    return Operand(name, kind, "old", zero)


def new(name, kind, zero=False):
    return Operand(name, kind, "new", zero)


def way(limit):
    return Operand("w", ("way", limit), "", True)


POINT = tuple(Operand(name, "coordinate", "", True) for name in "xyz")

PATTERNS = {
    1: ("mvsf", (new("s", "solid"), new("f", "face"), new("l", "loop"), new("v", "vertex")) + POINT),
    2: ("kvsf", (old("s", "solid"),)),
    3: ("mev", (old("l", "loop"), old("h", "half", True), new("e", "edge"), new("v", "vertex"), way(1)) + POINT),
    4: ("kev", (old("k", "half"),)),
    5: ("mef", (old("l", "loop"), old("h1", "half", True), old("h2", "half", True),
                new("e", "edge"), new("f", "face"), new("l2", "loop"), way(3))),
    6: ("kef", (old("k", "half"),)),
    7: ("kemr", (old("k", "half"), new("l2", "loop"))),
    8: ("mekr", (old("l", "loop"), old("h1", "half", True), old("l2", "loop"), old("h2", "half", True),
                 new("e", "edge"), way(1))),
    9: ("kfmrh", (old("f1", "face"), old("f2", "face"))),
    10: ("mfkrh", (old("l", "loop"), new("f", "face"), new("s", "solid", True))),
    11: ("semv", (old("k", "half"), new("e", "edge"), new("v", "vertex"), way(1)) + POINT),
    12: ("jekv", (old("k", "half"),)),
    13: ("rmov", (old("l", "loop"), old("f", "face"))),
}
CODES = {name: code for code, (name, _) in PATTERNS.items()}


def operands_of(code):
    return PATTERNS[code][1]


def operator(code_or_name, *args):
    """An operator's record from its operands; unused numbers of the record are 0."""
    code = CODES.get(code_or_name, code_or_name)
    return Operator(code, len(args), tuple(args) + (0,) * (8 - len(args)))


def describe(op):
    return " ".join([PATTERNS[op.code][0]] + [str(a) for a in op.args[:op.count]])


# Numbers

MOST_GROUPS = 3


def number_bytes(value):
    """Groups of seven bits, lowest first, the high bit set on all but the last; the fewest, as numbers are written."""
    assert 0 <= value < 1 << 21
    groups = []
    while True:
        group, value = value % 128, value // 128
        if value == 0:
            return bytes(groups + [group])
        groups.append(group + 128)


def number_forms(value):
    """All that is read as this number: its fewest groups, and those with groups of zero bits behind, up to three."""
    shortest_form = number_bytes(value)
    forms = [shortest_form]
    for more in range(1, MOST_GROUPS - len(shortest_form) + 1):
        forms.append(shortest_form[:-1] + bytes([shortest_form[-1] + 128] + [128] * (more - 1) + [0]))
    return forms


def read_number(data, place):
    """Answers (value, place after it), or None where refusal 3 is due: the number is cut off or has a fourth group."""
    value = 0
    for group in range(MOST_GROUPS):
        if place + group >= len(data):
            return None
        byte = data[place + group]
        value += (byte % 128) << (7 * group)
        if byte < 128:
            return value, place + group + 1
    return None


def numbers_of(data):
    """Value and bytes of each number from the front, up to the first that is refused; and the bytes from there on."""
    place, numbers = 0, []
    got = read_number(data, place)
    while got is not None:
        numbers.append((got[0], bytes(data[place:got[1]])))
        place = got[1]
        got = read_number(data, place)
    return numbers, bytes(data[place:])


def shorten(data):
    """Each number that is read in its fewest groups; from the first that is cut off or too long on the bytes stay."""
    numbers, tail = numbers_of(data)
    return b"".join(number_bytes(value) for value, _ in numbers) + tail


def shortest(data):
    """No byte from 128 on is followed by a byte 0; it takes no reading to see that."""
    return not any(one >= 128 and two == 0 for one, two in zip(data, data[1:]))


def fold_coordinate(c):
    return 2 * c if c >= 0 else -2 * c - 1


def unfold_coordinate(number):
    return number // 2 if number % 2 == 0 else -(number + 1) // 2


# Ranges

def limits_of(capacities):
    """Highest number by kind; without a table those of the largest table there is."""
    solids, faces, loops, edges, vertices = capacities or (CAPACITY_LIMIT,) * 5
    return {"solid": solids, "face": faces, "loop": loops, "edge": edges,
            "half": 2 * edges, "vertex": vertices}


def operand_in_range(operand, value, limits):
    if operand.kind == "coordinate":
        return -COORDINATE_LIMIT <= value <= COORDINATE_LIMIT
    if isinstance(operand.kind, tuple):
        return 0 <= value <= operand.kind[1]
    return (0 if operand.zero else 1) <= value <= limits[operand.kind]


def operands_in_range(op, capacities=None):
    limits = limits_of(capacities)
    return all(operand_in_range(operand, value, limits)
               for operand, value in zip(operands_of(op.code), op.args))


# One operator

def read_operator(data, place, capacities=None):
    """Answers (refusal, operator, length); after a refusal NO_OPERATOR and 0."""
    got = read_number(data, place)
    if got is None:
        return 3, NO_OPERATOR, 0
    code, after = got
    if code not in PATTERNS:
        return 4, NO_OPERATOR, 0
    args = []
    for operand in operands_of(code):
        got = read_number(data, after)
        if got is None:
            return 3, NO_OPERATOR, 0
        value, after = got
        args.append(unfold_coordinate(value) if operand.kind == "coordinate" else value)
    op = operator(code, *args)
    if not operands_in_range(op, capacities):
        return 5, NO_OPERATOR, 0
    return 0, op, after - place


def operator_bytes(op):
    """The bytes of an operator that is known to be in range."""
    out = number_bytes(op.code)
    for operand, value in zip(operands_of(op.code), op.args):
        out += number_bytes(fold_coordinate(value) if operand.kind == "coordinate" else value)
    return out


def write_operator(op, destination, place=0):
    """Writes into a bytearray from place on; answers (refusal, length), 0 after a refusal."""
    if op.code not in PATTERNS:
        return 4, 0
    operands = operands_of(op.code)
    if op.count != len(operands) or any(op.args[len(operands):]):
        return 5, 0
    if not operands_in_range(op):
        return 5, 0
    out = operator_bytes(op)
    if place + len(out) > len(destination):
        return 9, 0
    destination[place:place + len(out)] = out
    return 0, len(out)


def script_bytes(operators):
    return b"".join(operator_bytes(op) for op in operators)


def read_script(data):
    """All operators of a script, or the refusal met: (refusal, operators, bytes read)."""
    place, operators = 0, []
    while place < len(data):
        refusal, op, length = read_operator(data, place)
        if refusal != 0:
            return refusal, operators, place
        operators.append(op)
        place += length
    return 0, operators, place
