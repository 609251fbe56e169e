"""What comparisons have met of padded numbers and of numbers that are refused."""

import wire
from padding import MOST_READ
from script import MOST_GROUPS, PATTERNS, operands_of, read_number, shorten, shortest


def is_padded(data):
    """Whether one of the numbers that are read is not in its fewest groups."""
    return shorten(data) != bytes(data)


def behind_numbers(data, place):
    """The place behind the operator's numbers that are read: its end, or the number that is cut off or too long."""
    got, wanted = read_number(data, place), 0
    if got is not None and got[0] in PATTERNS:
        wanted = len(operands_of(got[0]))
    while got is not None:
        place = got[1]
        got = read_number(data, place) if wanted > 0 else None
        wanted -= 1
    return place


def why_refused(data, place):
    """What is wrong with the number at this place, of which reading has made refusal 3."""
    groups = len(data[place:place + MOST_GROUPS])
    return ("cut off before it", "cut off after a group", "cut off after two groups", "too long")[groups]


def bytes_taken(case, answer):
    """The bytes that are read, and the places where reading began and where what was accepted ended."""
    if case.kind == wire.RUN:
        return case.script, 0, answer.numbers[3]
    if case.kind == wire.UNDO:
        return case.log, case.session[0], answer.session[0]
    if case.kind == wire.REDO:
        return case.redo, case.session[1], answer.session[1]
    return case.script, case.numbers[0], case.numbers[0] + answer.numbers[1]


def number_situations(case, answer):
    """What is special about the numbers of a case that reads any, by the answer that it has to get."""
    if case.kind not in (wire.READ, wire.RUN, wire.UNDO, wire.REDO):
        return
    kind, refusal = wire.KIND_NAMES[case.kind], answer.numbers[0]
    data, first, end = bytes_taken(case, answer)
    if refusal in (1, 2):
        yield from [f"{kind}: padded, {refusal}"] * is_padded(data)
        return
    # With 0 and 11 no operator was refused, so it is those accepted that have to be padded.
    if refusal not in (0, 11):
        yield from [f"{kind}: accepted and padded before a refusal"] * is_padded(data[first:end])
        first, end = end, behind_numbers(data, end)
    if is_padded(data[first:end]):
        yield f"{kind}: padded, {refusal}"
    if case.kind == wire.READ and end - first == MOST_READ:
        yield "read: as many bytes as an operator can have"
    if refusal == 3:
        yield f"{kind}: 3, {why_refused(data, end)}"
        yield from [f"{kind}: 3, not even its shortened form is shortest"] * (not shortest(shorten(data)))


REFUSALS = {"read": (0, 3, 4, 5), "run": range(10), "undo": (*range(10), 11), "redo": (*range(10), 11)}
REASONS = ("cut off before it", "cut off after a group", "cut off after two groups", "too long",
           "not even its shortened form is shortest")


def wanted_padded(kind, refusals=None):
    """A padded operator accepted, and one refused for each of these reasons."""
    return [f"{kind}: padded, {refusal}" for refusal in refusals or REFUSALS[kind]]


def wanted_numbers(kind):
    """All situations that numbers can bring about in cases of this kind."""
    wanted = wanted_padded(kind) + [f"{kind}: 3, {reason}" for reason in REASONS]
    one_operator = kind == "read"
    return wanted + [f"{kind}: " + ("as many bytes as an operator can have" if one_operator
                                    else "accepted and padded before a refusal")]
