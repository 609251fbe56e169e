"""What document 01 promises of the take-down, held against a kernel's answers: the compiled one's, or the model's own.

The logged script leads back through the tables that the take-down went through, each of its operators undoing one of
the take-down's. So one walk along the script counts its joins, and meets each table that the take-down had before it.
"""

from collections import Counter, namedtuple

import wire
from boundary import Boundary
from layout import cleared_table
from operators import carry_out
from rules import count
from script import operator, operator_bytes, read_operator
from takedown import most_operators
from takedown_met import step_situations

KFMRH = operator("kfmrh").code

# The joins of a script, the inverses of its operators as a log has them, and what the take-down that logged it has met.
Walk = namedtuple("Walk", "joins log situations")


def walk_back(capacities, script):
    """Carries a script out from a cleared table, by the model, up to its end or a refusal."""
    body, place, joins, log, situations = Boundary(cleared_table(capacities)), 0, 0, b"", Counter()
    while place < len(script):
        refusal, op, length = read_operator(script, place, capacities)
        if refusal == 0:
            joins += is_join(body, op)
            refusal, inverse = carry_out(body, op)
        if refusal != 0:
            break
        place, log = place + length, operator_bytes(inverse) + log
        situations.update(step_situations(body, inverse))
    return Walk(joins, log, situations)


def is_join(b, op):
    """By "An operator joins two faces of one solid when it is kfmrh and f1 and f2 lie in one solid just before it."."""
    if op.code != KFMRH:
        return False
    one, two = (b.face_solid.get(face) for face in op.args[:2])
    return one is not None and one == two


def model_answer(case):
    """The model's answer, or in words what stopped it, so that such a case is told and counted like any difference."""
    try:
        return wire.answer_case(case)
    except AssertionError as finding:
        return f"no answer: {finding}"


def keep_promise(asked, tally, met, taken):
    """Holds the promise against take-downs not refused, pairs of case and answer; asked answers further cases."""
    rebuilds = [rebuild(tally, met, case, answer) for case, answer in taken]
    for (case, wanted), answer in zip(rebuilds, asked([case for case, _ in rebuilds])):
        if tally.equal(f"the table before, to the byte: {case}", answer, wanted):
            met.add(case, answer)


def rebuild(tally, met, case, answer):
    """Tests what the answer of a take-down shows; answers the run of what it logged, and what that run has to give."""
    name, start, (_, _, done, down) = f"take-down: {case}", case.session[0], answer.numbers
    capacities, script = case.links[:5], answer.log[down:start]
    empty, walk = cleared_table(capacities), walk_back(capacities, script)
    met.situations.update(walk.situations)
    tally.equal(f"emptied {name}", (answer.links, answer.points), (tuple(empty.links), tuple(empty.points)))
    tally.holds(f"not too many operators: {name}", done <= most_operators(case.links, case.points))
    tally.equal(f"other log bytes: {name}", answer.log[:down] + answer.log[start:], case.log[:down] + case.log[start:])
    tally.equal(f"h joins: {name}", walk.joins, count(case.links, case.points)[-1])
    # "another log, long enough for every inverse": here just long enough.
    room = len(walk.log)
    return (wire.case(wire.RUN, (), empty.links, empty.points, b"\xEE" * room, script, session=(room, 0)),
            wire.case(wire.RUN, (0, 0, done, len(script), 0), case.links, case.points, walk.log, script,
                      session=(0, 0)))
