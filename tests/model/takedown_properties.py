"""The take-down's promise on the model alone: random tables, full ones, and every table of a few edges."""

import wire
from boundary import Boundary
from generate import table_of
from layout import CAPACITY_LIMIT, Table
from met import Met
from rules import check
from script import operator_bytes
from takedown import taken
from takedown_cases import (LISTED, LISTED_TABLES, LISTED_TOO, LISTED_TOO_TABLES, NONE_OF_SOME, full_trials,
                            listed_trials, takedown_trial)
from takedown_full import full_prisms
from takedown_met import WANTED, WANTED_FULL, WANTED_LACKS, case_situations
from takedown_promise import keep_promise, model_answer


def answers_of(cases):
    return [wire.answer_case(case) for case in cases]


def take_down(tally, met, trials):
    """Each case by the model: a refusal changes nothing but what 10 may, a take-down keeps the promise; answers the
    latter.
    """
    taken_down = []
    for case, sound in trials:
        answer = model_answer(case)
        if sound:
            tally.equal(f"made tables are sound: {case}", check(case.links, case.points), (0, 0))
        if not tally.holds(f"{answer}: {case}", isinstance(answer, wire.Frame)):
            continue
        met.situations.update(case_situations(case, answer))
        if answer.numbers[0] == 0:
            taken_down.append((case, answer))
        else:
            left, before = (answer.numbers[2:], answer[2:]), ((0, case.session[0]), case[2:])
            tally.equal(f"refused changes nothing: {case}", left, before_steps(case, answer, before))
    keep_promise(answers_of, tally, met, taken_down)
    return taken_down


def before_steps(case, answer, before):
    """What a refusal leaves: what was before, by 10 with the log bytes that the steps logged into."""
    if answer.numbers[0] != 10:
        return before
    low = case.session[0] - sum(len(operator_bytes(inverse)) for inverse in taken(case.links, case.points).inverses)
    log = case.log[:low] + answer.log[low:case.session[0]] + case.log[case.session[0]:]
    return before[0], case._replace(log=log)[2:]


# 10 exactly where a number is not there

def roomy(links, points):
    """The same table with one number more of each kind; the largest ones have numbers to spare already."""
    b = Boundary(Table(links, points))
    b.capacities = tuple(min(capacity + 1, CAPACITY_LIMIT) for capacity in b.capacities)
    return table_of(b)


def by_room(tally, case):
    """With a number more of each kind no step lacks one, and up to a lack the steps are the same: the number that lacks
    is the first one beyond what the table had.
    """
    here, there = taken(case.links, case.points), roomy(case.links, case.points)
    freely, done = taken(there.links, there.points), len(here.inverses)
    tally.equal(f"nothing lacks in the larger table: {case}", freely.lacking, None)
    tally.equal(f"the same steps: {case}", freely.inverses[:done], here.inverses)
    tally.equal(f"10 only for a number beyond: {case}", here.lacking is None, len(freely.inverses) == done)


# Properties

def random_take_downs(tally, rng, scale):
    met = Met()
    take_down(tally, met, [takedown_trial(rng) for _ in range(int(600 * scale))])
    # Fewer cases than by default cannot be asked to meet everything.
    met.want_situations(tally, WANTED if scale >= 1 else ())


def full_take_downs(tally, rng, scale):
    met, trials = Met(), full_trials(rng, int(540 * scale))
    take_down(tally, met, trials)
    for case, _ in trials:
        by_room(tally, case)
    met.want_situations(tally, WANTED_FULL + WANTED_LACKS if scale >= 1 else ())


def prisms_come_down(tally, rng, scale):
    """Boxes and prisms with no number free of any kind: no step calls for one."""
    for _ in range(int(60 * scale)):
        table = full_prisms(rng)
        tally.equal(f"a full prism comes down: {table.links}", taken(table.links, table.points).lacking, None)


def small_take_downs(tally, _rng, scale):
    """Every table of up to two edges and one lone loop, with a large scale also of three edges: none is refused."""
    wanted = LISTED_TABLES + (LISTED_TOO_TABLES if scale >= 5 else 0)
    taken_down = take_down(tally, Met(), listed_trials(LISTED + (LISTED_TOO if scale >= 5 else ())))
    tally.equal("tables of a few edges taken down", len(taken_down), wanted)


def small_full_take_downs(tally, _rng, scale):
    """The same with no number free of any kind, with a large scale also with none of one kind."""
    for spares in NONE_OF_SOME if scale >= 5 else NONE_OF_SOME[:1]:
        trials = listed_trials(LISTED, spares)
        take_down(tally, Met(), trials)
        for case, _ in trials:
            by_room(tally, case)


TAKEDOWN_PROPERTIES = (random_take_downs, small_take_downs, full_take_downs, prisms_come_down, small_full_take_downs)
