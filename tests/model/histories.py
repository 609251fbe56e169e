"""Histories: calls on one table with one session, and now and then an outside hand on a log or a start between them.

Each call is handed what the kernel's call before has left, never what the model says, so that a slip is carried on to
the end.
"""

from collections import namedtuple

import wire
from boundary import Boundary
from cases import TOO_MANY, any_bytes, strange_script
from generate import beyond, damaged_bytes, damaged_table, random_operator, random_script, random_table
from layout import Table
from library import ask
from padding import half_padded, padded
from redo_met import history_situations
from rules import check
from script import operator_bytes
from takedown_full import any_lacking_table
from takedown_tables import spared_table

MOST_CALLS = 12

# A call: its kind, numbers and script, and what a hand has put in the place of logs and session before it.
Call = namedtuple("Call", "kind numbers script hand")


def case_after(last, call):
    return last._replace(kind=call.kind, numbers=call.numbers, script=call.script, **call.hand)


# The first table, logs and session

def first_frame(rng):
    """A sound table most often; logs of any bytes, so that what lies behind an early start is a stranger's."""
    dice, bad = rng.random(), 0.07
    if dice < 0.95:
        # of which some can be taken down, and some lack a number for it
        table = random_table(rng) if dice < 0.6 else spared_table(rng) if dice < 0.8 else any_lacking_table(rng)
        links, points = table.links, table.points
    else:
        # 1 comes before 2, so bad starts are met with these more often
        (links, points), bad = damaged_table(rng), 0.3
    log, redo = any_log(rng, (0, 20, 100, 400, 400, 1_500)), any_log(rng, (0, 3, 10, 25, 60, 400, 400, 400))
    return wire.case(wire.RUN, (), links, points, log, b"", redo, (any_start(rng, log, bad), any_start(rng, redo, bad)))


def any_log(rng, lengths):
    return any_bytes(rng, rng.choice(lengths), rng.choice((13, 255)))


def any_start(rng, log, bad):
    """Most often the end; else a place inside, or, so often, one beyond."""
    if rng.random() < bad:
        return beyond(rng, log)
    return rng.randint(0, len(log)) if rng.random() < 0.1 else len(log)


# Calls

def a_run(rng, frame):
    """Scripts for the table, with some that do nothing: empty ones, and ones that are refused at once."""
    table, dice = sound_table(frame), rng.random()
    if dice < 0.1 or table is None:
        return wire.RUN, (), b""
    if dice < 0.25:
        return wire.RUN, (), half_padded(rng, operator_bytes(random_operator(rng, Boundary(table))))
    return wire.RUN, (), half_padded(rng, random_script(rng, table))


def sound_table(frame):
    links, points = list(frame.links), list(frame.points)
    return Table(links, points) if check(links, points) == (0, 0) else None


def a_move(kind):
    def make(rng, _frame):
        return kind, (rng.choice((0, 1, 1, 1, 2, 2, 3, 5, 16) + TOO_MANY[:1 + (rng.random() < 0.1)]),), b""
    return make


def a_clearing(rng, frame):
    """Of the capacities that the table has, now and then of others, which are refused."""
    capacities = list(frame.links[:5]) + [1] * (5 - len(frame.links))
    if rng.random() < 0.2:
        capacities[rng.randrange(5)] = rng.choice((0, 1, 2, 4_097))
    return wire.CLEAR, tuple(capacities), b""


def a_take_down(_rng, _frame):
    return wire.TAKEDOWN, (), b""


an_undo, a_redo = a_move(wire.UNDO), a_move(wire.REDO)


def any_call(rng, frame):
    """Undo and redo more often where there is something for them."""
    live = [start < len(log) for start, log in zip(frame.session, (frame.log, frame.redo))]
    weights = {a_run: 25, an_undo: 30 if live[0] else 8, a_redo: 40 if live[1] else 6, a_clearing: 3, a_take_down: 8}
    return rng.choices(list(weights), list(weights.values()))[0](rng, frame)


# An outside hand on logs and session; each answers what it has put in the place of what was there

def no_hand(_rng, _frame):
    return {}


def bad_start(rng, frame):
    starts = list(frame.session)
    place = rng.randint(0, 1)
    starts[place] = beyond(rng, (frame.log, frame.redo)[place])
    return {"session": tuple(starts)}


def other_start(rng, frame):
    """The end, the front or any place; where a start was beyond its log, this mends it."""
    starts = list(frame.session)
    for place, log in enumerate((frame.log, frame.redo)):
        if starts[place] > len(log) or rng.random() < 0.5:
            starts[place] = rng.choice((len(log), len(log), 0, rng.randint(0, len(log))))
    return {"session": tuple(starts)}


def strange_log(rng, frame):
    """A live part that no call of ours has written, in one of the logs."""
    table = sound_table(frame)
    if table is None:
        return {}
    live = (strange_script if rng.random() < 0.8 else random_script)(rng, table)
    return with_live(rng, frame, rng.randint(0, 1), half_padded(rng, live), rng.choice((0, 3, 60)))


def padded_live(rng, frame):
    """The live part of one of the logs in padded form: the log gets longer behind its start."""
    place = rng.randint(0, 1)
    log, start = (frame.log, frame.redo)[place], frame.session[place]
    return {("log", "redo")[place]: log[:start] + padded(rng, log[start:])}


def damaged_live(rng, frame):
    place = rng.randint(0, 1)
    log, start = (frame.log, frame.redo)[place], frame.session[place]
    return {("log", "redo")[place]: log[:start] + damaged_bytes(rng, log[start:])} if log[start:] else {}


def less_room(rng, frame):
    """One of the logs cut off at its front, so that what comes next may not fit."""
    place = rng.randint(0, 1)
    log, start = (frame.log, frame.redo)[place], frame.session[place]
    return with_live(rng, frame, place, log[start:], rng.choice((0, 1, 2, 5, 9))) if start <= len(log) else {}


def with_live(rng, frame, place, live, room):
    """A log of this live part, with so many bytes in front of it."""
    starts = list(frame.session)
    starts[place] = room
    return {("log", "redo")[place]: rng.randbytes(room) + live, "session": tuple(starts)}


HANDS = (bad_start, other_start, strange_log, strange_log, strange_log, padded_live, padded_live, damaged_live,
         less_room)


class History:
    """Where it began, its calls with the model's cases and answers, and what the kernel left last."""

    def __init__(self, rng):
        self.last = last = first_frame(rng)
        self.calls, self.cases, self.wanted = [], [], []
        for _ in range(rng.randint(1, MOST_CALLS)):
            # A start beyond its log refuses most calls: it is not left so for long.
            bad = any(start > len(log) for start, log in zip(last.session, (last.log, last.redo)))
            hand = other_start if bad and rng.random() < 0.4 else rng.choice(HANDS) if rng.random() < 0.2 else no_hand
            changed = hand(rng, last)
            call = Call(*any_call(rng, last._replace(**changed)), changed)
            self.calls.append(call)
            self.cases.append(case_after(last, call))
            last = wire.answer_case(self.cases[-1])
            self.wanted.append(last)


def tell_histories(driver, tally, met, rng, count):
    """So many histories, call by call."""
    histories = told = [History(rng) for _ in range(count)]
    for place in range(max(len(history.calls) for history in histories)):
        going = [history for history in told if place < len(history.calls)]
        cases = [case_after(history.last, history.calls[place]) for history in going]
        for history, case, answer in zip(going, cases, ask(driver, cases)):
            if tally.equal(f"call {place} of a history: {case}", answer, history.wanted[place]):
                met.add(case, answer)
            history.last = answer
        # Those without an answer are left out from here on.
        told = [history for history in told if history.last is not None]
    for history in told:
        met.situations.update(history_situations(history.cases, history.wanted))
