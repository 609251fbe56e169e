"""The promise of document 02, job 4, asked of a kernel: the compiled one, or the model itself.

    "Undoing n and redoing as many as were undone must return table, session and live log bytes exactly, when no other
    call and no outside hand on table, session or logs comes between and the log is in shortest form."

Undo and redo being one operation with the logs exchanged, it is asked of redoing and undoing as well; and of any bytes
whatever in the logs, for what was undone before a refusal was undone. Where the bytes read are padded, table and redo
start return all the same; what is written back is in shortest form, so that the log's start does not.
"""

import wire
from cases import exchanged, lent_case, log_of_run, strange_script, undo_case
from generate import random_table
from padding import padded_log
from script import shorten, shortest

# The trips there

def trip_case(rng):
    """An undo or a redo, by logs of all kinds, that moves something most often."""
    case = undo_case(rng) if rng.random() < 0.15 else likely_undo(rng)
    return exchanged(case) if rng.random() < 0.5 else case


def likely_undo(rng):
    """Of what a run has logged, or of what a stranger has written; in a third of the cases padded."""
    links, points, log, start, live = rng.choice((log_of_run, log_of_run, strange_log))(rng, random_table(rng))
    while live == 0:
        links, points, log, start, live = log_of_run(rng, random_table(rng))
    if rng.random() < 0.33:
        log = padded_log(rng, log, start)
    wanted = rng.choice((live, live, live, live + 1, rng.randint(0, live)))
    return lent_case(rng, wire.UNDO, (wanted,), links, points, log, start)


def strange_log(rng, table):
    """Now and then cut off before its end."""
    front, live = rng.randbytes(rng.choice((0, 3, 60))), strange_script(rng, table)
    return table.links, table.points, front + live[:len(live) - (rng.random() < 0.2)], len(front), 9


# There and back

BACK = {wire.UNDO: wire.REDO, wire.REDO: wire.UNDO}


def swapped(frame):
    """The same memory with the logs exchanged."""
    return frame._replace(log=frame.redo, redo=frame.log, session=frame.session[::-1])


def way_back(answer):
    """The call that takes back what was moved."""
    return answer._replace(kind=BACK[answer.kind], numbers=(answer.numbers[2],))


def read_bytes(case, answer):
    """What an undo has read of the log."""
    return case.log[case.session[0]:answer.session[0]]


def promised(case, answer):
    """What the way back has to answer and to leave."""
    if case.kind == wire.REDO:
        forth = promised(swapped(case)._replace(kind=wire.UNDO), swapped(answer)._replace(kind=wire.UNDO))
        back = swapped(forth)
        return back._replace(kind=wire.UNDO, numbers=back.numbers + back.session[:1])
    short, end = shorten(read_bytes(case, answer)), answer.session[0]
    start = end - len(short)
    return answer._replace(kind=wire.REDO, numbers=(0, 0, answer.numbers[2]), links=case.links, points=case.points,
                           log=case.log[:start] + short + case.log[end:], session=(start, case.session[1]))


def situations(case, answer):
    """What a trip there and back has met; case and answer are those of the way there."""
    name, (refusal, _, moved) = wire.KIND_NAMES[case.kind], answer.numbers[:3]
    read = read_bytes(case, answer) if case.kind == wire.UNDO else read_bytes(swapped(case), swapped(answer))
    form = "shortest" if shortest(read) else "padded"
    if moved > 0:
        yield f"{name} and back, {form}, {'several' if moved > 1 else 'one'}"
        yield f"{name} and back, {form}, behind {refusal}"


def keep_promise(asked, tally, met, cases):
    """Asks undos and redos there and back; with 1 and 2 nothing was moved and nothing is promised."""
    there = [(case, answer) for case, answer in zip(cases, asked(cases))
             if tally.holds(f"answered: {case}", answer is not None) and answer.numbers[0] not in (1, 2)]
    backs = [way_back(answer) for _, answer in there]
    for (case, answer), back, got in zip(there, backs, asked(backs)):
        if tally.equal(f"there and back: {case}", got, promised(case, answer)):
            met.add(back, got)
            met.situations.update(set(situations(case, answer)))
            if shortest(read_bytes(case, answer)) and case.kind == wire.UNDO:
                whole_log(tally, case, got)


def whole_log(tally, case, got):
    """The promise in its own words, so that it does not hang on what is promised of padded logs."""
    tally.equal(f"table, session and log as before: {case}", (got.links, got.points, got.session, got.log),
                (case.links, case.points, case.session, case.log))
    start = case.session[1]
    tally.equal(f"what could be redone: {case}", got.redo[start:], case.redo[start:])


def keep_exchange(asked, tally, cases):
    """An undo, and the redo of the same operators from the other log."""
    for case, undone, redone in zip(cases, asked(cases), asked([exchanged(case) for case in cases])):
        tally.equal(f"the logs exchanged: {case}", redone, undone and exchanged(undone))


WANTED = [f"{move} and back, {form}, {count}" for move in ("undo", "redo") for form in ("shortest", "padded")
          for count in ("one", "several")]
WANTED += [f"{move} and back, {form}, behind {refusal}" for move in ("undo", "redo") for form in ("shortest", "padded")
           for refusal in (0, 9, 11)]
WANTED += [f"{move} and back, shortest, behind {refusal}" for move in ("undo", "redo") for refusal in (3, 4, 5)]
