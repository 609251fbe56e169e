"""What histories of calls on one session have met: when the redo log is emptied or kept, bad starts, room."""

import wire
from padded_met import is_padded
from rules import check

MOVES = {wire.UNDO: "undo", wire.REDO: "redo"}
# Where either call reads and where it writes: a log, and the place of its start in the session.
SOURCES = {wire.UNDO: ("log", 0), wire.REDO: ("redo", 1)}
DESTINATIONS = {wire.UNDO: ("redo", 1), wire.REDO: ("log", 0)}


def is_beyond(frame, place):
    return frame.session[place] > len((frame.log, frame.redo)[place])


def is_live(frame):
    """Whether there is something to redo."""
    return frame.session[1] < len(frame.redo)


def operators_done(answer):
    """Operators that a call carried out; clearing and refused calls none."""
    return 0 if answer.kind == wire.CLEAR else answer.numbers[2]


# One call

def emptying_situations(case, answer):
    """Of clearing, run and take-down: what becomes of the redo log."""
    name, refusal = wire.KIND_NAMES[case.kind], answer.numbers[0]
    empties = refusal == 0 if case.kind == wire.CLEAR else operators_done(answer) > 0
    what = "empties" if empties else f"refused by {refusal} keeps" if refusal else "of nothing keeps"
    if is_beyond(case, 1):
        yield f"{name} {what} a redo log whose start is beyond it"
    elif is_live(case):
        yield f"{name} {what} what can be redone"
    if case.kind == wire.CLEAR and refusal == 0 and is_beyond(case, 0):
        yield "clear mends a log's start"


def move_situations(case, answer):
    """Of undo and redo: their refusals, and the room in the log that they write to."""
    name, (refusal, _, moved) = MOVES[case.kind], answer.numbers[:3]
    (source, at), (target, to) = SOURCES[case.kind], DESTINATIONS[case.kind]
    for place, log in ((0, "log"), (1, "redo log")):
        if refusal == 1 and is_beyond(case, place):
            yield f"{name}: 1 for a start beyond the {log}"
            yield from [f"{name}: 1 before 2"] * (check(case.links, case.points)[0] == 2)
    if refusal not in (1, 2):
        read = getattr(case, source)[case.session[at]:answer.session[at]]
        yield from [f"{name} of a padded part"] * (moved > 0 and is_padded(read))
        yield from [f"{name}: {refusal} behind others"] * (moved > 0 and refusal > 0)
        yield from [f"{name}: 9 with no byte there"] * (refusal == 9 and len(getattr(case, target)) == 0)
        yield from [f"{name}: just the room"] * (moved > 0 and answer.session[to] == 0)
        yield from [f"{name}: 11 with no room either"] * (refusal == 11 and answer.session[to] == 0)
        yield from [f"{name} of none"] * (refusal == 0 and moved == 0)


def call_situations(case, answer):
    found = move_situations if case.kind in MOVES else emptying_situations
    return set(found(case, answer))


# Calls behind each other

def pair_situations(earlier, case, answer):
    """A call behind another one, no hand between: by the answer to that and the answer to this."""
    if earlier != case._replace(kind=earlier.kind, numbers=earlier.numbers, script=earlier.script):
        return
    done, before = operators_done(answer), operators_done(earlier)
    if earlier.kind in MOVES and case.kind in MOVES and done > 0 and before > 0:
        source, at = SOURCES[earlier.kind]
        if earlier.session[at] < len(getattr(earlier, source)):
            yield f"{MOVES[case.kind]} behind {MOVES[earlier.kind]} of a part"
        yield f"{MOVES[case.kind]} behind {MOVES[earlier.kind]}"
        if case.kind != earlier.kind:
            yield f"{MOVES[case.kind]} of {'as many' if done == before else 'fewer' if done < before else 'more'}"
    if case.kind == wire.REDO and done > 0 and earlier.kind == wire.RUN and before == 0:
        yield "redo behind a run that did nothing"
    if case.kind == wire.REDO and answer.numbers[0] == 11 and done == 0 and earlier.kind in (wire.RUN, wire.TAKEDOWN) \
            and before > 0:
        yield f"nothing to redo behind a {wire.KIND_NAMES[earlier.kind]}"


def history_situations(cases, answers):
    """All that a history has met, each thing as often as it did."""
    found, undone = [], False
    for place, (case, answer) in enumerate(zip(cases, answers)):
        found += call_situations(case, answer)
        if place > 0:
            found += set(pair_situations(answers[place - 1], case, answer))
        if case.kind == wire.CLEAR and answer.numbers[0] == 0 and undone:
            found.append("clear between undo and redo")
        undone = case.kind == wire.UNDO and operators_done(answer) > 0
    return found


WANTED = [f"run {what} what can be redone" for what in ("empties", "of nothing keeps")]
WANTED += [f"run refused by {refusal} keeps what can be redone" for refusal in (1, 2, *range(3, 10))]
WANTED += ["clear empties what can be redone", "clear refused by 1 keeps what can be redone",
           "takedown empties what can be redone", "takedown of nothing keeps what can be redone"]
WANTED += [f"takedown refused by {refusal} keeps what can be redone" for refusal in (9, 10)]
WANTED += [f"{what} a redo log whose start is beyond it"
           for what in ("run empties", "run of nothing keeps", "clear empties", "takedown empties")]
WANTED += ["clear mends a log's start", "clear between undo and redo"]
WANTED += [f"{move}: 1 for a start beyond the {log}" for move in MOVES.values() for log in ("log", "redo log")]
WANTED += [f"{move}{what}" for move in MOVES.values()
           for what in (" of a padded part", " of none", ": 1 before 2", ": 9 behind others", ": 9 with no byte there",
                        ": 11 behind others", ": 11 with no room either", ": just the room")]
WANTED += [f"{one} behind {two}{part}" for one in MOVES.values() for two in MOVES.values()
           for part in ("", " of a part")]
WANTED += [f"redo of {count}" for count in ("as many", "fewer", "more")]
WANTED += ["redo behind a run that did nothing", "nothing to redo behind a run", "nothing to redo behind a takedown"]
