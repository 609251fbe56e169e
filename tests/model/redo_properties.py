"""Undo and redo on the model alone: there and back, in parts, by the room they need; and what keeps the redo log."""

import wire
from cases import clear_case, run_case, undo_case
from histories import History
from met import Met
from promise import WANTED as WANTED_ROOMS, Story, a_byte_less, just_enough, keep_promise as keep_undo_promise, more
from redo_met import WANTED as WANTED_HISTORIES, history_situations, operators_done
from redo_promise import WANTED as WANTED_TRIPS, keep_exchange, keep_promise, read_bytes, swapped, trip_case
from script import shorten, shortest
from takedown_cases import takedown_case


def answers_of(cases):
    return [wire.answer_case(case) for case in cases]


def moves_of(rng, count):
    """Undos and redos that are not refused by 1 or 2, with their answers."""
    cases = [trip_case(rng) for _ in range(count)]
    return [(case, answer) for case, answer in zip(cases, answers_of(cases)) if answer.numbers[0] not in (1, 2)]


def as_asked(frame, kind, count):
    """The next call on what a call has left."""
    return frame._replace(kind=kind, numbers=(count,))


# There and back

def there_and_back(tally, rng, scale):
    met = Met()
    keep_promise(answers_of, tally, met, [trip_case(rng) for _ in range(int(2_000 * scale))])
    keep_exchange(answers_of, tally, [undo_case(rng) for _ in range(int(200 * scale))])
    # Fewer cases than by default cannot be asked to meet everything.
    met.want_situations(tally, WANTED_TRIPS if scale >= 1 else ())


def part_of_the_way_back(tally, rng, scale):
    """Undoing n and redoing m is undoing n - m: table, session and log, and what can be redone."""
    for case, answer in moves_of(rng, int(800 * scale)):
        if case.kind != wire.UNDO:
            continue
        undone = answer.numbers[2]
        redone = rng.randint(0, undone)
        back = wire.answer_case(as_asked(answer, wire.REDO, redone))
        fewer = wire.answer_case(as_asked(case, wire.UNDO, undone - redone))
        name, start = f"undo {undone}, redo {redone}: {case}", fewer.session[1]
        tally.equal(f"answers, {name}", (back.numbers, fewer.numbers[:3]), ((0, 0, redone), (0, 0, undone - redone)))
        tally.equal(f"table, {name}", (back.links, back.points), (fewer.links, fewer.points))
        tally.equal(f"what can be redone, {name}", (back.session[1], back.redo[start:]), (start, fewer.redo[start:]))
        if shortest(read_bytes(case, answer)):
            tally.equal(f"log, {name}", (back.session, back.log), (fewer.session, fewer.log))


def in_two_parts(tally, rng, scale):
    """Moving n and then m is moving n + m, every byte and the refusal; and a refused operator changes nothing."""
    for case, answer in moves_of(rng, int(800 * scale)):
        refusal, rule, moved = answer.numbers[:3]
        first = rng.randint(0, moved)
        half = wire.answer_case(as_asked(case, case.kind, first))
        rest = wire.answer_case(as_asked(half, case.kind, case.numbers[0] - first))
        tally.equal(f"the first {first}: {case}", half.numbers[:3], (0, 0, first))
        tally.equal(f"in two parts: {case}", rest,
                    answer._replace(numbers=(refusal, rule, moved - first) + answer.numbers[3:]))
        whole = wire.answer_case(as_asked(case, case.kind, moved))
        tally.equal(f"up to the refusal: {case}", whole, answer._replace(numbers=(0, 0) + answer.numbers[2:]))


def only_read(tally, rng, scale):
    """No byte of the log that is read changes, and of the other one none but those that the start has passed."""
    for case, answer in moves_of(rng, int(800 * scale)):
        if case.kind == wire.REDO:
            case, answer = swapped(case), swapped(answer)
        end, start = case.session[1], answer.session[1]
        tally.equal(f"the log is only read: {case}", answer.log, case.log)
        tally.equal(f"other bytes of the redo log: {case}", answer.redo[:start] + answer.redo[end:],
                    case.redo[:start] + case.redo[end:])
        tally.holds(f"in shortest form: {case}", shorten(answer.redo[start:end]) == answer.redo[start:end])


# Room

def room_for_undo(tally, rng, scale):
    """Undo needs as many bytes as the operators done have in shortest form: `used` of a script in that form."""
    met, rooms = Met(), (just_enough, a_byte_less, more)
    for _ in range(int(600 * scale)):
        story = Story(rng, rng.choice(rooms))
        for script in story.scripts:
            story.last = wire.answer_case(story.last._replace(kind=wire.RUN, numbers=(), script=script))
            story.done += story.last.numbers[2]
        case = story.undo_case()
        keep_undo_promise(tally, met, story, case, wire.answer_case(case))
    met.want_situations(tally, WANTED_ROOMS if scale >= 1 else ())


def room_by_used(tally, rng, scale):
    """One script: exactly `used` bytes are enough, and with a byte less the first operator is not undone."""
    for case in [run_case(rng) for _ in range(int(400 * scale))]:
        case = case._replace(script=shorten(case.script))
        done, used = wire.answer_case(case).numbers[2:4]
        for room in (used, used - 1) if done else ():
            left = wire.answer_case(case._replace(redo=bytes(room)))
            undone = wire.answer_case(as_asked(left, wire.UNDO, done))
            wanted = (0, 0, done) if room == used else (9, 0, done - 1)
            tally.equal(f"room {room}: {case}", (left.session[1], undone.numbers[:3]), (room, wanted))


# What empties the redo log

def kept_or_emptied(tally, rng, scale):
    """Run and take-down empty it by their first operator, clearing always; its bytes stay."""
    makers = (run_case, run_case, takedown_case, clear_case)
    for case in [rng.choice(makers)(rng) for _ in range(int(1_200 * scale))]:
        answer = wire.answer_case(case)
        cleared = case.kind == wire.CLEAR and answer.numbers[0] == 0
        emptied = cleared or operators_done(answer) > 0
        tally.equal(f"redo start: {case}", answer.session[1], len(case.redo) if emptied else case.session[1])
        tally.equal(f"redo bytes: {case}", answer.redo, case.redo)
        # Whatever the redo start is, everything else is the same.
        other = wire.answer_case(case._replace(session=(case.session[0], rng.choice((0, len(case.redo) + 1)))))
        tally.equal(f"the redo start is not looked at: {case}", other._replace(session=other.session[:1]),
                    answer._replace(session=answer.session[:1]))
        if cleared:
            tally.equal(f"both at their ends: {case}", answer.session, (len(case.log), len(case.redo)))
        elif not emptied:
            tally.equal(f"session stays: {case}", answer.session, case.session)


def histories_meet_everything(tally, rng, scale):
    """The histories that the compiled kernel is asked for meet what they are made for."""
    met = Met()
    for history in [History(rng) for _ in range(int(1_500 * scale))]:
        met.situations.update(history_situations(history.cases, history.wanted))
    met.want_situations(tally, WANTED_HISTORIES if scale >= 1 else ())


REDO_PROPERTIES = (there_and_back, part_of_the_way_back, in_two_parts, only_read, room_for_undo, room_by_used,
                   kept_or_emptied, histories_meet_everything)
