"""Compares the compiled library with the model: builds the archives of the kernel and of the sweep, and the driver, and
asks both the same cases. With --library the archives are this one of the kernel and the libsweep.a in its folder.

    python3 tests/model/compare_library.py [MODE [COUNT [SEED]]] [--library ARCHIVE]

MODE  entries    COUNT cases each of clearing, checking, counting, reading and writing
      operators  COUNT scripts of one operator on sound tables
      runs       COUNT runs, undos and redos of whole scripts on any tables, logs and starts
      promise    COUNT lists of scripts, run one after the other and undone together
      padded     COUNT runs, undos and redos of padded scripts and logs, and the same in their shortest form
      numbers    COUNT operators read, padded, besides every form of every number below 2^14, every script of two bytes
                 and a net of three
      takedown   COUNT tables taken down and built again by what was logged, besides every table of two edges at most,
                 from 10,000 on of three
      full       COUNT tables taken down, two of three with no number free of some kinds or of all, also boxes and
                 prisms; besides every table of two edges at most with no face, loop or edge free, or none of the three
      obj        COUNT solids written as OBJ text and read again, besides every small table, each coordinate, and parts
                 as large as a table can hold
      kef        COUNT scripts of one kef on loops of 3 half-edges up to some thousand, and of one; each undone and
                 redone; besides some on loops of 4,000 and of all that a table can hold
      redo       COUNT histories of 1 to 12 calls on one session, with strange logs and starts; half as many undos and
                 redos taken back; half as many lists of scripts undone with just the room for it, or a byte less
      words      COUNT sound tables with one vertex word changed: the check's answer to each, and that of another call;
                 from 1,000 on every operator that a sound table of capacities 1 or 2 accepts
      sweep      COUNT sweeps, half of them refused, by every reason; accepted ones undone, redone, and done by a run of
                 their operators; besides every face of every table of two edges at most, the ends of the range, and
                 the longest sweep
      all        every mode, with a count of its own (the default)

Every answer and every byte of links, points, both logs, script and session afterwards must be equal; a crash or a hang
is a failure. Prints count, seed and what was met, and 'N passed, M failed' as its last line.
"""

import sys
import tempfile
import time

import wire
from cases import CASES, operator_case
from generate import seeded
from histories import tell_histories
from kef_cases import kef_case, long_cases
from kef_met import WANTED_CASES, case_situations as kef_case_situations
from library import ask, build_driver, library_given
from met import Met
from padded_cases import listed_cases, padded_read_case, padded_redo_case, padded_run_case, padded_undo_case
from padded_met import number_situations, wanted_numbers, wanted_padded
from padded_promise import keep_promise as keep_padded_promise
from promise import MENDED, WANTED as WANTED_ROOMS, a_byte_less, just_enough, more, tell
from redo_met import WANTED as WANTED_HISTORIES
from redo_promise import WANTED as WANTED_TRIPS, keep_exchange, keep_promise as keep_trips, trip_case
from rules import check
from small_tables import ACCEPTED, operator_cases
from sweep_cases import longest_cases as longest_sweeps, range_cases, small_cases as small_sweeps, sweep_case
from sweep_met import add_sweep, want_small, want_sweeps
from sweep_promise import keep_promise as keep_sweep_promise
from takedown_cases import LISTED, LISTED_TOO, NONE_OF_SOME, full_trials, listed_trials, takedown_trial
from takedown_full import ROUND
from takedown_met import WANTED, WANTED_FULL, WANTED_LACKS, case_situations
from takedown_promise import keep_promise, model_answer
from tally import Tally
from valence_cases import (OTHERS, WANTED_CHANGES, WANTED_RULES, change_situations, changed_table, check_case,
                           other_case)
from wavefront_cases import coordinate_cases, large_cases, obj_case, small_cases
from wavefront_met import WANTED as WANTED_TEXTS, obj_situations
from wavefront_promise import keep_promise as keep_text_promise

ENTRIES = (wire.CLEAR, wire.CHECK, wire.COUNT, wire.READ, wire.WRITE)
# Cases are made and asked by so many at a time, so that a long comparison needs no more memory than a short one.
PORTION = 1_000
# From the first count on a comparison has to have met every code and refusal that it can meet, from the second on every rule.
ENOUGH, PLENTY = 2_000, 10_000
# Where runs, undos and redos share a comparison, more are needed for each of them to meet everything.
ENOUGH_OF_THREE = 4_000
# Of kefs fewer are enough: each is made for what it has to meet.
KEFS_ENOUGH = 500
# From so many changed words on the small tables are asked too; from so many on each kind of change is met so often.
WORDS_MANY, WORDS_ENOUGH, CHANGED_OFTEN = 1_000, 3_000, 200
# From so many full tables on each kind of number has to be lacking so often, and so often behind steps.
FULL_ENOUGH, LACKING_OFTEN = 4_500, 100
# From so many sweeps on each of what they are made for has to be met, and most of it often.
SWEEPS_ENOUGH = 3_000
# So often histories have to be refused by each number, and half as often to meet each situation.
OFTEN = 8


def compare(driver, tally, met, cases):
    for case, answer in zip(cases, ask(driver, cases)):
        name = f"{wire.KIND_NAMES[case.kind]}: {case}"
        wanted = wire.answer_case(case)
        if tally.equal(name, answer and wire.mask_free(answer), wanted):
            met.add(case, wanted)
            met.situations.update(number_situations(case, wanted))


def portions(count, portion=PORTION):
    return [min(portion, count - place) for place in range(0, count, portion)]


def entries(driver, tally, met, rng, count):
    for kind in ENTRIES:
        cases = [CASES[kind](rng) for _ in range(count)]
        # the library reads without a table: the limits are 4,096 and 8,192
        cut = 1 if kind == wire.READ else None
        compare(driver, tally, met, [case._replace(numbers=case.numbers[:cut]) for case in cases])


def operators(driver, tally, met, rng, count):
    for size in portions(count):
        compare(driver, tally, met, [operator_case(rng) for _ in range(size)])
    if count >= ENOUGH:
        met.want_codes(tally, {"run": range(3, 10)})
        met.want_conditions(tally)
        met.want_situations(tally, wanted_padded("run", (0, *range(3, 10))))


def runs(driver, tally, met, rng, count):
    for size in portions(count):
        kinds = [rng.choice((wire.RUN, wire.UNDO, wire.REDO)) for _ in range(size)]
        compare(driver, tally, met, [CASES[kind](rng) for kind in kinds])
    if count >= ENOUGH_OF_THREE:
        met.want_codes(tally, {"run": range(10), "undo": (*range(10), 11), "redo": (*range(10), 11)})
        met.want_situations(tally, wanted_padded("run") + wanted_padded("undo") + wanted_padded("redo"))
    # Few damaged tables come as far as rule 6, so a short comparison need not meet it.
    for kind in ("run", "undo", "redo") if count >= PLENTY else ():
        met.want_rules(tally, kind)


def promise(driver, tally, met, rng, count):
    for size in portions(count):
        tell(driver, tally, met, rng, size, (just_enough, more))
    if count >= ENOUGH:
        met.want_codes(tally, {"run": [0, 1] + list(range(3, 10)), "undo": [0, 1]})
        met.want_situations(tally, ["promised, all undone by just the room for it", MENDED])


def padded(driver, tally, met, rng, count):
    """Padded cases against the model, and then the kernel's answers to them against those to their shortest forms."""
    for size in portions(count):
        cases = [rng.choice((padded_run_case, padded_undo_case, padded_redo_case))(rng) for _ in range(size)]
        compare(driver, tally, met, cases)
        keep_padded_promise(lambda asked: ask(driver, asked), tally, cases)
    if count >= ENOUGH_OF_THREE:
        met.want_situations(tally, wanted_numbers("run") + wanted_numbers("undo") + wanted_numbers("redo"))


def numbers(driver, tally, met, rng, count):
    listed = listed_cases()
    for place in range(0, len(listed), PORTION):
        compare(driver, tally, met, listed[place:place + PORTION])
    for size in portions(count):
        compare(driver, tally, met, [padded_read_case(rng) for _ in range(size)])
    if count >= ENOUGH:
        met.want_situations(tally, wanted_numbers("read"))


def takedown(driver, tally, met, rng, count):
    listed = listed_trials(LISTED + (LISTED_TOO if count >= PLENTY else ()))
    for place in range(0, len(listed), PORTION):
        compare_takedowns(driver, tally, met, listed[place:place + PORTION])
    for size in portions(count):
        compare_takedowns(driver, tally, met, [takedown_trial(rng) for _ in range(size)])
    if count >= ENOUGH:
        met.want_answers(tally, {"takedown": (0, 1, 2, 9, 10)})
        met.want_situations(tally, WANTED)
    if count >= PLENTY:
        met.want_rules(tally, "takedown")


def full(driver, tally, met, rng, count):
    """Small tables first, so that a slip shows on one that can be read."""
    for spares in NONE_OF_SOME:
        compare_takedowns(driver, tally, met, listed_trials(LISTED, spares))
    for size in portions(count, 100 * ROUND):
        compare_takedowns(driver, tally, met, full_trials(rng, size))
    if count >= FULL_ENOUGH:
        met.want_answers(tally, {"takedown": (0, 9, 10)}, LACKING_OFTEN)
        met.want_situations(tally, WANTED_FULL)
        met.want_situations(tally, WANTED_LACKS, LACKING_OFTEN)


def compare_takedowns(driver, tally, met, trials):
    """The answers to the cases, and then the promise, with what the kernel has left."""
    taken = []
    for (case, sound), answer in zip(trials, ask(driver, [trial.case for trial in trials])):
        if sound:
            tally.equal(f"made sound: {case}", check(case.links, case.points), (0, 0))
        if tally.equal(f"takedown: {case}", answer, model_answer(case)):
            met.add(case, answer)
            met.situations.update(case_situations(case, answer))
            taken += [(case, answer)] if answer.numbers[0] == 0 else []
    keep_promise(lambda cases: ask(driver, cases), tally, met, taken)


def obj(driver, tally, met, rng, count):
    """Small tables first, so that a slip shows on one that can be read."""
    compare_texts(driver, tally, met, small_cases())
    compare_texts(driver, tally, met, coordinate_cases() + large_cases(rng))
    for size in portions(count):
        compare_texts(driver, tally, met, [obj_case(rng) for _ in range(size)])
    if count >= ENOUGH:
        met.want_answers(tally, {"obj": (0, 1, 2, 5, 6, 12, 13)})
        met.want_situations(tally, WANTED_TEXTS + ["0, places of 4 digits"])
    if count >= PLENTY:
        met.want_rules(tally, "obj")


def compare_texts(driver, tally, met, cases):
    """The answers, every byte of the buffer among them, and then what a reader finds in the kernel's text."""
    for case, answer in zip(cases, ask(driver, cases)):
        if tally.equal(f"obj: {case}", answer, wire.answer_case(case)):
            met.add(case, answer)
            met.situations.update(obj_situations(case, answer))
            if answer.numbers[0] == 0:
                keep_text_promise(tally, case, answer)


def redo(driver, tally, met, rng, count):
    """Histories; half as many trips there and back; as many undos with just the room in the redo log, or a byte less."""
    for size in portions(count):
        tell_histories(driver, tally, met, rng, size)
    for size in portions(count // 2):
        compare_trips(driver, tally, met, [trip_case(rng) for _ in range(size)])
        tell(driver, tally, met, rng, size, (just_enough, a_byte_less))
    if count >= ENOUGH_OF_THREE:
        met.want_answers(tally, {"undo": (*range(10), 11), "redo": (*range(10), 11)}, OFTEN)
        met.want_situations(tally, WANTED_HISTORIES, OFTEN // 2)
        met.want_situations(tally, WANTED_TRIPS + WANTED_ROOMS)


def compare_trips(driver, tally, met, cases):
    """The answers to undos and redos, the way back of each, and undos against redos with the logs exchanged."""
    def asked(cases):
        return ask(driver, cases)

    compare(driver, tally, met, cases)
    keep_trips(asked, tally, met, cases)
    keep_exchange(asked, tally, [case for case in cases if case.kind == wire.UNDO])


def kef(driver, tally, met, rng, count):
    """Small tables first, so that a slip shows on one that can be read."""
    for size in portions(count):
        cases = [kef_case(rng) for _ in range(size)]
        compare_kefs(driver, tally, met, sorted(cases, key=lambda case: len(case.links)))
    compare_kefs(driver, tally, met, long_cases(rng))
    if count >= KEFS_ENOUGH:
        met.want_situations(tally, WANTED_CASES)


def compare_kefs(driver, tally, met, cases):
    """The answers to the cases, and then their undo and redo, which are handed what the kernel has left."""
    carried = []
    for case, answer in zip(cases, ask(driver, cases)):
        wanted = wire.answer_case(case)
        # By 1 or 2 the model would say that its check has found the table wrong.
        tally.holds(f"made sound: {case}", wanted.numbers[0] in (0, 8, 9))
        if tally.equal(f"kef: {case}", answer, wanted):
            met.add(case, answer)
            met.situations.update(kef_case_situations(case, answer))
            carried += [(case, answer)] if answer.numbers[0] == 0 else []
    undone = asked_of_each(driver, tally, met, wire.UNDO, carried)
    for case, answer in undone:
        tally.equal(f"back to the byte: {case}", (answer.links, answer.points, answer.numbers),
                    (case.links, case.points, (0, 0, 1, case.session[0])))
    done = dict((id(case), answer) for case, answer in carried)
    for case, answer in asked_of_each(driver, tally, met, wire.REDO, undone):
        left = done[id(case)]
        tally.equal(f"and forward again: {case}", answer,
                    left._replace(kind=wire.REDO, numbers=(0, 0, 1), redo=answer.redo))


def asked_of_each(driver, tally, met, kind, carried):
    """One operator undone or redone behind each answer, of pairs of a case and what the kernel has left of it."""
    cases = [left._replace(kind=kind, numbers=(1,)) for _, left in carried]
    good = []
    for (case, _), asked, answer in zip(carried, cases, ask(driver, cases)):
        if tally.equal(f"{wire.KIND_NAMES[kind]} of a kef: {case}", answer, wire.answer_case(asked)):
            met.add(asked, answer)
            good.append((case, answer))
    return good


def words(driver, tally, met, rng, count):
    """One vertex word changed, by the check and by another call; then small tables, where a slip can be read."""
    for size in portions(count):
        compare_changes(driver, tally, met, rng, [changed_table(rng) for _ in range(size)])
    if count >= WORDS_MANY:
        cases = operator_cases()
        tally.equal("operators that small tables accept", len(cases), ACCEPTED)
        for place in range(0, len(cases), PORTION):
            compare(driver, tally, met, cases[place:place + PORTION])
        met.want_codes(tally, {"run": [0, 2]})
    if count >= WORDS_ENOUGH:
        met.want_situations(tally, WANTED_CHANGES, CHANGED_OFTEN)
        met.want_situations(tally, WANTED_RULES)
        for kind in OTHERS:
            met.want_rules(tally, wire.KIND_NAMES[kind], [1, 2, 5])


def compare_changes(driver, tally, met, rng, changes):
    """What the check answers, and another call that is lent the same table."""
    compare(driver, tally, met, [other_case(rng, change) for change in changes])
    for change, answer in zip(changes, ask(driver, [check_case(change) for change in changes])):
        wanted = wire.answer_case(check_case(change))
        if tally.equal(f"check: {change}", answer, wanted):
            met.add(check_case(change), wanted)
            met.situations.update(change_situations(change, wanted.numbers))


def sweep(driver, tally, met, rng, count):
    """Small tables first, so that a slip shows on one that can be read. What has to be met has to be met by the others.
    """
    listed, seen = small_sweeps() + range_cases() + longest_sweeps(rng), Met()
    for place in range(0, len(listed), PORTION):
        compare_sweeps(driver, tally, seen, listed[place:place + PORTION])
    want_small(tally, seen)
    for size in portions(count):
        compare_sweeps(driver, tally, met, [sweep_case(rng) for _ in range(size)])
    if count >= SWEEPS_ENOUGH:
        want_sweeps(tally, met)


def compare_sweeps(driver, tally, met, cases):
    """The answers to the cases, and then the promise, with what the library has left."""
    lifted = []
    for case, answer in zip(cases, ask(driver, cases)):
        if tally.equal(f"sweep: {case}", answer, wire.answer_case(case)):
            add_sweep(met, case, answer)
            lifted += [(case, answer)] if answer.numbers[0] == 0 else []
    keep_sweep_promise(lambda asked: ask(driver, asked), tally, met, lifted)


# Name, comparison, and the count with which the gate runs it.
MODES = {"entries": (entries, 500), "operators": (operators, 3_000), "runs": (runs, 4_500), "promise": (promise, 2_000),
         "padded": (padded, 4_500), "numbers": (numbers, 2_000), "takedown": (takedown, 5_000),
         "full": (full, 4_500), "obj": (obj, 5_000), "kef": (kef, 500), "redo": (redo, 4_000), "words": (words, 3_000),
         "sweep": (sweep, 3_000)}


def run_mode(driver, name, count, seed):
    work, usual = MODES[name]
    count, tally, met, began = count or usual, Tally(), Met(), time.time()
    work(driver, tally, met, seeded(seed), count)
    print(f"{name}: {count} cases{' of each kind' if name == 'entries' else ''}, seed {seed}, {time.time() - began:.0f} s, "
          f"{tally.passed} passed, {tally.failed} failed")
    met.show()
    return tally


def main(arguments):
    kernel, arguments = library_given(arguments)
    mode, count, seed = (arguments + ["all", "0", "1"][len(arguments):])[:3]
    if mode != "all" and mode not in MODES:
        print(__doc__)
        return 2
    with tempfile.TemporaryDirectory() as folder:
        driver = build_driver(folder, kernel)
        tallies = [run_mode(driver, name, int(count), int(seed)) for name in (MODES if mode == "all" else [mode])]
    passed, failed = sum(t.passed for t in tallies), sum(t.failed for t in tallies)
    print(f"{passed} passed, {failed} failed")
    return 0 if failed == 0 and passed > 0 else 1


if __name__ == "__main__":
    sys.exit(main(sys.argv[1:]))
