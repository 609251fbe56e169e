"""Watches the compiled kernel in the middle of kef: python3 tests/model/watch_kef.py [COUNT [SEED]] [--library ARCHIVE]

Document 02, job 3: kef "shall use no scratch memory and relabel the run where it sits, proved so: at each half-edge
passed, those behind name the kept loop, those ahead the killed one, and besides only the killed edge's loop words
differ." It is proved of the source; here each store of the machine's code to links and points is caught
(tests/driver/stores.c), and the sentence is held against every word of the table behind each of them, up to the last of
the run. Read as it is proved: besides nothing differs, the killed edge's loop words neither, and the words of its two
vertices, which kef takes one off (job 5), go down behind the walk. Scratch memory is looked for in stack_use.py.

COUNT random tables of each situation (60 by default) besides loops of 3 to 1,000 half-edges. Where stores cannot be
watched (they can on Linux on x86-64), that is said and only the answers are counted. Prints 'N passed, M failed' as its
last line.
"""

import sys
import tempfile
import time
from collections import Counter, namedtuple
from itertools import groupby

import wire
from cases import operator_case
from generate import seeded
from kef_met import RESTS
from kef_properties import WRONG_WALKS, edge_vertices, loop_place, loop_word, mate_relabelled, run_behind, some_kefs
from kef_properties import walk as walk_right
from layout import Table, mate
from library import archive, ask, build_driver, library_given, sweep_beside
from stack_use import compare_stacks
from tally import Tally
from watch_cases import long_kefs, random_kefs

# How many numbers the usual answer has; behind them come whether stores are watched, and the stores, by four numbers.
USUAL = {wire.RUN: 5, wire.UNDO: 4, wire.REDO: 3}
OTHERS = 100

Store = namedtuple("Store", "moment place before after")


def parted(answer):
    """The usual answer, whether stores are watched, and the stores."""
    usual = USUAL[answer.kind]
    told = answer.numbers[usual + 1:]
    stores = [Store(*told[place:place + 4]) for place in range(0, len(told), 4)]
    return answer._replace(numbers=answer.numbers[:usual]), answer.numbers[usual] == 1, stores


def words_of(frame):
    """All words as stores name them: those of points behind those of links."""
    return list(frame.links) + [number % (1 << 32) for number in frame.points]


def moments(stores):
    """The stores of each instruction, in order."""
    return [list(together) for _, together in groupby(stores, lambda store: store.moment)]


def replayed(before, stores):
    """The words behind all stores; None where a store found another value than the one before has left."""
    words = list(before)
    for store in stores:
        if words[store.place] != store.before:
            return None
        words[store.place] = store.after
    return words


# kef

def broken(before, run, kept, stores):
    """Where the document's sentence does not hold: behind which instruction, and the words that it says other things of
    (place, value, what it has to be). None where it holds up to the last of the run; where the run is empty there is no
    moment to look at. An instruction may pass one half-edge, not two: the sentence is about each."""
    words, wanted, passed = list(before), list(before), 0
    for number, together in enumerate(moments(stores)):
        if passed == len(run):
            break
        for store in together:
            words[store.place] = store.after
        if words[run[passed]] == kept:
            wanted[run[passed]] = kept
            passed += 1
        if words != wanted:
            return number, [(place, *pair) for place, pair in enumerate(zip(words, wanted)) if pair[0] != pair[1]]
    return None if passed == len(run) else ("the end", passed)


def run_of(table, k):
    """The places of the run's loop words in the order of next, and the word that goes there."""
    return [loop_place(table, half) for half in run_behind(table, k)], loop_word(table, mate(k))


def along(run, stores):
    """Which of the run's loop words are stored to, in the order of the stores."""
    among = set(run)
    return [store.place for store in stores if store.place in among]


def watch_one(tally, kef, answer):
    """Answers whether stores were watched."""
    name, (got, watches, stores) = f"kef {kef.k}, {kef.situation}, {kef.case}", parted(answer)
    model = wire.answer_case(kef.case)
    tally.equal(f"answer: {name}", got, model)
    tally.equal(f"accepted: {name}", got.numbers[:3], (0, 0, 1))
    if not watches:
        return False
    before = words_of(kef.case)
    run, kept = run_of(Table(kef.case.links, kef.case.points), kef.k)
    tally.equal(f"each of the run stored to once, in the order of next: {name}", along(run, stores), run)
    tally.equal(f"the sentence behind each store: {name}", broken(before, run, kept, stores), None)
    tally.equal(f"no point stored to: {name}", [s for s in stores if s.place >= len(kef.case.links)], [])
    tally.equal(f"the stores make the table: {name}", replayed(before, stores), words_of(model))
    return True


def watch_kefs(driver, tally, kefs):
    """Answers how many were watched in each situation."""
    met = Counter()
    for kef, answer in zip(kefs, ask(driver, [kef.case for kef in kefs])):
        if tally.holds(f"answered: kef {kef.k}, {kef.case}", answer is not None):
            met[kef.situation] += watch_one(tally, kef, answer)
    return met


# That the watch misses nothing

# Behind the last half-edge of the run the walk is over and the edge comes out: the sentence says nothing any more.
BEHIND_THE_RUN = (mate_relabelled,)


def told(table, k, walk):
    """The stores of one of the model's walks, as the driver tells them."""
    now, stores = Table(list(table.links), table.points), []
    for place, word in walk(now, k):
        stores.append(Store(len(stores), place, now.links[place], word))
        now.links[place] = word
    return stores


def taken(table, k, stores):
    """Whether all that is looked for up to the last of the run is found."""
    run, kept = run_of(table, k)
    return broken(table.links, run, kept, stores) is None and along(run, stores) == run


def refuse_wrong_walks(tally, rng, count):
    """The model's wrong walks, told as the driver tells stores, are each refused by the sentence or by the order."""
    for table, k in some_kefs(rng, count):
        length = len(run_behind(table, k))
        for walk, (needed, _, _) in WRONG_WALKS.items():
            if walk not in BEHIND_THE_RUN and length >= max(needed, 1):
                found = taken(table, k, told(table, k, walk))
                tally.holds(f"{walk.__name__} is refused: kef {k} on {table.links}", not found)


def with_words(before, amid):
    """The right walk, with so many of the two vertices' words lowered before it, and so many behind its first store."""
    def stores(table, k):
        words = [table.place("vertex", vertex) for vertex in edge_vertices(table, k)]
        yield from ((place, table.links[place] - 1) for place in words[:before])
        for passed, store in enumerate(walk_right(table, k)):
            yield store
            yield from ((place, table.links[place] - 1) for place in words[before:before + amid] if passed == 0)
        yield from ((place, table.links[place] - 1) for place in words[before + amid:])
    return stores


def refuse_words_early(tally, rng, count):
    """The words of the edge's vertices go down behind the walk; before it or amid is refused."""
    for table, k in some_kefs(rng, count):
        if len(run_behind(table, k)) < 2:
            continue
        for before, amid in ((2, 0), (0, 0), (1, 0), (1, 1), (0, 1), (0, 2)):
            found = taken(table, k, told(table, k, with_words(before, amid)))
            name = f"words, {before} before and {amid} amid: kef {k} on {table.links}"
            tally.equal(name, found, before + amid == 0)


def watch_others(driver, tally, rng, count):
    """Scripts of any operator: the stores that are told make the table that is left, points too, so no change goes
    untold. Answers how many stores to points were met, and whether stores are watched here."""
    cases, to_points, watches = [operator_case(rng) for _ in range(count)], 0, True
    for case, answer in zip(cases, ask(driver, cases)):
        if not tally.holds(f"answered: {case}", answer is not None):
            continue
        got, watches, stores = parted(answer)
        tally.equal(f"answer: {case}", got, wire.answer_case(case))
        if watches:
            tally.equal(f"the stores make the table: {case}", replayed(words_of(case), stores), words_of(got))
            to_points += sum(store.place >= len(case.links) for store in stores)
    return to_points, watches


def watch_all(tally, driver, rng, count):
    refuse_wrong_walks(tally, rng, OTHERS)
    refuse_words_early(tally, rng, OTHERS)
    to_points, watches = watch_others(driver, tally, rng, OTHERS)
    met = watch_kefs(driver, tally, random_kefs(rng, count) + long_kefs(rng))
    if not watches:
        print("stores cannot be watched here (Linux on x86-64 is needed): only the answers were compared")
        return
    tally.holds("stores to points are seen", to_points > 0)
    for name in RESTS.values():
        tally.holds(f"met: {name}", met[name] >= count)
    print("  watched: " + ", ".join(f"{name}: {met[name]}" for name in RESTS.values()))


def main(arguments):
    kernel, arguments = library_given(arguments)
    count, seed = (int(n) for n in (arguments + [60, 1][len(arguments):])[:2])
    rng, tally, began = seeded(seed), Tally(), time.time()
    kernel, sweep = (kernel, sweep_beside(kernel)) if kernel else (archive(), archive("sweep"))
    with tempfile.TemporaryDirectory() as folder:
        print(f"stores of kef: {count} random tables of each situation, seed {seed}")
        watch_all(tally, build_driver(folder, kernel, "stores"), rng, count)
        compare_stacks(tally, build_driver(folder, kernel, "stack"), (kernel, sweep), rng)
    print(f"{time.time() - began:.0f} s")
    print(f"{tally.passed} passed, {tally.failed} failed")
    return 0 if tally.failed == 0 and tally.passed > 0 else 1


if __name__ == "__main__":
    sys.exit(main(sys.argv[1:]))
