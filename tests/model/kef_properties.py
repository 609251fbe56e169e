"""How kef relabels the run, by document 02 (job 3), on the words of a table and on the model alone.

    "... relabel the run where it sits ...: at each half-edge passed, those behind name the kept loop, those ahead the
    killed one, and besides only the killed edge's loop words differ."

The run is the rest of k's loop, from next of k up to before k. The document leaves it open whether the killed edge's
two loop words have changed by then; ours have not, so besides nothing differs. Both readings are asked of the walk, and
wrong walks show what either of them refuses. The words of the edge's two vertices, which kef takes one off (job 5), are
no part of the walk.
"""

from collections import Counter, namedtuple

from boundary import Boundary
from generate import random_table, renumbered
from kef_met import RESTS, WANTED_KEFS, kef_situations
from kernel import Session, run
from layout import Table, mate
from operators import plan
from rules import check
from script import operator, operator_bytes
from takedown import LONGEST_OPERATOR
from takedown_tables import capacities_with, some_body

# The words of a half-edge's record.
START, LOOP, NEXT, PREVIOUS = range(4)

# Where the sentence fails: after how many half-edges of the run, in which clause, and at which place in links.
Fault = namedtuple("Fault", "passed clause place")


# Words of half-edges

def word_place(table, half, word):
    return table.place("half", half) + word


def loop_place(table, half):
    return word_place(table, half, LOOP)


def loop_word(table, half):
    return table.record("half", half)[LOOP]


def following(table, half):
    return table.record("half", half)[NEXT]


def edge_vertices(table, k):
    """The two vertices of k's edge, which may be one."""
    return [table.record("half", half)[START] for half in (k, mate(k))]


def run_behind(table, k):
    """The rest of k's loop in the order of next."""
    found = []
    while (half := following(table, (found or [k])[-1])) != k:
        found.append(half)
    return found


# The walk, as stores: pairs of a place in links and the word that goes there. So no walk can reach the points.

def walk(table, k):
    """Asked for its next store only after the last one was done, it reads the words as they are by then."""
    half = following(table, k)
    while half != k:
        yield loop_place(table, half), loop_word(table, mate(k))
        half = following(table, half)


# The sentence

def edge_places(table, k):
    """The killed edge's loop words."""
    return {loop_place(table, half) for half in (k, mate(k))}


def clauses(table, k, passed):
    """The words that the sentence names after so many half-edges, by place: which of its clauses, and the word."""
    halves, kept, killed = run_behind(table, k), loop_word(table, mate(k)), loop_word(table, k)
    named = {loop_place(table, half): ("behind", kept) for half in halves[:passed]}
    return named | {loop_place(table, half): ("ahead", killed) for half in halves[passed:]}


def moment_faults(before, words, k, passed, document):
    """Looks at every word of links; before is the table as kef found it."""
    named, free = clauses(before, k, passed), edge_places(before, k) if document else ()
    if len(words) != len(before.links):
        return [Fault(passed, "length", len(words))]
    wanted = [named.get(place, ("besides", was)) for place, was in enumerate(before.links)]
    return [Fault(passed, clause, place) for place, (word, (clause, wanted_word)) in enumerate(zip(words, wanted))
            if word != wanted_word and place not in free]


def walk_faults(before, k, stores_of, document=False):
    """Does a walk's stores one by one; answers the links at its end, and the faults of each moment that has any.

    Moments are before the first store and after each. A store passes a half-edge of the run, but one to the killed
    edge's loop words passes none, and at the end all are passed.
    """
    now, passed = Table(list(before.links), before.points), 0
    besides, length = edge_places(before, k), len(run_behind(before, k))
    moments = [moment_faults(before, now.links, k, passed, document)]
    for place, word in stores_of(now, k):
        now.links[place] = word
        passed += place not in besides
        moments.append(moment_faults(before, now.links, k, passed, document))
    moments.append([Fault(passed, "end", length)] if passed != length else [])
    return now.links, [faults for faults in moments if faults]


# Accepted kefs on random sound tables

def any_table(rng):
    """As operators leave them, or written down by a stranger: more loops, and more edges between two of them."""
    if rng.random() < 0.3:
        return random_table(rng)
    b = some_body(rng)[0]
    return renumbered(rng, b, capacities_with(b, [rng.choice((0, 1, 3)) for _ in range(5)]))


def accepted_kefs(b):
    return [k for k in sorted(b.start) if plan(b, operator("kef", k))[0] == 0]


def some_kefs(rng, count):
    """So many kefs that the model accepts, as pairs of a sound table and k; a few of each table at most."""
    found = []
    while len(found) < count:
        table = any_table(rng)
        accepted = accepted_kefs(Boundary(table))
        found += [(table, k) for k in rng.sample(accepted, min(3, len(accepted)))]
    return found


def left_by_kef(table, k):
    """The model's own kef: its answer, and the table that it leaves."""
    links, points = list(table.links), list(table.points)
    answer = run(links, points, bytearray(LONGEST_OPERATOR), b"", Session(LONGEST_OPERATOR),
                 operator_bytes(operator("kef", k)))
    return answer[:3], Table(links, points)


def spliced_places(table, k):
    """The words that kef may change beside those of the run: killed records, the kept loop, the words of the edge's
    vertices, and where the ends meet."""
    m = mate(k)
    kept, loop = loop_word(table, m), loop_word(table, k)
    changed = [("half", k), ("half", m), ("loop", loop), ("face", table.record("loop", loop)[0]), ("loop", kept)]
    changed += [("vertex", vertex) for vertex in edge_vertices(table, k)]
    places = {table.place(*item) + word for item in changed for word in range(len(table.record(*item)))}
    ends = [(table.record("half", half)[NEXT], table.record("half", half)[PREVIOUS]) for half in (k, m)]
    return places | {place for after, before in ends
                     for place in (word_place(table, after, PREVIOUS), word_place(table, before, NEXT))}


def relabelled_where_it_sits(tally, rng, scale):
    """The sentence at each moment and on every word; after the walk, the loop words that the model's kef leaves."""
    met = Counter()
    for table, k in some_kefs(rng, int(1_500 * scale)):
        name = f"kef {k} on {table.links}"
        tally.equal(f"sound: {name}", check(table.links, table.points), (0, 0))
        links, faults = walk_faults(table, k, walk)
        tally.equal(f"our reading: {name}", faults, [])
        tally.equal(f"the document's reading: {name}", walk_faults(table, k, walk, document=True), (links, []))
        same_as_kef(tally, name, table, k, Table(links, table.points))
        met.update(kef_situations(Boundary(table), k))
    # Fewer cases than by default cannot be asked to meet everything.
    for situation in WANTED_KEFS if scale >= 1 else ():
        tally.holds(f"met: {situation}", met[situation] > 0)
    tally.holds("a thousand kefs", sum(met[name] for name in RESTS.values()) >= min(1_000, int(1_000 * scale)))


def same_as_kef(tally, name, before, k, walked):
    """The model derives loop words from lists, so it knows of no walk: where both have a word, they have the same."""
    answer, after = left_by_kef(before, k)
    tally.equal(f"accepted: {name}", answer, (0, 0, 1))
    left = after.used("half")
    tally.equal(f"kills its edge: {name}", set(before.used("half")) - set(left), {k, mate(k)})
    tally.equal(f"loop words after the walk: {name}", {half: loop_word(walked, half) for half in left},
                {half: words[LOOP] for half, words in left.items()})
    changed = {place for place, (one, two) in enumerate(zip(walked.links, after.links)) if one != two}
    tally.equal(f"the rest is the splice: {name}", changed - spliced_places(before, k), set())
    tally.equal(f"points: {name}", after.points, before.points)


# Wrong walks, each of which has to be noticed wherever the run is long enough for it

def begun_at_k(table, k):
    """Relabels k too: the document allows it, our reading does not."""
    yield loop_place(table, k), loop_word(table, mate(k))
    yield from walk(table, k)


def mate_relabelled(table, k):
    """Gives the mate the killed loop behind the run: allowed by the document alone as well."""
    yield from list(walk(table, k))
    yield loop_place(table, mate(k)), loop_word(table, k)


def one_short(table, k):
    yield from list(walk(table, k))[:-1]


def one_too_many(table, k):
    """Goes on past k."""
    yield from list(walk(table, k))
    yield loop_place(table, following(table, k)), loop_word(table, mate(k))


def killed_number(table, k):
    """Stores what is there already, once."""
    (place, _), *others = list(walk(table, k))
    yield from [(place, loop_word(table, k))] + others


def one_ahead(table, k):
    """The second before the first."""
    first, second, *others = list(walk(table, k))
    yield from [second, first] + others


def backwards(table, k):
    """The run by previous."""
    yield from reversed(list(walk(table, k)))


def next_cut(table, k):
    """Writes the splice too early: next of the run's last leads to the others while it is still to be passed."""
    *stores, last = list(walk(table, k))
    yield from stores + [(word_place(table, run_behind(table, k)[-1], NEXT), following(table, mate(k))), last]


# By walk: how long a run it needs, the clauses that it breaks when it first breaks one, and whether the document's
# reading refuses it too.
WRONG_WALKS = {begun_at_k: (0, {"besides"}, False), mate_relabelled: (0, {"besides"}, False),
               one_short: (1, {"end"}, True), one_too_many: (1, {"end"}, True), killed_number: (1, {"behind"}, True),
               one_ahead: (2, {"behind", "ahead"}, True), backwards: (2, {"behind", "ahead"}, True),
               next_cut: (1, {"behind", "besides"}, True)}


def wrong_walks_are_noticed(tally, rng, scale):
    """The checker of the sentence is no good if it takes these."""
    met = Counter()
    for table, k in some_kefs(rng, int(150 * scale)):
        length = len(run_behind(table, k))
        for stores_of, (needed, broken, refused) in WRONG_WALKS.items():
            if length < needed:
                continue
            name = f"{stores_of.__name__}: kef {k} on {table.links}"
            ours, weaker = (walk_faults(table, k, stores_of, document)[1] for document in (False, True))
            tally.equal(f"our reading refuses {name}", {fault.clause for fault in (ours or [[]])[0]}, broken)
            tally.equal(f"the document's reading of {name}", bool(weaker), refused)
            met[stores_of] += 1
    for stores_of in WRONG_WALKS if scale >= 1 else ():
        tally.holds(f"met: {stores_of.__name__}", met[stores_of] > 0)


KEF_PROPERTIES = (relabelled_where_it_sits, wrong_walks_are_noticed)
