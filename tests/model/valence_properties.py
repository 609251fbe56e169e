"""The vertex word (document 02, job 5) on random tables.

The model counts the word each time it writes a table. Here it is added up instead: what each operator does to it,
by the text of the operators, taken one by one.
"""

from collections import Counter

import generate
from boundary import Boundary
from layout import mate
from operators import carry_out
from properties import words_of
from rules import check, count
from script import PATTERNS, describe
from small_tables import ACCEPTED, SIZES, TABLES, accepted_operators, all_tables, listed_tables, table_at_zero
from valence_cases import WANTED_CHANGES, WANTED_RULES, change_situations, changed_table

# The operators that make an edge between old corners, and those that kill one and no vertex.
JOINING, PARTING = ("mef", "mekr"), ("kef", "kemr")


def words(table):
    return {vertex: record[0] for vertex, record in table.used("vertex").items()}


def starts_of(table, half):
    """Where the two halves of an edge start."""
    return [table.record("half", one)[0] for one in (half, mate(half))]


def corner(table, loop, half):
    return table.record("half", half)[0] if half else table.record("loop", loop)[2]


def added_up(table, op):
    """The words behind an accepted operator, from those before it; nothing is counted."""
    name, args, after = PATTERNS[op.code][0], op.args, Counter(words(table))
    if name == "mvsf":
        after[args[3]] = 1
    elif name == "kvsf":
        del after[lone_of_solid(table, args[0])]
    elif name == "mev":
        after[args[3]] = 2
        after[corner(table, *args[:2])] += 1
    elif name == "kev":
        near, far = starts_of(table, args[0])
        after[near] -= 1
        del after[far]
    elif name in JOINING:
        after.update(joined(table, name, args))
    elif name in PARTING:
        after.subtract(starts_of(table, args[0]))
    elif name == "semv":
        after[args[2]] = 3
    elif name == "jekv":
        del after[starts_of(table, table.record("half", args[0])[2])[0]]
    return dict(after)


def joined(table, name, args):
    """The two corners' vertices."""
    loops = (args[0], args[0]) if name == "mef" else (args[0], args[2])
    halves = (args[1], args[2]) if name == "mef" else (args[1], args[3])
    return [corner(table, *one) for one in zip(loops, halves)]


def lone_of_solid(table, solid):
    (outer,) = [words[1] for words in table.used("face").values() if words[0] == solid]
    return table.record("loop", outer)[2]


def word_situations(before, after, op):
    """At how many vertices an operator on an edge works; the names are met or the property shows little."""
    name = PATTERNS[op.code][0]
    yield name
    if name in JOINING:
        yield f"{name} at {len(set(joined(before, name, op.args)))} vertices"
    if name in PARTING:
        yield f"{name} at {len(set(starts_of(before, op.args[0])))} vertices"
    if name == "semv":
        yield f"semv between {len(set(starts_of(before, op.args[0])))} vertices"
    if name == "jekv":
        yield f"jekv between {len(set(starts_of(after, op.args[0])))} vertices"


WANTED = [name for name, _ in PATTERNS.values()]
WANTED += [f"{name} at {n} vertices" for name in JOINING + PARTING for n in (1, 2)]
WANTED += [f"{name} between {n} vertices" for name in ("semv", "jekv") for n in (1, 2)]


def words_add_up(tally, rng, scale):
    """Operator by operator on random tables; carried out, the counted words are those that were added up."""
    met = Counter()
    for _ in range(int(400 * scale)):
        table = generate.random_table(rng)
        for _ in range(10 if len(table.links) < 600 else 1):
            b = Boundary(table)
            op = generate.valid_operator(rng, b, generate.EVEN)
            if op is None:
                break
            wanted = added_up(table, op)
            carry_out(b, op)
            after = generate.table_of(b)
            tally.equal(f"words after {describe(op)} on {table.links}", words(after), wanted)
            met.update(word_situations(table, after, op))
            table = after
    for situation in WANTED if scale >= 1 else ():
        tally.holds(f"met: {situation}", met[situation] > 0)


def small_words_add_up(tally, _rng, scale):
    """The same of every operator that a sound table of capacities 1 or 2 accepts."""
    tables = all_tables() if scale >= 1 else sorted(listed_tables(SIZES[0]))
    accepted = 0
    for links in tables:
        for op in accepted_operators(links):
            table = table_at_zero(links)
            b, wanted = Boundary(table), added_up(table, op)
            carry_out(b, op)
            after = generate.table_of(b)
            tally.equal(f"{describe(op)} on {links}", (words(after), check(*words_of(after))), (wanted, (0, 0)))
            accepted += 1
    if scale >= 1:
        tally.equal("small tables, accepted operators", (len(tables), accepted), (TABLES, ACCEPTED))


def words_say_the_edges(tally, rng, scale):
    """Of a sound table the words less 1 sum up to twice the edges."""
    for _ in range(int(200 * scale)):
        table = generate.random_table(rng)
        edges = count(*words_of(table))[5]
        tally.equal("twice the edges", sum(word - 1 for word in words(table).values()), 2 * edges)


def changed_words(tally, rng, scale):
    """One word changed: the rule that is named follows from the change alone."""
    met = Counter()
    for _ in range(int(1_500 * scale)):
        change = changed_table(rng)
        tally.equal(f"{change}", check(change.links, change.points), expected(change))
        met.update(change_situations(change, check(change.links, change.points)))
    for situation in WANTED_CHANGES + WANTED_RULES if scale >= 1 else ():
        tally.holds(f"met: {situation}", met[situation] > 0)


def expected(change):
    """By "0 is still free" and "Rule 5 of soundness tests it, rule 1 no longer does"; all vertices in use are named."""
    if change.word == change.before:
        return 0, 0
    if change.word != 0:
        return 2, 5
    point = change.points[3 * change.vertex - 3:3 * change.vertex]
    return 2, 1 if any(point) else 2


VALENCE_PROPERTIES = (words_add_up, small_words_add_up, words_say_the_edges, changed_words)
