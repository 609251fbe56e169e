"""Wire cases of the vertex word (document 02, job 5): sound tables with one vertex word changed, and what was met."""

from collections import namedtuple

import wire
from cases import any_bytes
from generate import random_table

MOST = 65_535
# How a word is changed; a free vertex has no word that is one less.
CHANGES = {"0": lambda word: 0, "1": lambda word: 1, "one more": lambda word: word + 1,
           "one less": lambda word: word - 1, "65,535": lambda word: MOST}
# A table with the word of one vertex changed from what it was before.
Change = namedtuple("Change", "links points vertex before word how")


def changed_table(rng):
    """A vertex in use two times of three, where there is one; the other ones are free."""
    table = random_table(rng)
    how, used = rng.choice(list(CHANGES)), list(table.used("vertex"))
    while how == "one less" and not used:
        table = random_table(rng)
        used = list(table.used("vertex"))
    free = sorted(set(table.numbers("vertex")) - set(used))
    vertex = rng.choice(used if used and (how == "one less" or not free or rng.random() < 0.67) else free)
    if rng.random() < 0.5:
        # A free record is zero, its point included: by its point a word of 0 breaks rule 1 or goes on to rule 2.
        table.put_point(vertex, (0, 0, 0))
    (before,) = table.record("vertex", vertex)
    word = CHANGES[how](before)
    table.put_record("vertex", vertex, (word,))
    return Change(table.links, table.points, vertex, before, word, how)


def change_situations(change, answer):
    """What was changed, and what is answered to it: 0, or the rule behind refusal 2."""
    yield f"changed: {change.how}"
    yield f"changed: at a vertex {'in use' if change.before else 'that is free'}"
    yield f"changed: rule {answer[1]}" if answer[0] else "changed: to what it was, sound"


WANTED_CHANGES = [f"changed: {how}" for how in CHANGES]
WANTED_RULES = ["changed: to what it was, sound", "changed: rule 1", "changed: rule 2", "changed: rule 5",
                "changed: at a vertex in use", "changed: at a vertex that is free"]


# The same table lent to each call that looks at one

def check_case(change):
    return wire.case(wire.CHECK, (), change.links, change.points)


def other_case(rng, change):
    """Another call than the check, which has to name the same rule."""
    kind = rng.choice(list(OTHERS))
    log, redo = any_bytes(rng, 200), any_bytes(rng, 40)
    session = (len(log), len(redo)) if kind in (wire.RUN, wire.UNDO, wire.REDO, wire.TAKEDOWN) else ()
    return wire.case(kind, OTHERS[kind], change.links, change.points, log, b"", redo, session)


# By call, its numbers: nothing is undone or redone, solid 1 is written.
OTHERS = {wire.COUNT: (), wire.RUN: (), wire.UNDO: (0,), wire.REDO: (0,), wire.TAKEDOWN: (), wire.OBJ: (1,)}
