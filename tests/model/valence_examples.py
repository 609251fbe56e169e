"""Hand-made cases of the vertex word, by document 02 (job 5): "1 plus the number of half-edges starting there; 0 is
still free. Rule 5 of soundness tests it, rule 1 no longer does, and all operators keep it."
"""

from examples import B, C, D, SMALL, Desk
from layout import Table
from operator_examples import HANDLE, LINE, LONE_RING, MVSF, ONLY_RING_SHARED, TWO_FACES, WIDE, mev
from rules import RULES, check, count
from script import operator, script_bytes

CIRCLE = [operator("mef", 1, 0, 0, 1, 2, 2, 0)]
LONG_LINE = LINE + [mev(1, 4, 3, 4)]
TWO_SOLIDS = [operator("mvsf", 2, 2, 2, 2, 0, 0, 0)]
SPLIT = operator("semv", 1, 3, 4, 0, 0, 0, 0)

# Operators behind MVSF, and the words of the vertices in use that the last of them leaves, as a person counts them.
WORDS = [
    ("mvsf: nothing starts there", [], {1: 1}),
    ("kvsf: free again", [operator("kvsf", 1)], {}),
    ("mvsf of a second solid", TWO_SOLIDS, {1: 1, 2: 1}),
    ("kvsf of one of two solids", TWO_SOLIDS + [operator("kvsf", 1)], {2: 1}),
    ("mev at a lone loop", LINE[:1], {1: 2, 2: 2}),
    ("mev: one more at the corner, 2 at the new one", LINE, {1: 2, 2: 3, 3: 2}),
    ("kev: the lone vertex has 1 again", LINE[:1] + [operator("kev", 1)], {1: 1}),
    ("kev of the mate", LINE[:1] + [operator("kev", 2)], {2: 1}),
    ("kev at the end of a line", LINE + [operator("kev", 3)], {1: 2, 2: 2}),
    ("mef at a lone loop: two more at one vertex", CIRCLE, {1: 3}),
    ("mef between two vertices", TWO_FACES, {1: 3, 2: 3}),
    ("mef at equal corners: two more", LINE[:1] + [operator("mef", 1, 2, 2, 2, 2, 2, 0)], {1: 2, 2: 4}),
    ("mef at equal corners, way 2: two more", LINE[:1] + [operator("mef", 1, 2, 2, 2, 2, 2, 2)], {1: 2, 2: 4}),
    ("mef between two corners of one vertex", LINE + [operator("mef", 1, 3, 2, 3, 2, 2, 0)], {1: 2, 2: 5, 3: 2}),
    ("kef of the only edge", CIRCLE + [operator("kef", 2)], {1: 1}),
    ("kef between two vertices", TWO_FACES + [operator("kef", 3)], {1: 2, 2: 2}),
    ("kef at one vertex", LINE + [operator("mef", 1, 3, 2, 3, 2, 2, 0), operator("kef", 6)], {1: 2, 2: 3, 3: 2}),
    ("kemr of the only edge", LONE_RING, {1: 1, 2: 1}),
    ("kemr in the middle", LONG_LINE + [operator("kemr", 3, 3)], {1: 2, 2: 2, 3: 2, 4: 2}),
    ("mekr of two lone loops", LONE_RING + [operator("mekr", 1, 0, 2, 0, 3, 1)], {1: 2, 2: 2}),
    ("mekr of two loops at one vertex", HANDLE + [operator("mekr", 1, 1, 2, 2, 2, 0)], {1: 5}),
    ("kemr at one vertex", HANDLE + [operator("mekr", 1, 1, 2, 2, 2, 0), operator("kemr", 3, 2)], {1: 3}),
    ("kfmrh: nothing", HANDLE, {1: 3}),
    ("kfmrh of two solids: nothing", TWO_SOLIDS + [operator("kfmrh", 1, 2)], {1: 1, 2: 1}),
    ("mfkrh: nothing", HANDLE + [operator("mfkrh", 2, 2, 0)], {1: 3}),
    ("mfkrh with a new solid: nothing", LONE_RING + [operator("mfkrh", 2, 2, 2)], {1: 1, 2: 1}),
    ("semv: 3 at the new one, the ends as they were", LINE + [SPLIT], {1: 2, 2: 3, 3: 2, 4: 3}),
    ("semv of an edge at one vertex", CIRCLE + [operator("semv", 1, 2, 2, 0, 0, 0, 0)], {1: 3, 2: 3}),
    ("jekv: free again, the ends as they were", LINE + [SPLIT, operator("jekv", 1)], {1: 2, 2: 3, 3: 2}),
    ("jekv to an edge at one vertex",
     CIRCLE + [operator("semv", 1, 2, 2, 0, 0, 0, 0), operator("jekv", 3)], {2: 3}),
    ("rmov: nothing", ONLY_RING_SHARED + [operator("rmov", 2, 1)], {1: 1, 2: 3}),
]


def vertex_words(desk):
    return {vertex: words[0] for vertex, words in Table(desk.links, desk.points).used("vertex").items()}


def words_by_operator(tally):
    """The words behind the last operator, and that undo and redo bring back those before it and behind it."""
    for name, operators, wanted in WORDS:
        desk = Desk(WIDE)
        last = operators[-1:] or [MVSF]
        before = ([MVSF] + operators)[:-1]
        tally.equal(f"{name}: before", desk.run(script_bytes(before))[:3], (0, 0, len(before)))
        state = desk.state()
        tally.equal(f"{name}: run", desk.run(script_bytes(last))[:3], (0, 0, 1))
        tally.equal(f"{name}: words", vertex_words(desk), wanted)
        after = desk.state()
        tally.equal(f"{name}: sound", check(*after), (0, 0))
        tally.equal(f"{name}: undone", (desk.undo(1)[:3], desk.state()), ((0, 0, 1), state))
        tally.equal(f"{name}: redone", (desk.redo(1)[:3], desk.state()), ((0, 0, 1), after))


def words_of_the_document(tally):
    """"The links shown in 01's case b stay true; after c both vertices hold 2." After d, by the same sentence, 3."""
    desk = Desk(SMALL)
    for name, script, words in (("b", B, [1, 0]), ("c", C, [2, 2]), ("d", D, [3, 3])):
        desk.run(script)
        tally.equal(f"case {name}: vertex words", desk.links[-2:], words)
    for words in ([2, 2], [1, 0], [0, 0]):
        desk.undo(1)
        tally.equal("undone: vertex words", desk.links[-2:], words)


# One lone vertex, and one idle: all rules hold but for the words (places 18 and 19 of links).
LONE = [1, 1, 1, 1, 2] + [1] + [1, 1] + [1, 0, 1] + [0] * 8


def wrong_words(tally):
    """A wrong word from 1 on breaks rule 5 and no other; 0 breaks rule 2 where the vertex is named, 1 by its point."""
    points = [7, 0, 0, 0, 0, 0]
    tally.equal("right words", check(LONE + [1, 0], points), (0, 0))
    for words in ([2, 0], [3, 0], [4_096, 0], [8_193, 0], [65_535, 0], [1, 1], [1, 2], [1, 65_535], [2, 2]):
        links = LONE + words
        broken = [number for number, rule in enumerate(RULES, 1) if not rule(Table(links, points))]
        tally.equal(f"words {words}: rules broken", broken, [5])
        tally.equal(f"words {words}", (check(links, points), count(links, points)[:2]), ((2, 5), (2, 5)))
    tally.equal("word 0, named, with a point", check(LONE + [0, 0], points), (2, 1))
    tally.equal("word 0, named, point 0", check(LONE + [0, 0], [0] * 6), (2, 2))
    tally.equal("words exchanged", check(LONE + [0, 1], [0] * 6), (2, 2))


def star(edges):
    """A script that makes one vertex with so many edges, which all begin there."""
    return [MVSF] + [mev(1, 0 if e == 1 else 1, e, e + 1) for e in range(1, edges + 1)]


def bouquet(edges):
    """The words of a loop of all half-edges, all from vertex 1: one after the other the odd ones, then the even ones.
    Where the edges are even in number, these starts are one cycle, so it is a sound table of one face."""
    order = [*range(1, 2 * edges, 2), *range(2, 2 * edges + 1, 2)]
    around = zip(order, order[1:] + order[:1], order[-1:] + order[:-1])
    halves = [word for _, *ends in sorted(around) for word in [1, 1] + ends]
    return [1, 1, 1, edges, 1] + [1] + [1, 1] + [1, 1, 0] + halves


def highest_words(tally):
    """4,095 spokes; and all 8,192 half-edges at one vertex, whose word is 8,193."""
    desk, script = Desk((1, 1, 1, 4_095, 4_096), 12_300), star(4_095)
    tally.equal("star: run", desk.run(script_bytes(script))[:3], (0, 0, 4_096))
    tally.equal("star: words", desk.links[-4_096:], [4_096] + [2] * 4_095)
    tally.equal("star: sound", check(*desk.state()), (0, 0))
    links = bouquet(4_096)
    for word, wanted in ((8_193, (0, 0)), (8_192, (2, 5)), (8_194, (2, 5)), (1, (2, 5)), (65_535, (2, 5)), (0, (2, 2))):
        tally.equal(f"bouquet with word {word}", check(links + [word], [0] * 3), wanted)


VALENCE_EXAMPLES = (words_by_operator, words_of_the_document, wrong_words, highest_words)
