"""Wire cases for kef: scripts of this one operator on tables whose two loops are as long as a table can have them.

A net is a list of loops, each a list of half-edges: the killed one from k on, the kept one from k's mate on, then the
others. Lists alone say which half-edge is next, so a net is right by its looks; its edges get their numbers afterwards,
in no order, and vertices and solids follow.
"""

from collections import namedtuple
from itertools import count

import wire
from cases import roomy_log, tight_start
from generate import random_coordinate, table_of
from kef_met import LONG, two_loops
from layout import CAPACITY_LIMIT, edge_of, mate
from operators import plan
from script import operator, operator_bytes
from takedown_tables import body_of, dealt_out, halves_of
from wavefront_parts import circle, prism

# How long loops are: mostly short, three half-edges being what the shortest loop of a plain part has.
SHORT_ONES, LONGER, RARE = (3, 3, 3, 4, 5, 6, 7, 8, 12, 20), (33, 64, 100, 127, 128, 250), (500, 1_000, 1_500)

# How a net's loops go into faces: the killed loop has a face of its own, but not where kef is to be refused.
Faces = namedtuple("Faces", "killed kept others")


# Nets

def chord(_rng, killed, kept):
    """A polygon that a chord, the killed edge, cuts in two, and the face behind it."""
    k, *halves = range(1, 2 * (killed + kept) - 2, 2)
    run, others = halves[:killed - 1], halves[killed - 1:]
    return [[k] + run, [mate(k)] + others, turned(run + others)]


def turned(halves):
    """The same edges from their other sides, which run the other way."""
    return [mate(half) for half in reversed(halves)]


def two_sided(_rng, killed, kept):
    """A polygon with a face on either side: the shorter loop shares all its edges, the longer has a third beside it."""
    k, *halves = range(1, 2 * max(killed, kept), 2)
    shared, more = halves[:min(killed, kept) - 1], halves[min(killed, kept) - 1:]
    long, short = shared + more, turned(shared)
    loops = [[k] + long, [mate(k)] + short] if killed >= kept else [[k] + short, [mate(k)] + long]
    return loops + [turned(more)] * bool(more)


def trees(rng, killed, kept):
    """Edges with both sides in one loop; where a loop is of even length, one of them with its other side in a third."""
    edges, loops, third = count(2), [[1], [2]], []
    for cycle, length in zip(loops, (killed, kept)):
        while len(cycle) < length:
            place, half = rng.randint(1, len(cycle)), 2 * next(edges)
            both = len(cycle) + 2 <= length
            cycle[place:place] = [half, mate(half)] if both else [half]
            third += [] if both else [mate(half)]
    return loops + [third] * bool(third)


def dealt(rng, killed, kept):
    """The half-edges in any order; what the two loops leave is in up to two others."""
    edges = (killed + kept + 1) // 2 + rng.choice((0, 0, 1, 3))
    halves = halves_of(range(2, min(edges, CAPACITY_LIMIT) + 1))
    rng.shuffle(halves)
    run, others, left = halves[:killed - 1], halves[killed - 1:killed + kept - 2], halves[killed + kept - 2:]
    cut = rng.randint(0, len(left))
    return [[1] + run, [2] + others] + [cycle for cycle in (left[:cut], left[cut:]) if cycle]


def walled(rng, killed, _kept):
    """A prism: its top and a side, or two sides, whichever of them the killed loop is."""
    b = prism(circle(max(3, min(killed, CAPACITY_LIMIT // 3)), 1_000), 0, 1)
    top = max(b.cycles) - 1
    k = rng.choice(rng.choice((b.cycles[top], [mate(half) for half in b.cycles[top]], list(b.start))))
    two = b.loop_of(k), b.loop_of(mate(k))
    return two_loops(b, k) + [cycle for loop, cycle in b.cycles.items() if loop not in two]


NETS = (chord, chord, two_sided, trees, dealt, dealt, walled)


# Numbers

def numbered(rng, net, most, lowest=None):
    """Numbers up to most for the edges, the lowest for a half-edge of either loop: so first lies anywhere."""
    edges = sorted({edge_of(half) for cycle in net for half in cycle})
    numbers = rng.sample(range(1, most + 1), len(edges))
    here, low = edges.index(edge_of(lowest or some_place(rng, net))), numbers.index(min(numbers))
    numbers[here], numbers[low] = numbers[low], numbers[here]
    to = {}
    for edge, number in zip(edges, numbers):
        to[2 * edge] = 2 * number - rng.randint(0, 1)
        to[2 * edge - 1] = mate(to[2 * edge])
    return [[to[half] for half in cycle] for cycle in net]


def some_place(rng, net):
    """A half-edge of the killed loop or the kept one, often at or beside the killed edge."""
    cycle = net[rng.randint(0, 1)]
    return cycle[rng.choice((0, 1 % len(cycle), -1, rng.randrange(len(cycle))))]


def any_faces(rng, net):
    """The killed loop in a face of its own; the others in the kept loop's face, in one of their own, or together."""
    return Faces(0, 1, [rng.choice((1, 2, place, place, place)) for place in range(2, len(net))])


def unfit_faces(rng, net):
    """The killed face has another loop: the kept one, or a third where there is one."""
    killed, kept, others = any_faces(rng, net)
    if others and rng.random() < 0.5:
        return Faces(killed, kept, [killed] + others[1:])
    return Faces(killed, killed, others)


def body_with(rng, net, faces):
    """A Boundary of the loops in these faces, both under any numbers; a face's outer loop is any of its loops."""
    used = [faces.killed, faces.kept] + list(faces.others)
    loops = rng.sample(range(1, len(net) + 3), len(net))
    number = dict(zip(sorted(set(used)), rng.sample(range(1, len(net) + 3), len(set(used)))))
    loop_face = {loop: number[face] for loop, face in zip(loops, used)}
    face_outer = {face: rng.choice([loop for loop in loops if loop_face[loop] == face]) for face in number.values()}
    return body_of(dict(zip(loops, net)), loop_face, face_outer,
                   lambda: tuple(random_coordinate(rng) for _ in range(3)))


# Cases

def case_of(rng, net, faces, edges, log_for):
    """The kef of the net's first half-edge, in a table that can hold so many edges."""
    b, op, spare = body_with(rng, net, faces), operator("kef", net[0][0]), rng.choice((0, 1, 3))
    most = [max(used) + spare for used in (b.solids, b.face_solid, b.loop_face, b.points)]
    # A table at its largest has no number to spare.
    b.capacities = tuple(min(capacity, CAPACITY_LIMIT) for capacity in (*most[:3], edges, most[3]))
    table, (log, start), script = table_of(b), log_for(rng, b, op), operator_bytes(op)
    # Undo writes the kef itself into the redo log: just the room for it, or more. To a run its start does not matter.
    redo = rng.randbytes(len(script) + rng.choice((0, 0, 5)))
    session = (start, rng.choice((0, len(redo), len(redo) + 1)))
    return wire.case(wire.RUN, (), table.links, table.points, log, script, redo, session)


def any_log(rng, b, op):
    """Most often room for the inverse and more; else just the room that it needs, or a byte less."""
    log, start = roomy_log(rng)
    return log, tight_start(rng, b, op, len(log)) if rng.random() < 0.3 else min(start, len(log))


def just_room(less=0):
    """A log with just the room that the inverse needs, or so many bytes less."""
    def make(rng, b, op):
        room = len(operator_bytes(plan(b, op)[1])) - less
        return rng.randbytes(room + rng.choice((0, 5))), room
    return make


def any_length(rng):
    """Now and then 1, the half of the killed edge alone."""
    dice = rng.random()
    return 1 if dice < 0.12 else rng.choice(RARE if dice > 0.98 else LONGER if dice > 0.8 else SHORT_ONES)


def kef_case(rng):
    """Two loops of any lengths; now and then in faces for which kef is refused."""
    net = rng.choice(NETS)(rng, any_length(rng), any_length(rng))
    edges = min(sum(map(len, net)) // 2 + rng.choice((0, 0, 1, 7, 40)), CAPACITY_LIMIT)
    faces = (unfit_faces if rng.random() < 0.05 else any_faces)(rng, net)
    return case_of(rng, numbered(rng, net, edges), faces, edges, any_log)


# Listed cases: the longest loops

def ringed(rng, _killed, _kept):
    """Both loops have the killed edge alone; a long one beside them, now their ring, now of another solid."""
    return [[1], [2]] + dealt_out(rng, range(2, LONG // 2 + 2), 1)


# Each net with the lengths of its killed loop and its kept one; an odd number of them, so that each meets every turn.
LONG_NETS = ((chord, LONG, 3), (chord, 3, LONG), (chord, LONG, 90), (chord, 1, LONG), (two_sided, LONG, LONG),
             (two_sided, LONG, 3), (two_sided, 3, LONG), (trees, LONG, LONG), (trees, LONG, 1), (dealt, LONG, LONG),
             (dealt, LONG, 192), (dealt, 192, LONG), (ringed, 1, 1))
LARGEST_NETS = ((dealt, 2 * CAPACITY_LIMIT - 1, 1), (dealt, 1, 2 * CAPACITY_LIMIT - 1),
                (two_sided, CAPACITY_LIMIT, CAPACITY_LIMIT))


def lowest_places(rng, net):
    """Half-edges for the lowest number: the killed one, and of both loops the one behind it, the one before it, any."""
    beside = [cycle[place] for cycle in net[:2] for place in (1 % len(cycle), -1)]
    return [net[0][0]] + beside + [rng.choice(cycle) for cycle in net[:2]]


def long_cases(rng):
    """Each of the nets three times: the lowest number at one place after the other, the third loop now beside the kept
    one in its face, now anywhere; here and there a log too short, which has to be found before a word is changed.
    """
    cases = []
    for turn, (make, killed, kept) in enumerate(LONG_NETS * 3):
        net = make(rng, killed, kept)
        places = lowest_places(rng, net)
        faces = Faces(0, 1, [1] * (len(net) - 2)) if turn % 2 == 0 else any_faces(rng, net)
        net = numbered(rng, net, CAPACITY_LIMIT, places[turn % len(places)])
        cases.append(case_of(rng, net, faces, CAPACITY_LIMIT, just_room(less=turn % 11 == 7)))
    return cases + [largest_case(rng, *net) for net in LARGEST_NETS]


def largest_case(rng, make, killed, kept):
    """No half-edge of the table is free."""
    net = numbered(rng, make(rng, killed, kept), CAPACITY_LIMIT)
    return case_of(rng, net, any_faces(rng, net), CAPACITY_LIMIT, just_room())
