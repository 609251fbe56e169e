"""Sound tables for the take-down, most of them written down without any operator, as a stranger might.

Loops are any lists of half-edges. The vertices then follow (half-edges from one vertex are a cycle under "next of the
mate"), the loops go into faces anyhow, and the solids follow (what is linked is one). So tables come up that operators
seldom make: many holes, rings among rings, handles behind bridges.
"""

import itertools

from boundary import Boundary, linked_faces
from generate import (grown, larger_capacities, random_capacities, random_coordinate, random_table, renumbered,
                      table_of, used_numbers)
from layout import cleared_table, edge_of, mate

# How often each code is proposed where tables are grown: for rings and holes rather than for vertices.
HOLES = {1: 2, 2: 1, 3: 6, 4: 1, 5: 16, 6: 1, 7: 6, 8: 1, 9: 10, 10: 1, 11: 2, 12: 1, 13: 6}
SMALL, MIDDLE, LARGE = (1, 2, 2, 3, 3, 4, 5, 6, 7, 8), (10, 12, 16, 24, 40), (60, 80, 100)


def random_size(rng):
    """How many edges: mostly few."""
    dice = rng.random()
    return rng.choice(LARGE if dice < 0.01 else MIDDLE if dice < 0.2 else SMALL)


# Loops

def any_half(rng, edge):
    return 2 * edge - rng.randint(0, 1)


def halves_of(edges):
    return [half for edge in edges for half in (2 * edge - 1, 2 * edge)]


def dealt_out(rng, edges, loops):
    """The half-edges of these edges in any order, in so many loops at most."""
    halves = halves_of(edges)
    rng.shuffle(halves)
    cuts = sorted(rng.sample(range(1, len(halves)), min(loops, len(halves)) - 1))
    return [halves[begin:end] for begin, end in zip([0] + cuts, cuts + [len(halves)])]


def tangled(rng):
    """Few loops of many edges: most edges are crossed, so there are many holes."""
    return dealt_out(rng, range(1, random_size(rng) + 1), rng.choice((1, 1, 2, 3)))


def scattered(rng):
    """Many loops, lone ones among them; a half-edge is most often in another loop than its mate."""
    edges = random_size(rng)
    return dealt_out(rng, range(1, edges + 1), rng.randint(1, edges + 1)) + [[]] * rng.choice((0, 0, 1, 2, 4))


def apart(rng):
    """Several groups of loops with edges of their own: often several solids."""
    cycles = []
    for _ in range(rng.choice((2, 2, 3, 5))):
        first, size = next_edge(cycles), rng.choice((1, 2, 3, 5))
        cycles += dealt_out(rng, range(first, first + size), rng.randint(1, size + 1))
    return cycles + [[]] * rng.choice((0, 0, 1, 3))


def knot(rng, edges):
    """A loop of these edges, of which the first two cross for sure."""
    a, b, *others = (any_half(rng, edge) for edge in edges)
    cycle = [a, b, mate(a), mate(b)]
    for half in [h for k in others for h in (k, mate(k))]:
        cycle.insert(rng.randint(0, len(cycle)), half)
    return cycle


def bridged(rng, first):
    """A loop of knots that bridges join, of edges from first on. A bridge is no spur and is crossed by nothing, and the
    bridges have the lowest numbers: who takes the least edge that is no spur for a crossed one takes a bridge.
    """
    knots, cycle = rng.choice((2, 2, 2, 3, 4, 7)), []
    edge = first + knots - 1
    for bridge in [0, *range(first, edge)]:
        size = rng.choice((2, 2, 2, 3))
        inner, k = knot(rng, range(edge, edge + size)), any_half(rng, bridge)
        edge += size
        place = rng.randint(0, len(cycle))
        cycle[place:place] = [k] + inner + [mate(k)] if bridge else inner
    return cycle


def bridged_rings(rng):
    """Such loops, each with edges of its own, and lone ones."""
    cycles = []
    for _ in range(rng.choice((1, 1, 1, 2, 3))):
        cycles.append(bridged(rng, next_edge(cycles)))
    return cycles + [[]] * rng.choice((0, 0, 0, 2))


def next_edge(cycles):
    return max((edge_of(half) for cycle in cycles for half in cycle), default=0) + 1


def with_spurs(rng, cycles):
    """The same with trees grown on it: edges that lead to a vertex of their own."""
    cycles = [list(cycle) for cycle in cycles]
    for _ in range(rng.choice((0, 0, 1, 2, 4))):
        cycle, k = rng.choice(cycles), any_half(rng, next_edge(cycles))
        place = rng.randint(0, len(cycle))
        cycle[place:place] = [k, mate(k)]
    return cycles


# Bodies of loops

def body_of(cycles, loop_face, face_outer, point=lambda: (0, 0, 0)):
    """A Boundary of these loops (an empty one is lone) in these faces; vertices and solids follow."""
    b = Boundary(cleared_table((1,) * 5))
    b.cycles, b.loop_face, b.face_outer = cycles, loop_face, face_outer
    add_vertices(b, point)
    for face in sorted(face_outer):
        if face not in b.face_solid:
            b.solids.add(len(b.solids) + 1)
            b.face_solid.update({linked: len(b.solids) for linked in linked_faces(face, loop_face, cycles)})
    return b


def add_vertices(b, point):
    """A vertex for each cycle under "next of the mate" and for each lone loop."""
    following = {half: behind for cycle in b.cycles.values() for half, behind in zip(cycle, cycle[1:] + cycle[:1])}
    for half in following:
        if half in b.start:
            continue
        vertex, here = len(b.points) + 1, half
        b.points[vertex] = point()
        while here not in b.start:
            b.start[here], here = vertex, following[mate(here)]
    for loop, cycle in b.cycles.items():
        if not cycle:
            b.lone[loop] = len(b.points) + 1
            b.points[b.lone[loop]] = point()


def written_body(rng):
    """Loops of one of the shapes above in one face, in a face for each loop, or in any number between."""
    cycles = with_spurs(rng, rng.choice((tangled, scattered, scattered, apart, bridged_rings))(rng))
    faces = rng.choice((1, len(cycles), rng.randint(1, len(cycles)), rng.randint(1, (len(cycles) + 1) // 2)))
    loops = rng.sample(range(1, len(cycles) + 1), len(cycles))
    loop_face = {loop: place if place <= faces else rng.randint(1, faces) for place, loop in enumerate(loops, 1)}
    face_outer = {face: rng.choice([loop for loop in loops if loop_face[loop] == face]) for face in range(1, faces + 1)}
    return body_of(dict(zip(loops, cycles)), loop_face, face_outer,
                   lambda: tuple(random_coordinate(rng) for _ in range(3)))


# Every body of a few edges, up to the numbers of its loops and faces

def every_body(edges, lone):
    """Each way to put the half-edges of so many edges into loops, and these and so many lone loops into faces."""
    halves = halves_of(range(1, edges + 1))
    for following in itertools.permutations(halves):
        cycles = cycles_of(dict(zip(halves, following))) + [[]] * lone
        loops = range(1, len(cycles) + 1)
        for outer in itertools.product(loops, repeat=len(cycles)):
            # outer[l - 1] is the outer loop of l's face, so its own is itself.
            if all(outer[of - 1] == of for of in outer):
                face = {of: number for number, of in enumerate(sorted(set(outer)), 1)}
                yield body_of({loop: list(cycle) for loop, cycle in zip(loops, cycles)},
                              {loop: face[of] for loop, of in zip(loops, outer)}, {face[of]: of for of in face})


def cycles_of(following):
    cycles, met = [], set()
    for half in following:
        cycle = []
        while half not in met:
            met.add(half)
            cycle.append(half)
            half = following[half]
        cycles += [cycle] if cycle else []
    return cycles


# Tables with numbers to spare

def capacities_with(b, spares):
    """Capacities with so many free numbers of each kind; a kind of which nothing is in use has one in any case."""
    return tuple(max(1, len(used) + spare) for used, spare in zip(used_numbers(b), spares))


def table_with(b, spares):
    """The table with its numbers as they are; they run from 1 on."""
    b.capacities = capacities_with(b, spares)
    return table_of(b)


def some_body(rng):
    """A Boundary by any of the ways there are, and whether its numbers run from 1 on."""
    dice = rng.random()
    if dice < 0.15:
        return Boundary(random_table(rng)), False
    if dice < 0.3:
        return grown(rng, tuple(c + 2 for c in random_capacities(rng)), rng.choice((9, 14, 25, 40)), HOLES), False
    return written_body(rng), True


def spared_table(rng, full=None):
    """A sound table with a free face, loop and edge number, but none of the kind that is full (its place in the
    capacities).

    Written ones keep their numbers half of the time, bridges lowest; all others get a stranger's.
    """
    b, from_one = some_body(rng)
    spares = [rng.choice((0, 1, 3)), *(rng.choice((1, 1, 2, 4)) for _ in range(3)), rng.choice((0, 1, 3))]
    if full is not None:
        spares[full] = 0
    if from_one and rng.random() < 0.5:
        return table_with(b, spares)
    capacities = capacities_with(b, spares)
    # Numbers of two and three bytes, and many free ones.
    if full is None and rng.random() < 0.02:
        capacities = larger_capacities(rng, capacities)
    return renumbered(rng, b, capacities)
