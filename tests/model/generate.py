"""Random tables, operators, scripts and logs; everything from a seed.

Every function takes a random.Random, so one seed gives one sequence of cases.
"""

import itertools
import random

from boundary import Boundary, write_back
from layout import Table, cleared_table, edge_of, mate
from operators import carry_out, plan
from script import PATTERNS, limits_of, operands_of, operator, script_bytes

# How often each code is proposed: makers more often, so that tables grow.
GROWTH = {1: 2, 2: 1, 3: 9, 4: 1, 5: 12, 6: 1, 7: 3, 8: 2, 9: 3, 10: 3, 11: 4, 12: 1, 13: 2}
EVEN = {code: 1 for code in PATTERNS}


def seeded(seed):
    return random.Random(seed)


def random_capacities(rng):
    """Mostly 1 to 6 each; half of the time at least 3, or nothing much could grow."""
    least, largest = rng.choice(((1, 6), (3, 6)))
    if rng.random() < 0.1:
        largest = rng.choice((10, 20, 40))
    return tuple(rng.randint(least, largest) for _ in range(5))


def random_coordinate(rng):
    return rng.choice((0, 0, 1, -1, 63, -64, 64, 100, 8191, -8192, 8192, 50_000, -50_000,
                       rng.randint(-50_000, 50_000)))


# Operators

def pools_of(b):
    """The numbers in use ("old") and free ("new") by kind, for choosing operands."""
    pools = {}
    for kind, limit in limits_of(b.capacities).items():
        used = b.items(kind) if kind != "edge" else {edge_of(half) for half in b.start}
        pools["old", kind] = list(used)
        pools["new", kind] = [n for n in range(1, limit + 1) if n not in used]
    return pools


def stocked_codes(pools):
    """The codes for each of whose operands there is a number to choose."""
    return [code for code, (_, operands) in PATTERNS.items()
            if all(o.role == "" or o.zero or pools[o.role, o.kind] for o in operands)]


def propose_operand(rng, b, pools, operand, so_far):
    if operand.kind == "coordinate":
        return random_coordinate(rng)
    if operand.role == "":
        # Ways 2 and 3 are refused with two corners; most often not worth a try then.
        two_corners = operand.kind[1] == 3 and so_far[1] != so_far[2]
        return rng.randint(0, 1 if two_corners and rng.random() < 0.8 else operand.kind[1])
    if operand.role == "old" and operand.zero:
        return propose_corner(rng, b, so_far)
    if operand.zero and rng.random() < 0.5:
        return 0
    numbers = pools[operand.role, operand.kind]
    return rng.choice(numbers) if numbers else rng.randint(1, limits_of(b.capacities)[operand.kind])


def propose_corner(rng, b, so_far):
    """A half-edge of the loop named last, 0 for a lone one; often the corner before; rarely a wrong one."""
    dice = rng.random()
    if dice < 0.1:
        return rng.choice([0] + list(b.start))
    if len(so_far) == 2 and dice < 0.35:
        return so_far[1]
    loop = so_far[-1] if len(so_far) != 2 else so_far[0]
    cycle = b.cycles.get(loop)
    return rng.choice(cycle) if cycle else 0


def propose(rng, b, pools, code):
    args = []
    for operand in operands_of(code):
        args.append(propose_operand(rng, b, pools, operand, args))
    return operator(code, *args)


def valid_operator(rng, b, weights=GROWTH, tries=20):
    """An operator that the table accepts, or None when none was met."""
    pools = pools_of(b)
    codes = stocked_codes(pools)
    for _ in range(tries if codes else 0):
        code = rng.choices(codes, [weights[c] for c in codes])[0]
        op = propose(rng, b, pools, code)
        if plan(b, op)[0] == 0:
            return op
    return None


def all_operators(b, points):
    """Every operator whose items are used and free as they must be, at these points."""
    pools = pools_of(b)
    for code, (_, operands) in PATTERNS.items():
        choices = [operand_choices(pools, o) for o in operands if o.kind != "coordinate"]
        for args in itertools.product(*choices):
            if len(choices) == len(operands):
                yield operator(code, *args)
            else:
                for point in points:
                    yield operator(code, *args, *point)


def operand_choices(pools, operand):
    if operand.role == "":
        return range(operand.kind[1] + 1)
    return ([0] if operand.zero else []) + pools[operand.role, operand.kind]


def bend(rng, b, op):
    """Changes one operand, half of the time one of an old item: refusals of every kind come up."""
    old_places = [i for i, operand in enumerate(operands_of(op.code)) if operand.role == "old"]
    place = rng.choice(old_places if old_places and rng.random() < 0.5 else range(op.count))
    operand = operands_of(op.code)[place]
    limit = 1 if operand.role == "" else limits_of(b.capacities)[operand.kind]
    args = list(op.args)
    values = [0, 1, limit, limit + 1, rng.randint(0, limit), rng.randint(0, 9_000)]
    if operand.kind == "coordinate":
        values = [50_001, -50_001, 1_000_000]
    elif operand.role == "old":
        # Another item in use gets past 6, so that the condition has to refuse it.
        values = values[:rng.choice((0, 6))] + list(b.items(operand.kind)) or [1]
    args[place] = rng.choice(values)
    return op._replace(args=tuple(args))


def random_operator(rng, b):
    """A mix: mostly accepted, else proposed for any code or bent in one operand."""
    dice = rng.random()
    op = valid_operator(rng, b, GROWTH if dice < 0.4 or dice > 0.85 else EVEN) if not 0.7 < dice < 0.8 else None
    if op is None:
        op = propose(rng, b, pools_of(b), rng.randint(1, 13))
    return bend(rng, b, op) if dice > 0.75 else op


# Tables

def grown(rng, capacities, steps, weights=GROWTH):
    """A Boundary made by operators from a cleared table of these capacities."""
    b = Boundary(cleared_table(capacities))
    for _ in range(steps):
        op = valid_operator(rng, b, weights)
        if op is None:
            break
        carry_out(b, op)
    return b


def table_of(b):
    table = cleared_table(b.capacities)
    write_back(b, table.links, table.points)
    return table


def random_table(rng):
    b = grown(rng, random_capacities(rng), rng.choice((0, 2, 5, 9, 14, 25)))
    dice = rng.random()
    if dice < 0.45:
        return table_of(b)
    if dice < 0.55:
        return renumbered(rng, b, tight_capacities(rng, b))
    return renumbered(rng, b, larger_capacities(rng, b.capacities) if dice > 0.97 else b.capacities)


def used_numbers(b):
    """The numbers in use of solids, faces, loops, edges and vertices, as five lists."""
    return [list(b.solids), list(b.face_solid), list(b.loop_face),
            sorted({edge_of(half) for half in b.start}), list(b.points)]


def tight_capacities(rng, b):
    """No number free of most kinds: such tables need not be reachable by operators at all."""
    full = [max(1, len(used)) for used in used_numbers(b)]
    return tuple(c if rng.random() < 0.8 else c + 1 for c in full)


def larger_capacities(rng, capacities):
    """Numbers of two and three groups, and now and then the largest table there is."""
    largest = rng.choice((4_096, 300, 300, 130, 130))
    return tuple(rng.choice((c, largest)) for c in capacities)


def injection(rng, used, capacity):
    """New numbers up to capacity for those in use, no two the same."""
    return dict(zip(used, rng.sample(range(1, capacity + 1), len(used))))


def renumbered(rng, b, capacities, in_order=False):
    """The same table under a stranger's numbers, solids in their order if asked; writing it makes first the least."""
    s, f, l, e, v = (injection(rng, *sizes) for sizes in zip(used_numbers(b), capacities))
    if in_order:
        s = dict(zip(sorted(s), sorted(s.values())))
    h = {}
    for edge, to in e.items():
        h[2 * edge - 1] = 2 * to - rng.randint(0, 1)
        h[2 * edge] = mate(h[2 * edge - 1])
    return renamed(b, capacities, s, f, l, h, v)


def renamed(b, capacities, s, f, l, h, v):
    """The table with other numbers for its solids, faces, loops, half-edges and vertices."""
    other = Boundary(cleared_table(capacities))
    other.solids = {s[n] for n in b.solids}
    other.face_solid = {f[n]: s[to] for n, to in b.face_solid.items()}
    other.face_outer = {f[n]: l[to] for n, to in b.face_outer.items()}
    other.loop_face = {l[n]: f[to] for n, to in b.loop_face.items()}
    other.cycles = {l[n]: [h[k] for k in cycle] for n, cycle in b.cycles.items()}
    other.lone = {l[n]: v[to] for n, to in b.lone.items()}
    other.start = {h[n]: v[to] for n, to in b.start.items()}
    other.points = {v[n]: point for n, point in b.points.items()}
    return table_of(other)


def damaged_table(rng):
    """A table of nearly sound words or of wrong lengths: links and points, as lists."""
    dice = rng.random()
    if dice < 0.4:
        table = bent_structure(rng)
        return table.links, table.points
    table = random_table(rng)
    links, points = list(table.links), list(table.points)
    if dice < 0.5:
        damage_lengths(rng, links, points)
        return links, points
    if dice < 0.55:
        damage_loop_ends(rng, Table(links, points))
        return links, points
    for _ in range(rng.choice((1, 1, 2, 3))):
        damage_word(rng, links, points)
    return links, points


def damage_loop_ends(rng, table):
    """Gives one loop both a first half-edge and a lone vertex, or neither."""
    halves, vertices = list(table.used("half")) or [0], list(table.used("vertex")) or [0]
    for loop, (face, _, _) in rng.sample(list(table.used("loop").items()), min(1, len(table.used("loop")))):
        ends = rng.choice(((0, 0), (rng.choice(halves), rng.choice(vertices))))
        table.put_record("loop", loop, (face,) + ends)


def damage_word(rng, links, points):
    """Changes a word, more often a used one, or changes two for each other."""
    places = [i for i in range(5, len(links)) if links[i] != 0] or [5]
    i, j = rng.choice(places), rng.choice(places)
    dice = rng.random()
    if dice < 0.5:
        links[i] = rng.choice((0, 1, 2, 3, 4, max(1, links[i] - 1), min(65_535, links[i] + 1)))
    elif dice < 0.8:
        links[i], links[j] = links[j], links[i]
    elif dice < 0.9:
        links[rng.randrange(5, len(links))] = rng.choice((0, 1, 2, rng.randint(0, 12), 65_535))
    else:
        points[rng.randrange(len(points))] = rng.choice((7, 50_000, 50_001, -50_001, -(1 << 31)))


def bent_structure(rng):
    """A table with whole records, cycles and first, but items put where they do not belong.

    Words alone hardly ever break rules 4 and 6, since rules 1 and 2 break first, and of rule 5 only what it says of a
    vertex word.
    """
    b = grown(rng, random_capacities(rng), rng.choice((5, 9, 14, 25)))
    for bend_one in rng.sample(BENDS, rng.choice((1, 1, 2))):
        bend_one(rng, b)
    return table_of(b)


def bend_face_solid(rng, b):
    if b.face_solid:
        b.face_solid[rng.choice(list(b.face_solid))] = rng.choice(list(b.solids))


def bend_loop_face(rng, b):
    rings = [loop for loop in b.loop_face if b.is_ring(loop)]
    if rings:
        b.loop_face[rng.choice(rings)] = rng.choice(list(b.face_solid))


def bend_vertex(rng, b):
    """Makes two vertices one, everywhere or at one half-edge, or adds an idle one."""
    if not b.points:
        return
    gone, kept, dice = rng.choice(list(b.points)), rng.choice(list(b.points)), rng.random()
    if dice < 0.3 and b.start:
        b.start[rng.choice(list(b.start))] = kept
    elif dice < 0.8:
        for place in (b.start, b.lone):
            place.update({n: kept for n, v in place.items() if v == gone})
        if gone != kept:
            del b.points[gone]
    else:
        b.points.setdefault(rng.randint(1, b.capacities[4]), (0, 0, 0))


def bend_cycles(rng, b):
    """Moves a half-edge or a tail of half-edges from one loop to another."""
    full = [loop for loop, cycle in b.cycles.items() if len(cycle) > 1]
    if not full:
        return
    giver, taker = rng.choice(full), rng.choice(full)
    cut = rng.randrange(1, len(b.cycles[giver]))
    tail = b.cycles[giver][cut:]
    del b.cycles[giver][cut:]
    b.cycles[taker].extend(reversed(tail) if rng.random() < 0.3 else tail)


BENDS = (bend_face_solid, bend_loop_face, bend_vertex, bend_cycles)


def damage_lengths(rng, links, points):
    dice = rng.randrange(5)
    if dice == 0:
        links[rng.randrange(5)] = rng.choice((0, 1, 2, 4_096, 4_097, 65_535))
    elif dice == 1:
        del links[rng.randrange(len(links)):]
    elif dice == 2:
        links.append(0)
    elif dice == 3:
        points.pop()
    else:
        points.append(0)


# Scripts and logs

def random_operators(rng, b, length):
    """Operators each accepted on what the one before left; b is changed."""
    operators = []
    while len(operators) < length:
        op = valid_operator(rng, b)
        if op is None:
            break
        carry_out(b, op)
        operators.append(op)
    return operators


def random_script(rng, table):
    """Script bytes for a table: accepted ones, a stray operator, or damaged bytes."""
    b = Boundary(table)
    operators = random_operators(rng, b, rng.choice((0, 1, 2, 4, 8, 16)))
    dice = rng.random()
    if dice < 0.4:
        return script_bytes(operators)
    if dice < 0.7:
        stray = random_operator(rng, b)
        operators.insert(rng.choice((len(operators), rng.randint(0, len(operators)))), stray)
        return script_bytes(operators)
    return damaged_bytes(rng, script_bytes(operators) or bytes([rng.randrange(256)]))


def damaged_bytes(rng, data):
    """One damage: a byte changed, lost or put in, cut, extended, or a number lengthened, be it beyond three groups."""
    place = rng.randrange(len(data))
    dice = rng.randrange(6)
    if dice == 0:
        return data[:place] + bytes([rng.randrange(256)]) + data[place + 1:]
    if dice == 1:
        return data[:place] + data[place + 1:]
    if dice == 2:
        return data[:place] + bytes([rng.randrange(256)]) + data[place:]
    if dice == 3:
        return data[:place]
    if dice == 4:
        return data + bytes(rng.randrange(256) for _ in range(rng.randint(1, 4)))
    return lengthened(data, place, rng.randint(1, 3))


def lengthened(data, place, groups):
    """Puts groups of zero bits behind the number that ends at or after place."""
    while data[place] >= 128 and place + 1 < len(data):
        place += 1
    tail = bytes([128] * (groups - 1) + [0])
    return data[:place] + bytes([data[place] | 128]) + tail + data[place + 1:]


def random_log(rng):
    """A log of any bytes and a start, sometimes beyond it."""
    log = bytes(rng.randrange(256) for _ in range(rng.choice((0, 2, 5, 20, 60, 100, 300, 300))))
    if rng.random() < 0.05:
        return log, beyond(rng, log)
    return log, len(log) if rng.random() < 0.75 else rng.randint(0, len(log))


def random_redo(rng):
    """A redo log of any bytes and a start, most often with room for what undo writes; sometimes beyond it."""
    if rng.random() < 0.3:
        return random_log(rng)
    log = rng.randbytes(rng.choice((310, 320, 400)))
    return log, rng.choice((len(log), len(log), 305))


def beyond(rng, log):
    """A start beyond a log, up to the largest number a caller can hand in."""
    return rng.choice((len(log) + 1, len(log) + 2, len(log) + 1_000, 1 << 32, 1 << 63, (1 << 64) - 1))
