"""The check and the counts of document 01, section "Sound tables", with the vertex word of document 02 (job 5).

Each rule is a function of its own that assumes only the rules before it, so that a
test can ask for one rule at a time.
"""

from layout import COORDINATE_LIMIT, Table, edge_of, lengths_allowed, mate

# Which numbers each word of a record may hold, by kind of item named.
NAMES = {
    "face": ("solid", "loop"),
    "loop": ("face", "half", "vertex"),
    "half": ("vertex", "loop", "half", "half"),
}
# The words of a used record that may be 0: a loop's first and its lone vertex.
MAY_BE_ZERO = {("loop", 1), ("loop", 2)}


def rule_1(table):
    """Ranges, zero words of free records, both halves of an edge used or neither.

    Of a vertex word only whether it is 0 matters here: "Rule 5 of soundness tests it, rule 1 no longer does".
    """
    if any(table.record("solid", n)[0] not in (0, 1) for n in table.numbers("solid")):
        return False
    for kind, named in NAMES.items():
        if not all(record_in_range(table, kind, n, named) for n in table.numbers(kind)):
            return False
    if not all(point_in_range(table, v) for v in table.numbers("vertex")):
        return False
    halves = table.used("half")
    return all(mate(h) in halves for h in halves)


def record_in_range(table, kind, number, named):
    words = table.record(kind, number)
    if words[0] == 0:
        return not any(words)
    for place, (word, target) in enumerate(zip(words, named)):
        if word > table.counts[target]:
            return False
        if word == 0 and (kind, place) not in MAY_BE_ZERO:
            return False
    return True


def point_in_range(table, vertex):
    point = table.point(vertex)
    if table.record("vertex", vertex) == (0,):
        return point == (0, 0, 0)
    return all(-COORDINATE_LIMIT <= c <= COORDINATE_LIMIT for c in point)


def rule_2(table):
    """Numbers held name used items, outer loops name their face, solids have a face."""
    used = {kind: table.used(kind) for kind in table.counts}
    for kind, named in NAMES.items():
        for words in used[kind].values():
            if any(word != 0 and word not in used[target] for word, target in zip(words, named)):
                return False
    for face, (_, outer) in used["face"].items():
        if used["loop"][outer][0] != face:
            return False
    return set(used["solid"]) == {solid for solid, _ in used["face"].values()}


def rule_3(table):
    """A loop has a first half-edge or a lone vertex: one of them, not both."""
    return all((first == 0) != (lone == 0) for _, first, lone in table.used("loop").values())


def rule_4(table):
    """Next and previous, ends that meet, one cycle per loop, first the least."""
    halves = table.used("half")
    naming = {loop: set() for loop in table.used("loop")}
    for half, (_, loop, following, before) in halves.items():
        naming[loop].add(half)
        if halves[following][3] != half or halves[before][2] != half:
            return False
        if halves[following][0] != halves[mate(half)][0] or halves[following][1] != loop:
            return False
    for loop, (_, first, _) in table.used("loop").items():
        if first == 0:
            if naming[loop]:
                return False
        elif not naming[loop] or first != min(naming[loop]):
            return False
        elif orbit(first, lambda h: halves[h][2]) != naming[loop]:
            return False
    return True


def orbit(start, step):
    """All values met from start on; step is known to be one to one, so it comes back."""
    met, here = {start}, step(start)
    while here != start:
        met.add(here)
        here = step(here)
    return met


def rule_5(table):
    """Each vertex is lone in exactly one loop, or its half-edges are one cycle; its word is 1 plus their number."""
    halves, vertices = table.used("half"), table.used("vertex")
    starting = {vertex: set() for vertex in vertices}
    lone_in = {vertex: 0 for vertex in starting}
    for half, words in halves.items():
        starting[words[0]].add(half)
    for _, _, lone in table.used("loop").values():
        if lone != 0:
            lone_in[lone] += 1
    for vertex, group in starting.items():
        if vertices[vertex] != (1 + len(group),):
            return False
        if not group:
            if lone_in[vertex] != 1:
                return False
        elif lone_in[vertex] != 0 or orbit(min(group), lambda h: halves[mate(h)][2]) != group:
            return False
    return True


def rule_6(table):
    """Edges stay inside a solid and the faces of a solid hang together by edges."""
    faces, loops, halves = table.used("face"), table.used("loop"), table.used("half")
    neighbours = {face: set() for face in faces}
    for half, words in halves.items():
        here, there = loops[words[1]][0], loops[halves[mate(half)][1]][0]
        if faces[here][0] != faces[there][0]:
            return False
        neighbours[here].add(there)
    for solid in {solid for solid, _ in faces.values()}:
        members = {face for face, words in faces.items() if words[0] == solid}
        if reachable(min(members), neighbours) != members:
            return False
    return True


def reachable(start, neighbours):
    met, waiting = {start}, [start]
    while waiting:
        for other in neighbours[waiting.pop()] - met:
            met.add(other)
            waiting.append(other)
    return met


RULES = (rule_1, rule_2, rule_3, rule_4, rule_5, rule_6)


def check(links, points):
    """Answers (refusal, rule): (1, 0), (2, lowest broken rule) or (0, 0)."""
    if not lengths_allowed(links, points):
        return 1, 0
    table = Table(links, points)
    for number, rule in enumerate(RULES, 1):
        if not rule(table):
            return 2, number
    return 0, 0


def count(links, points):
    """Answers (refusal, rule, s, f, l, e, v, r, h); zeros after a refusal."""
    refusal, rule = check(links, points)
    if refusal != 0:
        return (refusal, rule) + (0,) * 7
    table = Table(links, points)
    s, f, l, v = (len(table.used(kind)) for kind in ("solid", "face", "loop", "vertex"))
    e = len({edge_of(half) for half in table.used("half")})
    outers = {outer for _, outer in table.used("face").values()}
    r = sum(1 for loop in table.used("loop") if loop not in outers)
    # v - e + f = 2 (s - h) + r, solved for h; an odd difference would be a finding.
    twice = 2 * s + r - (v - e + f)
    assert twice % 2 == 0 and twice >= 0, "the formula's h is not a whole number from 0 on"
    return 0, 0, s, f, l, e, v, r, twice // 2
