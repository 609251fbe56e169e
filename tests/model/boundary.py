"""A sound table as sets and lists, the representation in which operators are carried out.

A loop is a Python list of its half-edges in order (empty for a lone loop), so next,
previous, each half-edge's loop and first are never stored: writing the table back
derives them. An operator here cannot forget a link, it can only be wrong about
lists, which is what makes this model able to disagree with pointer surgery. The words
of the vertices are not stored either: they are counted each time.
"""

from collections import Counter

from layout import Table, mate


# Which attribute of a Boundary holds the items in use of a kind.
ITEMS = {"solid": "solids", "face": "face_solid", "loop": "loop_face", "half": "start", "vertex": "points"}


class Boundary:
    def __init__(self, table):
        """Reads a table that the check has found sound."""
        self.capacities = table.capacities
        self.solids = set(table.used("solid"))
        self.face_solid = {f: words[0] for f, words in table.used("face").items()}
        self.face_outer = {f: words[1] for f, words in table.used("face").items()}
        self.points = {v: table.point(v) for v in table.used("vertex")}
        halves = table.used("half")
        self.start = {h: words[0] for h, words in halves.items()}
        self.loop_face, self.cycles, self.lone = {}, {}, {}
        for loop, (face, first, lone) in table.used("loop").items():
            self.loop_face[loop] = face
            self.cycles[loop] = follow(halves, first) if first != 0 else []
            if first == 0:
                self.lone[loop] = lone

    def in_use(self, kind, number):
        if kind == "edge":
            return 2 * number in self.start
        return number in self.items(kind)

    def items(self, kind):
        return getattr(self, ITEMS[kind])

    def loop_of(self, half):
        return next(loop for loop, cycle in self.cycles.items() if half in cycle)

    def face_of(self, half):
        return self.loop_face[self.loop_of(half)]

    def loops_of_face(self, face):
        return [loop for loop, of in self.loop_face.items() if of == face]

    def is_ring(self, loop):
        return self.face_outer[self.loop_face[loop]] != loop

    def after(self, half):
        """The cycle of the half-edge's loop from the one behind it, the half-edge left out."""
        return from_half(self.cycles[self.loop_of(half)], half)[1:]

    def is_corner(self, loop, half):
        cycle = self.cycles[loop]
        return half in cycle if half != 0 else not cycle

    def corner_vertex(self, loop, half):
        return self.start[half] if half != 0 else self.lone[loop]

    def set_loop(self, loop, cycle, vertex_if_empty):
        """Gives a loop its half-edges; one left without any becomes lone."""
        self.cycles[loop] = list(cycle)
        self.lone.pop(loop, None)
        if not cycle:
            self.lone[loop] = vertex_if_empty

    def drop_loop(self, loop):
        del self.cycles[loop], self.loop_face[loop]
        self.lone.pop(loop, None)

    def drop_edge(self, half):
        del self.start[half], self.start[mate(half)]

    def write(self, table):
        """Writes every record of the table anew, free ones as zeros."""
        for kind in ("solid", "face", "loop", "half", "vertex"):
            width = len(table.record(kind, 1))
            for number in table.numbers(kind):
                table.put_record(kind, number, (0,) * width)
        for solid in self.solids:
            table.put_record("solid", solid, (1,))
        for face, solid in self.face_solid.items():
            table.put_record("face", face, (solid, self.face_outer[face]))
        for loop, cycle in self.cycles.items():
            self.write_loop(table, loop, cycle)
        # By document 02 (job 5): "1 plus the number of half-edges starting there; 0 is still free".
        starting = Counter(self.start.values())
        for vertex in table.numbers("vertex"):
            table.put_record("vertex", vertex, (1 + starting[vertex] if vertex in self.points else 0,))
            table.put_point(vertex, self.points.get(vertex, (0, 0, 0)))

    def write_loop(self, table, loop, cycle):
        first, lone = (min(cycle), 0) if cycle else (0, self.lone[loop])
        table.put_record("loop", loop, (self.loop_face[loop], first, lone))
        for place, half in enumerate(cycle):
            following, before = cycle[(place + 1) % len(cycle)], cycle[place - 1]
            table.put_record("half", half, (self.start[half], loop, following, before))


def follow(halves, first):
    cycle = [first]
    while halves[cycle[-1]][2] != first:
        cycle.append(halves[cycle[-1]][2])
    return cycle


def from_half(cycle, half):
    """The same cycle, begun at half; the empty one for corner 0 of a lone loop."""
    if half == 0:
        return []
    place = cycle.index(half)
    return cycle[place:] + cycle[:place]


def linked_faces(start, loop_face, cycles):
    """The faces linked to start by chains of faces sharing an edge (rule 6)."""
    face = {half: loop_face[loop] for loop, cycle in cycles.items() for half in cycle}
    met, grown = {start}, True
    while grown:
        more = {face[mate(half)] for half in face if face[half] in met} - met
        grown = bool(more)
        met |= more
    return met


def write_back(boundary, links, points):
    boundary.write(Table(links, points))
