"""The table of document 01 as plain lists: links (words) and points (coordinates).

Everything the other files know about places of words comes from WIDTHS below, so a field put into a record has to be
put in here; beside that, only what writes or takes apart a half-edge (boundary.py, rules.py, exhaustive.py,
kef_properties.py) asks for it.
"""

CAPACITY_LIMIT = 4096
COORDINATE_LIMIT = 50_000

# Words per record, in the order in which the kinds follow the five capacities.
WIDTHS = {"solid": 1, "face": 2, "loop": 3, "half": 4, "vertex": 1}


def mate(half):
    """The other half of the same edge: 2e - 1 and 2e are each other's mates."""
    return half + 1 if half % 2 == 1 else half - 1


def edge_of(half):
    return (half + 1) // 2


def half_of(edge, way):
    """The half-edge of an edge that a way names: 2e - 1 for even ways, 2e for odd."""
    return 2 * edge - 1 if way % 2 == 0 else 2 * edge


def way_of(half):
    return 0 if half % 2 == 1 else 1


def record_counts(capacities):
    """How many records of each kind the links hold; an edge has two records."""
    solids, faces, loops, edges, vertices = capacities
    return {"solid": solids, "face": faces, "loop": loops, "half": 2 * edges, "vertex": vertices}


def links_length(capacities):
    counts = record_counts(capacities)
    return 5 + sum(WIDTHS[kind] * counts[kind] for kind in WIDTHS)


def points_length(capacities):
    return 3 * capacities[4]


def capacities_allowed(capacities):
    return len(capacities) == 5 and all(1 <= c <= CAPACITY_LIMIT for c in capacities)


def lengths_allowed(links, points):
    """False where refusal 1 is due: capacities first, then both lengths."""
    capacities = tuple(links[:5])
    if not capacities_allowed(capacities):
        return False
    return len(links) == links_length(capacities) and len(points) == points_length(capacities)


def clear_words(capacities, links, points):
    """What clearing does to links and points; answers its refusal."""
    if not capacities_allowed(capacities):
        return 1
    if len(links) != links_length(capacities) or len(points) != points_length(capacities):
        return 1
    links[:] = list(capacities) + [0] * (len(links) - 5)
    points[:] = [0] * len(points)
    return 0


class Table:
    """Lent links and points, read and written record by record (numbers start at 1)."""

    def __init__(self, links, points):
        self.links = links
        self.points = points
        self.capacities = tuple(links[:5])
        self.counts = record_counts(self.capacities)
        self.bases = {}
        place = 5
        for kind, width in WIDTHS.items():
            self.bases[kind] = place
            place += width * self.counts[kind]

    def numbers(self, kind):
        return range(1, self.counts[kind] + 1)

    def place(self, kind, number):
        return self.bases[kind] + WIDTHS[kind] * (number - 1)

    def record(self, kind, number):
        place = self.place(kind, number)
        return tuple(self.links[place:place + WIDTHS[kind]])

    def put_record(self, kind, number, words):
        assert len(words) == WIDTHS[kind] and 1 <= number <= self.counts[kind]
        place = self.place(kind, number)
        self.links[place:place + WIDTHS[kind]] = list(words)

    def used(self, kind):
        """The used records of a kind as {number: words}: those whose first word is not 0."""
        base, width, found = self.bases[kind], WIDTHS[kind], {}
        for number in self.numbers(kind):
            place = base + width * (number - 1)
            if self.links[place] != 0:
                found[number] = tuple(self.links[place:place + width])
        return found

    def point(self, vertex):
        return tuple(self.points[3 * vertex - 3:3 * vertex])

    def put_point(self, vertex, coordinates):
        assert len(coordinates) == 3
        self.points[3 * vertex - 3:3 * vertex] = list(coordinates)


def cleared_table(capacities):
    """A fresh cleared table of these capacities, in memory of its own."""
    links, points = [0] * links_length(capacities), [0] * points_length(capacities)
    refusal = clear_words(capacities, links, points)
    assert refusal == 0
    return Table(links, points)
