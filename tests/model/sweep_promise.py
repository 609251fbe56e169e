"""What document 02 (job 7) says of a sweep, checked on a library's answers: the compiled one's, or the model's own.

The swept table and the operators are written down here from the table before, as a person draws them; no operator is
carried out for it. Then the answer is undone, redone, and done once more as the run of a script: "undoing its operators
gives the earlier table", and the sweep is the run of its operators.
"""

from collections import namedtuple

import wire
from boundary import Boundary, follow
from generate import pools_of, table_of
from layout import Table, edge_of, half_of, mate
from script import operator, script_bytes

# A loop of the face as it is drawn: its half-edges from the first on, and by corner the half-edge up to the new vertex,
# that vertex, its point, the half-edge of the lifted loop that starts there, and the face and the loop of the side
# below that.
Lifted = namedtuple("Lifted", "loop corners ups tops vertices points faces loops")
# What a sweep has to give: all that it answers and leaves, and its operators as a script.
Picture = namedtuple("Picture", "answer script")


# The picture

def lifted_loops(table, face, vector):
    """By "loops by number, in each all mev before any mef [...] new numbers the least free": nothing is freed on the
    way, so the free numbers of each kind are taken in their order."""
    free = {kind: iter(numbers) for (role, kind), numbers in pools_of(Boundary(table)).items() if role == "new"}
    halves, found = table.used("half"), []
    for loop, (of, first, _) in table.used("loop").items():
        if of == face:
            corners = follow(halves, first)
            ups, tops, vertices, faces, loops = [[next(free[kind]) for _ in corners]
                                                 for kind in ("edge", "edge", "vertex", "face", "loop")]
            points = [tuple(map(sum, zip(table.point(halves[corner][0]), vector))) for corner in corners]
            found.append(Lifted(loop, corners, [half_of(edge, 0) for edge in ups], [half_of(edge, 0) for edge in tops],
                                vertices, points, faces, loops))
    return found


def draw(b, face, lifted):
    """The lifted loop has the new top edges alone. The side of a corner: its half-edge, up at the next corner, back
    along the top edge, down at this one."""
    count = len(lifted.corners)
    for j, (corner, up, top, vertex) in enumerate(zip(lifted.corners, lifted.ups, lifted.tops, lifted.vertices)):
        following, side, loop = (j + 1) % count, lifted.faces[j], lifted.loops[j]
        b.points[vertex] = lifted.points[j]
        b.start.update({up: b.start[corner], mate(up): vertex, top: vertex, mate(top): lifted.vertices[following]})
        b.face_solid[side], b.face_outer[side], b.loop_face[loop] = b.face_solid[face], loop, side
        b.cycles[loop] = [corner, lifted.ups[following], mate(top), mate(up)]
    b.cycles[lifted.loop] = list(lifted.tops)


def operators_of(lifted):
    """A mev for each corner. A mef for each side, from where its riser comes down to where the lifted loop goes on
    after the next riser: down there too, but after the last side along the first top edge."""
    loop, count = lifted.loop, len(lifted.corners)
    downs = [mate(up) for up in lifted.ups]
    onward = downs[1:] + (lifted.tops[:1] if count > 1 else downs)
    rises = [operator("mev", loop, corner, edge_of(up), vertex, 0, *point) for corner, up, vertex, point
             in zip(lifted.corners, lifted.ups, lifted.vertices, lifted.points)]
    way = 0 if count > 1 else 2
    sides = [operator("mef", loop, h1, h2, edge_of(top), face, new, way) for h1, h2, top, face, new
             in zip(downs, onward, lifted.tops, lifted.faces, lifted.loops)]
    return rises + sides


def inverses_of(lifted):
    return [operator("kev", up) for up in lifted.ups] + [operator("kef", mate(top)) for top in lifted.tops]


def pictured(case):
    """Of a sweep that is not refused."""
    face, table = case.numbers[0], Table(case.links, case.points)
    b, operators, inverses = Boundary(table), [], []
    for lifted in lifted_loops(table, face, [*map(wire.signed, case.numbers[1:])]):
        draw(b, face, lifted)
        operators += operators_of(lifted)
        inverses += inverses_of(lifted)
    after, logged, end = table_of(b), script_bytes(reversed(inverses)), case.session[0]
    start = end - len(logged)
    answer = case._replace(numbers=(0, 0, len(inverses)), links=tuple(after.links), points=tuple(after.points),
                           log=case.log[:start] + logged + case.log[end:], session=(start, len(case.redo)))
    return Picture(answer, script_bytes(operators))


# The promise

def keep_promise(asked, tally, met, lifted):
    """Of sweeps that are not refused, pairs of case and answer; asked answers further cases."""
    drawn = [pictured(case) for case, _ in lifted]
    for (case, answer), picture in zip(lifted, drawn):
        tally.equal(f"as drawn: {case}", answer, picture.answer)
    trips = [(case, answer, picture.script) for (case, answer), picture in zip(lifted, drawn)]
    run_instead(asked, tally, met, trips)
    # "every promise about undoing [...] supposes [...] room in that log for the operators undo writes there"
    there_and_back(asked, tally, met, [trip for trip in trips if len(trip[2]) <= len(trip[0].redo)])


def run_instead(asked, tally, met, trips):
    """The run of the sweep's operators leaves the same bytes: table, both logs and session."""
    runs = [case._replace(kind=wire.RUN, numbers=(), script=script) for case, _, script in trips]
    for (case, answer, script), run, got in zip(trips, runs, asked(runs)):
        numbers = (0, 0, answer.numbers[2], len(script), answer.session[0])
        if tally.equal(f"by a run: {case}", got, answer._replace(kind=wire.RUN, numbers=numbers, script=script)):
            met.add(run, got)


def there_and_back(asked, tally, met, trips):
    """Undone by `done`, which leaves the earlier table, and the sweep's script in the redo log; then redone."""
    undos = [answer._replace(kind=wire.UNDO, numbers=answer.numbers[2:]) for _, answer, _ in trips]
    undone = []
    for (case, answer, script), undo, got in zip(trips, undos, asked(undos)):
        room = len(case.redo) - len(script)
        wanted = undo._replace(numbers=(0, 0, answer.numbers[2], case.session[0]), links=case.links, points=case.points,
                               redo=case.redo[:room] + script, session=(case.session[0], room))
        if tally.equal(f"undone: {case}", got, wanted):
            met.add(undo, got)
            undone.append((case, answer, got))
    redos = [got._replace(kind=wire.REDO, numbers=answer.numbers[2:]) for _, answer, got in undone]
    for (case, answer, got), redo, again in zip(undone, redos, asked(redos)):
        if tally.equal(f"redone: {case}", again, answer._replace(kind=wire.REDO, redo=got.redo)):
            met.add(redo, again)
            met.situations["undone and redone"] += 1
