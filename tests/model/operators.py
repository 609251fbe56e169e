"""The thirteen operators of document 01 on a Boundary.

Each plan_NAME answers None when the operator's condition fails (8), else the pair of
its inverse and a function that carries the effect out. Nothing is changed while
planning, so a log too short (9) can still refuse the operator.
"""

from boundary import from_half, linked_faces
from layout import edge_of, half_of, mate, way_of
from script import PATTERNS, operands_in_range, operands_of, operator


def plan_mvsf(b, s, f, l, v, x, y, z):
    def effect():
        b.solids.add(s)
        b.face_solid[f], b.face_outer[f] = s, l
        b.loop_face[l] = f
        b.set_loop(l, [], v)
        b.points[v] = (x, y, z)
    return operator("kvsf", s), effect


def plan_kvsf(b, s):
    faces = [f for f, solid in b.face_solid.items() if solid == s]
    loops = [l for f in faces for l in b.loops_of_face(f)]
    if len(faces) != 1 or len(loops) != 1 or b.cycles[loops[0]]:
        return None
    f, l = faces[0], loops[0]
    v = b.lone[l]

    def effect():
        b.solids.remove(s)
        del b.face_solid[f], b.face_outer[f], b.points[v]
        b.drop_loop(l)
    return operator("mvsf", s, f, l, v, *b.points[v]), effect


def plan_mev(b, l, h, e, v, w, x, y, z):
    if not b.is_corner(l, h):
        return None
    k = half_of(e, w)

    def effect():
        # The list is a cycle, so what stands in front of h's turn stands just before h.
        cycle = [k, mate(k)] + from_half(b.cycles[l], h)
        b.start[k], b.start[mate(k)] = b.corner_vertex(l, h), v
        b.set_loop(l, cycle, None)
        b.points[v] = (x, y, z)
    return operator("kev", k), effect


def plan_kev(b, k):
    m, l = mate(k), b.loop_of(k)
    behind = b.after(k)
    if behind[:1] != [m]:
        return None
    rest, v = behind[1:], b.start[m]
    h = rest[0] if rest else 0

    def effect():
        b.set_loop(l, rest, b.start[k])
        b.drop_edge(k)
        del b.points[v]
    return operator("mev", l, h, edge_of(k), v, way_of(k), *b.points[v]), effect


def plan_mef(b, l, h1, h2, e, f, l2, w):
    if not (b.is_corner(l, h1) and b.is_corner(l, h2)):
        return None
    if w >= 2 and (h1 != h2 or h1 == 0):
        return None
    a = half_of(e, w)
    turn = from_half(b.cycles[l], h1)
    if w >= 2:
        cut, kept = turn, []
    else:
        # With h1 = h2 the run "h1 up to before h2" is empty, not the whole loop.
        length = 0 if h1 == h2 else turn.index(h2)
        cut, kept = turn[:length], turn[length:]

    def effect():
        b.start[a], b.start[mate(a)] = b.corner_vertex(l, h1), b.corner_vertex(l, h2)
        b.face_solid[f], b.face_outer[f] = b.face_solid[b.loop_face[l]], l2
        b.loop_face[l2] = f
        b.set_loop(l, [a] + kept, None)
        b.set_loop(l2, cut + [mate(a)], None)
    return operator("kef", mate(a)), effect


def plan_kef(b, k):
    m, l2 = mate(k), b.loop_of(k)
    f, l = b.loop_face[l2], b.loop_of(m)
    if b.loops_of_face(f) != [l2] or b.loop_face[l] == f:
        return None
    rest, others = b.after(k), b.after(m)
    # mef's a is the half that stays in l, so m; h1 begins what went to l2, h2 what stayed.
    w = way_of(m)
    if rest and others:
        h1, h2 = rest[0], others[0]
    elif rest:
        h1, h2, w = rest[0], rest[0], w + 2
    else:
        h1 = h2 = others[0] if others else 0

    def effect():
        b.set_loop(l, rest + others, b.start[m])
        b.drop_loop(l2)
        b.drop_edge(k)
        del b.face_solid[f], b.face_outer[f]
    return operator("mef", l, h1, h2, edge_of(k), f, l2, w), effect


def plan_kemr(b, k, l2):
    a, l = mate(k), b.loop_of(k)
    behind = b.after(k)
    if a not in behind:
        return None
    place = behind.index(a)
    cut, stay = behind[:place], behind[place + 1:]
    h1, h2 = (stay[0] if stay else 0), (cut[0] if cut else 0)

    def effect():
        b.loop_face[l2] = b.loop_face[l]
        b.set_loop(l2, cut, b.start[a])
        b.set_loop(l, stay, b.start[k])
        b.drop_edge(k)
    return operator("mekr", l, h1, l2, h2, edge_of(k), way_of(k)), effect


def plan_mekr(b, l, h1, l2, h2, e, w):
    if not (b.is_corner(l, h1) and b.is_corner(l2, h2)):
        return None
    if l == l2 or b.loop_face[l] != b.loop_face[l2] or not b.is_ring(l2):
        return None
    k = half_of(e, w)

    def effect():
        b.start[k], b.start[mate(k)] = b.corner_vertex(l, h1), b.corner_vertex(l2, h2)
        cycle = [k] + from_half(b.cycles[l2], h2) + [mate(k)] + from_half(b.cycles[l], h1)
        b.drop_loop(l2)
        b.set_loop(l, cycle, None)
    return operator("kemr", k, l2), effect


def plan_kfmrh(b, f1, f2):
    if f1 == f2 or len(b.loops_of_face(f2)) != 1:
        return None
    l, kept, killed = b.face_outer[f2], b.face_solid[f1], b.face_solid[f2]

    def effect():
        b.loop_face[l] = f1
        del b.face_solid[f2], b.face_outer[f2]
        if killed != kept:
            b.solids.remove(killed)
            b.face_solid.update({f: kept for f, s in b.face_solid.items() if s == killed})
    return operator("mfkrh", l, f2, killed if killed != kept else 0), effect


def plan_mfkrh(b, l, f, s):
    if not b.is_ring(l):
        return None
    old = b.loop_face[l]
    loop_face = {**b.loop_face, l: f}
    with_f = linked_faces(f, loop_face, b.cycles)
    if (old in with_f) != (s == 0):
        return None

    def effect():
        b.loop_face[l] = f
        b.face_solid[f], b.face_outer[f] = b.face_solid[old], l
        if s != 0:
            b.solids.add(s)
            b.face_solid.update({g: s for g in with_f})
    return operator("kfmrh", old, f), effect


def plan_semv(b, k, e, v, w, x, y, z):
    m, n = mate(k), half_of(e, w)

    def effect():
        b.start[n], b.start[mate(n)] = v, b.start[m]
        b.start[m] = v
        b.points[v] = (x, y, z)
        insert(b, n, b.loop_of(k), k, 1)
        insert(b, mate(n), b.loop_of(m), m, 0)
    return operator("jekv", k), effect


def insert(b, half, loop, beside, offset):
    """Puts half just behind (offset 1) or just before (offset 0) another of that loop."""
    cycle = b.cycles[loop]
    cycle.insert(cycle.index(beside) + offset, half)


def plan_jekv(b, k):
    m, behind = mate(k), b.after(k)
    n = behind[0] if behind else k
    if edge_of(n) == edge_of(k) or b.after(mate(n))[:1] != [m]:
        return None
    v = b.start[n]

    def effect():
        b.start[m] = b.start[mate(n)]
        for half in (n, mate(n)):
            b.cycles[b.loop_of(half)].remove(half)
        b.drop_edge(n)
        del b.points[v]
    return operator("semv", k, edge_of(n), v, way_of(n), *b.points[v]), effect


def plan_rmov(b, l, f):
    if not b.is_ring(l):
        return None
    old = b.loop_face[l]
    if f == old:
        outer = b.face_outer[f]
        return operator("rmov", outer, f), lambda: b.face_outer.update({f: l})
    # Only an edge whose half in the old face lies outside l goes on joining both faces.
    outside = [h for other in b.loops_of_face(old) if other != l for h in b.cycles[other]]
    if not any(b.face_of(mate(h)) == f for h in outside):
        return None
    return operator("rmov", l, old), lambda: b.loop_face.update({l: f})


PLANS = {code: globals()["plan_" + name] for code, (name, _) in PATTERNS.items()}


def items_refusal(b, op):
    """6 and 7, left to right over the operands; a 0 where allowed names nothing."""
    for operand, value in zip(operands_of(op.code), op.args):
        if operand.role == "" or value == 0:
            continue
        used = b.in_use(operand.kind, value)
        if operand.role == "old" and not used:
            return 6
        if operand.role == "new" and used:
            return 7
    return 0


def plan(b, op):
    """Answers (refusal, inverse, effect) for an operator read without fault."""
    if not operands_in_range(op, b.capacities):
        return 5, None, None
    refusal = items_refusal(b, op)
    if refusal != 0:
        return refusal, None, None
    planned = PLANS[op.code](b, *op.args[:op.count])
    if planned is None:
        return 8, None, None
    return 0, planned[0], planned[1]


def carry_out(b, op):
    """Carries an operator out without a log; answers (refusal, inverse)."""
    refusal, inverse, effect = plan(b, op)
    if refusal == 0:
        effect()
    return refusal, inverse
