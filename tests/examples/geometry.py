"""What the parts are held to as bodies in space. A face is a list of points, counterclockwise seen from outside; of a
table of the model, whose loops run clockwise, it is a loop turned round."""


def determinant(a, b, c):
    x, y, z = b[1] * c[2] - b[2] * c[1], b[0] * c[2] - b[2] * c[0], b[0] * c[1] - b[1] * c[0]
    return a[0] * x - a[1] * y + a[2] * z


def six_volumes(faces):
    """Six times the volume: each face is a fan of triangles. A face that is turned the wrong way counts against it."""
    return sum(determinant(first, p, q) for first, *rest in faces for p, q in zip(rest, rest[1:]))


def flat(points):
    """The parts' faces lie along the axes: all of these points share one coordinate."""
    return any(len({point[axis] for point in points}) == 1 for axis in range(3))


def corners(b, loop):
    return [b.points[b.start[half]] for half in b.cycles[loop]]


def face_points(b, face):
    """The corners of a face and its rings."""
    return [point for loop in b.loops_of_face(face) for point in corners(b, loop)]


def body(tally, name, b, volume):
    """The loops of a table together are a body of this volume in cubic millimetres, each face flat."""
    turned = [corners(b, loop)[::-1] for loop in b.loop_face]
    tally.equal(f"the volume of {name}", six_volumes(turned), 6 * volume * 100 ** 3)
    tally.equal(f"the faces of {name} are flat", [f for f in b.face_solid if not flat(face_points(b, f))], [])
