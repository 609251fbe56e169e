#!/usr/bin/env python3
"""Draws a part as SVG, by OBJ text such as the kernel writes.

    python3 examples/draw_obj.py PART.obj PICTURE.svg

A face is drawn only where the eye sees its corners counterclockwise, which is what OBJ means by outside. A face that is
turned the wrong way is missing where it should be seen, or is seen where it should be hidden, so that it is noticed at
once. The farther face is drawn first; where faces hide each other by turns, no order of them would be right.
"""

import sys

# The eye is far away, between the x, y and z axes. To the right, up, and towards the eye: at right angles, each 25
# long, and in whole numbers, so that the picture is the same to the byte wherever it is drawn.
RIGHT, UP, TOWARDS = (-15, 20, 0), (-12, -9, 20), (16, 12, 15)
LIGHT = (6, 2, 9)  # where it comes from; 11 long
LONGEST, MARGIN = 480, 16  # the paper's longer side, and what stays white around the part
COLOUR = (222, 228, 236)  # of a face that is lit from straight ahead


def read(text):
    """The points of the v lines, and the corners of each f line by their places among the points; other lines say
    nothing that is drawn."""
    points, faces = [], []
    for word, *rest in filter(None, map(str.split, text.splitlines())):
        if word == "v":
            points.append(tuple(map(float, rest[:3])))
        elif word == "f":
            faces.append([int(number) - 1 for number in rest])
    return points, faces


def dot(a, b):
    return sum(x * y for x, y in zip(a, b))


def normal(corners):
    """Straight out of the side from which the corners come counterclockwise; its length is twice the face's area."""
    sums = [0, 0, 0]
    for p, q in zip(corners, corners[1:] + corners[:1]):
        for axis in range(3):
            i, j = (axis + 1) % 3, (axis + 2) % 3
            sums[axis] += p[i] * q[j] - p[j] * q[i]
    return sums


def seen(faces):
    """The faces that are turned towards the eye, the farthest first."""
    ahead = [corners for corners in faces if dot(normal(corners), TOWARDS) > 0]
    return sorted(ahead, key=lambda corners: sum(dot(corner, TOWARDS) for corner in corners) / len(corners))


def shade(corners):
    """The face's colour: the brighter, the straighter the light falls on it."""
    n = normal(corners)
    straight = max(0.0, dot(n, LIGHT) / (11 * dot(n, n) ** 0.5))
    return "#" + "".join(f"{round(part * (0.5 + 0.5 * straight)):02x}" for part in COLOUR)


class Paper:
    """Where points go, so that all of them fill the paper's longer side."""

    def __init__(self, points):
        across, above = [dot(p, RIGHT) for p in points], [dot(p, UP) for p in points]
        self.left, self.top = min(across), max(above)
        wide, high = max(across) - self.left, self.top - min(above)
        self.scale = (LONGEST - 2 * MARGIN) / (max(wide, high) or 1)
        self.width, self.height = (2 * MARGIN + round(self.scale * length) for length in (wide, high))

    def place(self, p):
        x, y = self.scale * (dot(p, RIGHT) - self.left), self.scale * (self.top - dot(p, UP))
        return f"{MARGIN + x:.1f},{MARGIN + y:.1f}"


def drawing(text):
    points, faces = read(text)
    paper = Paper(points)
    size = f'width="{paper.width}" height="{paper.height}"'
    out = [f'<svg xmlns="http://www.w3.org/2000/svg" {size} viewBox="0 0 {paper.width} {paper.height}"'
           ' stroke="#2b3440" stroke-width="1.4" stroke-linejoin="round">',
           f'<rect {size} fill="white" stroke="none"/>']
    for corners in seen([[points[number] for number in face] for face in faces]):
        places = " ".join(map(paper.place, corners))
        out.append(f'<polygon points="{places}" fill="{shade(corners)}"/>')
    return "\n".join(out + ["</svg>", ""])


def main(arguments):
    if len(arguments) != 2:
        print(__doc__, file=sys.stderr)
        return 2
    with open(arguments[0], encoding="utf-8") as file:
        text = file.read()
    if not read(text)[0]:
        print(f"{arguments[0]} has no points", file=sys.stderr)
        return 1
    with open(arguments[1], "w", encoding="utf-8") as file:
        file.write(drawing(text))
    return 0


if __name__ == "__main__":
    sys.exit(main(sys.argv[1:]))
