#!/usr/bin/env python3
"""Draws the figures of `bench/run --figures FILE`: the time of an operator against the size, a panel for each workload.

    bench/plot.py FIGURES.csv OUT.svg
"""
import csv
import math
import sys
from xml.sax.saxutils import escape

COLUMNS = 4
PANEL_WIDTH, PANEL_HEIGHT = 290, 230
LEFT, RIGHT, TOP, BOTTOM = 62, 14, 30, 46  # of a panel, around its axes
SYSTEMS = [  # column of the file, name, colour
    ("library_ns", "this kernel", "#0b5fa5"),
    ("twin_ns", "twin in C", "#d1495b"),
    ("cgal_ns", "CGAL", "#2e8b57"),
    ("openmesh_ns", "OpenMesh", "#8a6d00"),
]
DASHES = {"run": "", "undo": "5 3"}


def read_figures(path):
    """Each workload's name with its rows, in the file's order."""
    workloads = {}
    with open(path, encoding="utf-8", newline="") as f:
        for row in csv.DictReader(f):
            workloads.setdefault(row["workload"], []).append(row)
    return workloads


def points(rows, column, direction):
    """(size, ns) of one line; figures that are not there or not positive are left out."""
    found = [(int(r["size"]), float(r[column])) for r in rows if r["direction"] == direction and r[column]]
    return [(size, ns) for size, ns in found if ns > 0]


class Scale:
    """Logarithms of `low` to `high` spread over `start` to `end`."""

    def __init__(self, low, high, start, end):
        self.low, self.high, self.start, self.end = math.log10(low), math.log10(high), start, end

    def __call__(self, value):
        return self.start + (math.log10(value) - self.low) / (self.high - self.low) * (self.end - self.start)


def text(x, y, words, size=11, anchor="middle", extra=""):
    return f'<text x="{x:.1f}" y="{y:.1f}" font-size="{size}" text-anchor="{anchor}"{extra}>{escape(words)}</text>'


def line(x1, y1, x2, y2, colour, width=1.0, dash=""):
    dashed = f' stroke-dasharray="{dash}"' if dash else ""
    return (f'<line x1="{x1:.1f}" y1="{y1:.1f}" x2="{x2:.1f}" y2="{y2:.1f}" stroke="{colour}"'
            f' stroke-width="{width}"{dashed}/>')


def curve(places, colour, dash):
    """A line through the places, and a dot on each."""
    path = " ".join(f"{x:.1f},{y:.1f}" for x, y in places)
    dashed = f' stroke-dasharray="{dash}"' if dash else ""
    dots = [f'<circle cx="{x:.1f}" cy="{y:.1f}" r="2.4" fill="{colour}"/>' for x, y in places]
    return [f'<polyline points="{path}" fill="none" stroke="{colour}" stroke-width="1.6"{dashed}/>'] + dots


def axes(x, y, sizes, unit, decades):
    """The grid with its numbers: each decade of time, each size that was measured."""
    out = []
    for decade in decades:
        at = y(10 ** decade)
        out += [line(x.start, at, x.end, at, "#dddddd"), text(x.start - 6, at + 4, f"{10 ** decade:,}", 10, "end")]
    for size in sizes:
        out += [line(x(size), y.start, x(size), y.end, "#eeeeee"), text(x(size), y.start + 15, f"{size:,}", 10)]
    out += [line(x.start, y.start, x.end, y.start, "#444444"), line(x.start, y.start, x.start, y.end, "#444444")]
    middle = (y.start + y.end) / 2
    out.append(text((x.start + x.end) / 2, y.start + 32, f"size ({unit})"))
    turned = f' transform="rotate(-90 {x.start - 46:.1f} {middle:.1f})"'
    out.append(text(x.start - 46, middle, "ns an operator", extra=turned))
    return out


def panel(left, top, name, rows, decades):
    sizes = sorted({int(r["size"]) for r in rows})
    x = Scale(sizes[0] / 1.4, sizes[-1] * 1.4, left + LEFT, left + PANEL_WIDTH - RIGHT)
    y = Scale(10 ** decades[0], 10 ** decades[-1], top + PANEL_HEIGHT - BOTTOM, top + TOP)
    out = [text((x.start + x.end) / 2, top + 18, name, 13, extra=' font-weight="bold"')]
    out += axes(x, y, sizes, rows[0]["unit"], decades)
    for column, _, colour in SYSTEMS:
        for direction, dash in DASHES.items():
            places = [(x(size), y(ns)) for size, ns in points(rows, column, direction)]
            if places:
                out += curve(places, colour, dash)
    return out


def legend(left, top, workloads):
    """The systems that were measured, by colour, then run and undo, by dashes."""
    measured = [(name, colour, "") for column, name, colour in SYSTEMS
                if any(r[column] for rows in workloads.values() for r in rows)]
    out = []
    for name, colour, dash in measured + [(direction, "#444444", dash) for direction, dash in DASHES.items()]:
        out += [line(left, top - 4, left + 34, top - 4, colour, 1.6, dash), text(left + 42, top, name, 12, "start")]
        left += 160
    return out


def decades_of(workloads):
    """The decades that all figures lie in, so that the panels can be compared."""
    values = [ns for rows in workloads.values() for column, _, _ in SYSTEMS for direction in DASHES
              for _, ns in points(rows, column, direction)]
    return range(math.floor(math.log10(min(values))), math.ceil(math.log10(max(values))) + 1)


def drawing(workloads):
    decades = decades_of(workloads)
    rows_of_panels = math.ceil(len(workloads) / COLUMNS)
    width, height = COLUMNS * PANEL_WIDTH, rows_of_panels * PANEL_HEIGHT + 40
    out = [f'<svg xmlns="http://www.w3.org/2000/svg" width="{width}" height="{height}" viewBox="0 0 {width} {height}"'
           ' font-family="sans-serif">', f'<rect width="{width}" height="{height}" fill="white"/>']
    for i, (name, rows) in enumerate(workloads.items()):
        out += panel(i % COLUMNS * PANEL_WIDTH, i // COLUMNS * PANEL_HEIGHT, name, rows, decades)
    out += legend(LEFT, height - 14, workloads)
    return "\n".join(out + ["</svg>", ""])


def main(arguments):
    if len(arguments) != 2:
        print(__doc__, file=sys.stderr)
        return 2
    workloads = read_figures(arguments[0])
    if not workloads:
        print(f"{arguments[0]} has no figures", file=sys.stderr)
        return 1
    with open(arguments[1], "w", encoding="utf-8") as f:
        f.write(drawing(workloads))
    return 0


if __name__ == "__main__":
    sys.exit(main(sys.argv[1:]))
