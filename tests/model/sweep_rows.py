"""The tables and rows of crates/evidence_sweeps: sweeps of small tables, and what the model answers.

    python3 tests/model/sweep_rows.py           writes crates/evidence_sweeps/specs/Tables.antt; then `rt fmt`
    python3 tests/model/sweep_rows.py --check   compares that file, layout aside, with what it would write, and with the
                                                model every row of Rows.antt, which are written by hand

A table is said by its capacities and the script that leads to it. The last line printed is 'N passed, M failed', and
the exit status is 0 only when nothing failed.
"""

import os
import re
import sys

from boundary import Boundary, write_back
from kernel import Session
from layout import Table, cleared_table
from operators import carry_out
from rows import parsed
from rules import check
from sweep import sweep, swept
from takedown import least_free
from tally import Tally

FOLDER = os.path.join(os.path.dirname(os.path.abspath(__file__)), "..", "..", "crates", "evidence_sweeps", "specs")
SOLID, SPUR = "mvsf 1 1 1 1 0 0 0", "mev 1 0 1 2 0 10 0 0"
FAR_RING = (SPUR, "mev 1 2 2 3 0 40000 0 0", "mev 1 4 3 4 0 40010 0 0", "kemr 3 2")
# Name, what it is, capacities, and the operators after the first solid.
TABLES = (
    ("lone", "a lone vertex: a face whose only loop is lone", (1, 3, 3, 5, 4), ()),
    ("spur", "one edge: a loop of two corners", (1, 3, 3, 5, 4), (SPUR,)),
    ("round", "one edge from a vertex to itself: two faces with a loop of one corner each", (1, 3, 3, 3, 2),
     ("mef 1 0 0 1 2 2 0",)),
    ("path", "two edges in a row: four corners, the middle vertex met twice", (1, 5, 5, 10, 7),
     (SPUR, "mev 1 2 2 3 0 20 0 0")),
    ("ringed", "an edge and, as ring 2 of the same face, another, far away; edge 2 is free", (1, 5, 6, 10, 8),
     FAR_RING),
    ("turned", "the same with loop 2 as the outer loop and loop 1 as the ring", (1, 5, 6, 10, 8),
     FAR_RING + ("rmov 2 1",)),
    ("lone_ring", "an edge, and a lone vertex as a ring of the same face", (1, 3, 4, 6, 5),
     (SPUR, "mev 1 2 2 3 0 20 0 0", "kemr 3 2")),
    ("others", "an edge, and in another solid a lone vertex far away", (2, 4, 4, 5, 6),
     (SPUR, "mvsf 2 2 2 3 49000 0 0")),
    ("far_beside", "the round edge, with an edge to a vertex far away in its second face", (1, 4, 4, 6, 4),
     ("mef 1 0 0 1 2 2 0", "mev 2 2 2 2 0 45000 0 0")),
    ("few_faces", "the one edge, with one face too few", (1, 2, 3, 5, 4), (SPUR,)),
    ("few_loops", "with one loop too few", (1, 3, 2, 5, 4), (SPUR,)),
    ("few_edges", "with one edge too few", (1, 3, 3, 4, 4), (SPUR,)),
    ("few_vertices", "with one vertex too few", (1, 3, 3, 5, 3), (SPUR,)),
)
UP = (0, 0, 500)
LIFTING = re.compile(r"\(lifting (\w+) (\w+) ≡ ((?:(?:mev|mef)_at [^∷]*∷ )+\[\])\)")
REFUSING = re.compile(r"\(refusing (\w+) (\w+) (\d+) (\d+) (up|\(vector [^≡]*\)) ≡ (\d+)\)")
LEAST = re.compile(r"(?:LeastNew|\(all_least) \(shape_of (\w+)\) (\w+) (\((?:mev|mef)_at (?:[^()]|\([^()]*\))*\))"
                   r"(?: \(pattern \d+\)\.kinds 0 ≡ (false)\))?")
CALL = re.compile(r"Sweeps (\w+) (\w+) \(([\d∷ ]*)\[\]\) (\d+) \(starts (\d+) (\d+)\) (\d+) "
                  r"(\([a-z]+ \d+\) \([a-z]+ \d+\) \([a-z]+ \d+\)) "
                  r"\(answered (\d+) (\d+) (\d+) \(starts (\d+) (\d+)\)\) \(([\d∷ ]*)\[\]\) "
                  r"\(((?:[a-z]+ \d+ ∷ )*)\[\]\) \(([\d∷ ]*)\[\]\)")


# What the rows ask, in Rows.antt before the first of them.
ASKED = """abbrev up : Vector up = vector (pos 0) (pos 0) (pos 500)
abbrev lifting : List ℕ → List ℤ → List Operator lifting x p = sweep_ops (shape_of x) x p 1 up
abbrev refusing : List ℕ → List ℤ → ℕ → ℕ → Vector → ℕ
refusing x p start f v = sweep_refusal (shape_of x) x p start f v"""


def made(capacities, script):
    """(links, points) after a script that is accepted."""
    table = cleared_table(capacities)
    body = Boundary(table)
    for words in (SOLID,) + tuple(script):
        assert carry_out(body, parsed(words))[0] == 0, words
    links, points = list(table.links), list(table.points)
    write_back(body, links, points)
    assert check(links, points) == (0, 0)
    return links, points


def said(n):
    return f"pos {n}" if n >= 0 else f"negsuc {-n - 1}"


def signed(text):
    """The numbers that are said as pos or negsuc."""
    return [int(n) if sign == "pos" else -int(n) - 1 for sign, n in re.findall(r"(pos|negsuc) (\d+)", text)]


def tables_text():
    lines = ["-- Written by tests/model/sweep_rows.py: small tables to be swept, as the independent model makes them.",
             "use Rattle.std.specs.Prelude.{List, [], ◌∷◌, ℕ, ℤ, pos}"]
    for name, comment, capacities, script in TABLES:
        links, points = made(capacities, script)
        lines += ["", f"-- {comment}; capacities {', '.join(map(str, capacities))}", f"abbrev pub {name} : List ℕ",
                  f"{name} = " + " ∷ ".join(map(str, links)) + " ∷ []", "", f"abbrev pub {name}_at : List ℤ",
                  f"{name}_at = " + " ∷ ".join(map(said, points)) + " ∷ []"]
    return "\n".join(lines) + "\n"


def operators_said(text):
    """The operators of a row, as codes and operands."""
    found = []
    for kind, words in re.findall(r"(mev|mef)_at ([^∷]*)∷", text):
        plain, points = re.sub(r"\([^)]*\)", "", words).split(), signed(words)
        numbers = list(map(int, plain)) + ([0] + points if kind == "mev" else [])
        found.append((3 if kind == "mev" else 5, tuple(numbers)))
    return found


def check_rows(tally, text):
    tables = {name: made(capacities, script) for name, _, capacities, script in TABLES}
    for links, points, operators in LIFTING.findall(text):
        done = swept(tables[links][0], tables[points[:-3]][1], 1, UP).operators
        tally.equal(f"operators of {links}", [(op.code, op.args[:op.count]) for op in done], operators_said(operators))
    for links, points, start, face, vector, refusal in REFUSING.findall(text):
        lent = [list(tables[links][0]), list(tables[points[:-3]][1]), bytearray(int(start)), bytearray()]
        answer = sweep(*lent, Session(int(start), 0), int(face), *(UP if vector == "up" else signed(vector)))
        tally.equal(f"refusal of {links}, {start} bytes, face {face}, {vector}", answer.refusal, int(refusal))
    for links, same, said_least, wrong in LEAST.findall(text):
        (code, numbers), body = operators_said(said_least[1:-1] + " ∷")[0], Boundary(Table(*tables[links]))
        new = dict(zip(("edge", "vertex"), numbers[2:4]) if code == 3 else zip(("edge", "face", "loop"), numbers[3:6]))
        least = all(n == least_free(body, kind) for kind, n in new.items())
        tally.equal(f"least numbers of {links}: {said_least}", (links, least), (same, not wrong))
    for call in CALL.findall(text):
        check_call(tally, tables, call)


def check_call(tally, tables, call):
    """A call with every byte. Of the redo log the row has the length alone."""
    name, points, log, redo, *rest = call
    start, first, face = map(int, rest[:3])
    links, at, log = list(tables[name][0]), list(tables[points[:-3]][1]), bytearray(map(int, re.findall(r"\d+", log)))
    session = Session(start, first)
    answer = sweep(links, at, log, bytearray(int(redo)), session, face, *signed(rest[3]))
    tally.equal(f"call on {name}: answer", [*answer, session.log, session.redo], list(map(int, rest[4:9])))
    tally.equal(f"call on {name}: links", links, [int(n) for n in re.findall(r"\d+", rest[9])])
    tally.equal(f"call on {name}: points", at, signed(rest[10]))
    tally.equal(f"call on {name}: log", list(log), [int(n) for n in re.findall(r"\d+", rest[11])])


def main(words):
    path, tally = os.path.join(FOLDER, "Tables.antt"), Tally()
    if words != ["--check"]:
        with open(path, "w", encoding="utf-8") as f:
            f.write(tables_text())
    with open(path, encoding="utf-8") as f:
        tally.equal("the tables", f.read().split(), tables_text().split())
    with open(os.path.join(FOLDER, "Rows.antt"), encoding="utf-8") as f:
        text = " ".join(re.sub(r"--[^\n]*", "", f.read()).split())
    text = text[text.index("abbrev up"):]
    tally.equal("what the rows ask", text[:text.index("pub operators_as_said")].split(), ASKED.split())
    rows = text[text.index("pub operators_as_said"):]
    asked = len(re.findall(r"\b(?:lifting|refusing|Sweeps|sweep_ops|sweep_refusal|LeastNew|all_least) [(\w]",
                           re.sub(r"\bunfolding [^=]*", "", rows)))
    seen = sum(len(row.findall(rows)) for row in (LIFTING, REFUSING, LEAST, CALL))
    tally.equal("every row is looked at", seen, asked)
    check_rows(tally, rows)
    print(f"{tally.passed} passed, {tally.failed} failed")
    return 0 if tally.failed == 0 and tally.passed > 0 else 1


if __name__ == "__main__":
    sys.exit(main(sys.argv[1:]))
