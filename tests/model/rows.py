"""The rows of crates/evidence_rows: operators on small tables, and what the model says they leave.

    python3 tests/model/rows.py           writes crates/evidence_rows/specs/Rows*.antt
    python3 tests/model/rows.py --check   compares these files, layout aside, with what it would write, and with the
                                          model the rows of crates/evidence_cases/specs/Shortened.antt and of
                                          crates/table/specs/Examples.antt, which are written by hand

A table is said by the script that leads to it, a row by its operator and the refusal that
document 01 settles; words, points and inverses are the model's. While the rows are made
the model has to agree with each refusal, every table has to be sound, and every inverse
has to lead back, with the operator for its own inverse. The last line printed is
'N passed, M failed', and the exit status is 0 only when nothing failed.
"""

import os
import re
import sys

from boundary import Boundary, write_back
from layout import COORDINATE_LIMIT, Table, cleared_table
from operators import carry_out
from row_cases import FAMILIES
from rules import check
from script import NO_OPERATOR, PATTERNS, Operator, limits_of, operands_of, operator, shorten, shortest
from tally import Tally

USES = [
    "use Rattle.std.specs.Prelude.{List, [], ◌∷◌, pos, negsuc}",
    "use Rattle.euler.specs.Exec.{Table}",
    "use Rattle.evidence_rows.specs.Row.{Row, table, operation, accepts, refuses}",
]
CRATES = os.path.join(os.path.dirname(os.path.abspath(__file__)), "..", "..", "crates")
FOLDER = os.path.join(CRATES, "evidence_rows", "specs")
# Bytes, their shortest form, and whether they are shortest.
SHORTENED = os.path.join(CRATES, "evidence_cases", "specs", "Shortened.antt")
SAMPLE = re.compile(r"\bsample \(([^()]*)\) \(([^()]*)\) (true|false)")
# Links, points, and what the check answers of them.
CHECKED = os.path.join(CRATES, "table", "specs", "Examples.antt")
CHECKED_ROW = re.compile(r"\brow \(([^()]*)\) (zero_points|\([^()]*\)) (\d+) (\d+)")

# Tables and misuses

def parsed(text):
    """An operator from its name and operands, or, from 'code count ..', as a bare record."""
    words = text.split()
    if words[0] != "code":
        return operator(words[0], *map(int, words[1:]))
    numbers = list(map(int, words[2:]))
    return Operator(int(words[1]), numbers[0], tuple(numbers[1:]) + (0,) * (9 - len(numbers)))


def carried_out(op, links, points):
    """(refusal, inverse, links, points) after an operator; a record of no code is 4, one of another shape 5."""
    if op.code not in PATTERNS:
        return 4, NO_OPERATOR, links, points
    operands = operands_of(op.code)
    # as in writing one
    if op.count != len(operands) or any(op.args[len(operands):]):
        return 5, NO_OPERATOR, links, points
    links, points = list(links), list(points)
    body = Boundary(Table(links, points))
    refusal, inverse = carry_out(body, op)
    write_back(body, links, points)
    return refusal, inverse or NO_OPERATOR, links, points


def built(tally, name, capacities, script):
    """Links and points that a script leaves of an empty table."""
    table = cleared_table(capacities)
    links, points = table.links, table.points
    for text in script:
        refusal, _, links, points = carried_out(parsed(text), links, points)
        tally.equal(f"{name}: {text}", refusal, 0)
    tally.equal(f"{name}: sound", check(links, points), (0, 0))
    return links, points


def misuses(links, points, op):
    """(operand's name, what is wrong, its place, the wrong number, refusal): each operand of an operator in turn."""
    table = Table(links, points)
    body, limits, found = Boundary(table), limits_of(table.capacities), []
    for place, operand in enumerate(operands_of(op.code)):
        if operand.kind == "coordinate":
            # y is the one to go below
            beyond = -COORDINATE_LIMIT - 1 if operand.name == "y" else COORDINATE_LIMIT + 1
            found.append((operand.name, "out of range", place, beyond, 5))
            continue
        most = operand.kind[1] if isinstance(operand.kind, tuple) else limits[operand.kind]
        found.append((operand.name, "out of range", place, most + 1, 5))
        if not operand.zero:
            found.append((operand.name, "0", place, 0, 5))
        if operand.role == "":
            continue
        wanted = operand.role == "new"
        other = next(n for n in range(1, most + 1) if body.in_use(operand.kind, n) == wanted)
        found.append((operand.name, "in use" if wanted else "free", place, other, 7 if wanted else 6))
    return found


def with_numbers(op, places):
    return op._replace(args=tuple(places.get(place, number) for place, number in enumerate(op.args)))


def misused(links, points, op):
    """Rows (words, operator, refusal): each misuse of an accepted operator alone, then two at once, by their order."""
    found = misuses(links, points, op)
    rows = [(f"{name} {what}", with_numbers(op, {place: number}), refusal)
            for name, what, place, number, refusal in found]
    items = [misuse for misuse in found if misuse[4] in (6, 7)]
    ranges = [misuse for misuse in found if misuse[4] == 5]
    pairs = []
    if items and ranges and items[0][2] < ranges[-1][2]:
        pairs.append((items[0], ranges[-1], 5))
    if len(items) > 1:
        pairs.append((items[0], items[-1], items[0][4]))
    for one, two, refusal in pairs:
        both = with_numbers(op, {one[2]: one[3], two[2]: two[3]})
        rows.append((f"{one[0]} {one[1]} and {two[0]} {two[1]}", both, refusal))
    return rows


# Antt

def said(op):
    operands = operands_of(op.code) if op.code in PATTERNS else ()
    if not operands or op.count != len(operands) or any(op.args[len(operands):]):
        return f"code {op.code}, count {op.count}"
    return " ".join([PATTERNS[op.code][0]] + [str(number) for number in op.args[:op.count]])


def listed(items):
    return "(" + " ∷ ".join(list(items) + ["[]"]) + ")"


def whole(number):
    return f"pos {number}" if number >= 0 else f"negsuc {-number - 1}"


def written_table(links, points):
    return f"table {listed(map(str, links))} {listed(map(whole, points))}"


def written_operator(op):
    return f"(operation {op.code} {op.count} {listed(map(whole, op.args))})"


def one_row(tally, family, name, table, words, op, wanted):
    """Comment and lines of a row; the model has to agree with the refusal, and the inverse has to lead back."""
    refusal, inverse, *after = carried_out(op, *table)
    what = f"{family} {name}: {said(op)}: {words}"
    tally.equal(what, refusal, wanted)
    if refusal != 0:
        tally.equal(f"{what}: unchanged", tuple(after), table)
        return f"    -- {refusal}, {said(op)}: {words}", [f"refuses {name} {written_operator(op)} {refusal}"]
    tally.equal(f"{what}: sound", check(*after), (0, 0))
    tally.equal(f"{what}: undone", carried_out(inverse, *after), (0, op, *table))
    return (f"    -- {said(op)}: {words}",
            [f"accepts {name} {written_operator(op)}", f"    ({written_table(*after)})", f"    {written_operator(inverse)}"])


def family_file(tally, family):
    """The whole text of a family's file, and how many rows it has."""
    tables = {name: built(tally, f"{family.name} {name}", capacities, script)
              for name, (_, capacities, script) in family.tables.items()}
    rows = []
    for name, text, words, refusal in family.rows:
        rows.append(one_row(tally, family.name, name, tables[name], words, parsed(text), refusal))
    for name, text in family.misused:
        for words, op, refusal in misused(*tables[name], parsed(text)):
            rows.append(one_row(tally, family.name, name, tables[name], words, op, refusal))
    head = [f"-- Checked examples: {family.title}. The words come from the model in tests/model, by rows.py."] + USES
    body = []
    for name, (words, capacities, script) in family.tables.items():
        body += ["", f"-- {words}: " + ("; ".join(script) or "cleared"), f"abbrev {name} : Table",
                 f"{name} = {written_table(*tables[name])}"]
    body += ["", f"-- {family.title}", f"abbrev pub {family.name}_rows : List Row", f"{family.name}_rows ="]
    for place, (comment, parts) in enumerate(rows):
        body += [comment, ("    " if place == 0 else "    ∷ ") + parts[0]] + parts[1:]
    body += ["    ∷ []"]
    return "\n".join(head + body) + "\n", len(rows)


def all_files(tally):
    """Text by file name."""
    files, count = {}, 0
    for family in FAMILIES:
        text, rows = family_file(tally, family)
        files[f"Rows{family.name[0].upper()}{family.name[1:]}.antt"] = text
        count += rows
    print(f"{count} rows in {len(files)} files")
    return files


def read(path):
    with open(path, encoding="utf-8") as file:
        return file.read()


def compare(tally, files):
    there = sorted(name for name in os.listdir(FOLDER) if name.startswith("Rows"))
    tally.equal("the files", there, sorted(files))
    for name in there:
        # word for word; where lines break is the formatter's
        tally.holds(f"{name} is as written", files.get(name, "").split() == read(os.path.join(FOLDER, name)).split())


def numbers_in(text):
    return bytes(map(int, re.findall(r"\d+", text)))


def compare_shortened(tally):
    """The rows about shortest forms: few, and written there by hand."""
    found = SAMPLE.findall(read(SHORTENED))
    tally.holds("rows about shortest forms", len(found) > 10)
    for text, short, already in found:
        data = numbers_in(text)
        tally.equal(f"shortest form of {data.hex()}", (numbers_in(short), already),
                    (shorten(data), "true" if shortest(data) else "false"))


def compare_checked(tally):
    """The smallest tables for each way to break a rule: the rule, by the model."""
    text = read(CHECKED)
    found = CHECKED_ROW.findall(text)
    tally.equal("each row is looked at", len(found), len(re.findall(r"\brow \(", text)))
    tally.equal("each rule is there", {rule for _, _, _, rule in found}, set("0123456"))
    for links, points, refusal, rule in found:
        words = [int(word) for word in re.findall(r"\d+", links)]
        place = [0] * 6 if points == "zero_points" else [int(word) for word in re.findall(r"pos (\d+)", points)]
        tally.equal(f"check of {words} {place}", check(words, place), (int(refusal), int(rule)))


def write(files):
    for name, text in files.items():
        with open(os.path.join(FOLDER, name), "w", encoding="utf-8") as file:
            file.write(text)


def main(arguments):
    tally = Tally()
    files = all_files(tally)
    if arguments == ["--check"]:
        compare(tally, files)
        compare_shortened(tally)
        compare_checked(tally)
    elif tally.failed == 0:
        write(files)
    print(f"{tally.passed} passed, {tally.failed} failed")
    return 0 if tally.failed == 0 and tally.passed > 0 else 1


if __name__ == "__main__":
    sys.exit(main(sys.argv[1:]))
