"""Runs what examples/, docs/GUIDE.md and the headers show:

    python3 tests/examples/run_examples.py [KERNEL'S ARCHIVE SWEEP'S ARCHIVE]

The C examples and the guide's C programs are built with the kernel's archive, those that sweep with the sweep's too, and
run; what the take-down of the pocket logs is held to the model; the pocket's script is held to its source, to the
model, to the solid that it is meant to be, and to the program where that is built, and in padded numbers to what it
does in shortest ones; parts as OBJ text are held to what viewing.py says of them, the sweep's example to what
sweeping.py says, headers and archives to what header.py says. The last line is 'N passed, M failed'.
"""

import os
import re
import sys
import tempfile

from files import ROOT, digest_of, output_of, read

sys.path[:0] = [os.path.join(ROOT, "tests", "model"), os.path.join(ROOT, "examples")]
import header
import library
import pocket
import sweeping
import viewing
from geometry import body
from kernel import Session, program, run
from layout import cleared_table
from rules import check
from generate import table_of
from parts import CAPACITIES, script_of
from script import operator, script_bytes
from tally import Tally

PROGRAM = os.path.join(ROOT, "target", "bin", "zoghvari")
# 80 x 60 x 30 less the pocket's 50 x 30 x 12 and the hole's 10 x 10 x 18, in cubic millimetres.
VOLUME = 80 * 60 * 30 - 50 * 30 * 12 - 10 * 10 * 18


def digests(text):
    """The lines of an example that are a name and a digest."""
    return dict(re.findall(r"^(\w+) +([0-9a-f]{16})$", text, re.MULTILINE))


def run_fresh(capacities, script):
    """What the model makes of a script on an empty table: the run's answer, and the table."""
    table, log = cleared_table(capacities), bytearray(19 * len(script))
    return run(table.links, table.points, log, b"", Session(len(log)), script), table


def edit_example(tally, folder, kernel):
    edit = library.compile_c(["examples/edit.c"], os.path.join(folder, "edit"), kernel)
    wanted = read("examples/edit.expected")
    tally.equal("examples/edit.c", output_of([edit]), (0, wanted))
    told = digests(wanted)
    tally.equal("before the edits and where undo and redo end between", told["before"], told["undone"])
    tally.equal("behind the edits and behind their redo", told["edited"], told["redone"])
    first = script_bytes([operator("mvsf", 1, 1, 1, 1, 0, 0, 0), operator("mev", 1, 0, 1, 2, 0, 1000, 0, 0)])
    side = script_bytes([operator("mev", 1, 2, 2, 3, 0, 1000, 1000, 0), operator("mef", 1, 1, 4, 3, 2, 2, 0)])
    # Of the edits those that are accepted.
    more = script_bytes([operator("semv", 1, 4, 4, 0, 500, -200, 0), operator("mef", 2, 7, 6, 5, 3, 3, 0),
                         operator("mev", 1, 5, 6, 5, 0, 300, 300, 0), operator("kemr", 11, 4)])
    for name, script in (("too_far", first), ("before", first + side), ("edited", first + side + more)):
        ran, table = run_fresh([8] * 5, script)
        tally.equal(f"the digest {name}, by the model", (ran.refusal, told[name]), (0, digest_of(table)))
    tally.equal("edits, triangle and what was too far differ", len(set(told.values())), 3)


def rebuild_example(tally, folder, kernel):
    """The take-down of the pocket. What it is expected to log is run by the model, which has to find the pocket again."""
    rebuild = library.compile_c(["examples/rebuild.c"], os.path.join(folder, "rebuild"), kernel)
    data, wanted = read("examples/pocket.script", "rb"), read("examples/rebuild.expected")
    tally.equal("examples/rebuild.c", output_of([rebuild], data), (0, wanted))
    refused = "build: refusal 4 done 0 used 0 of 1\n"
    tally.equal("examples/rebuild.c, a script that is refused", output_of([rebuild], b"\x0E"), (1, refused))
    padded, said = padded_pocket(wanted)
    tally.equal("examples/rebuild.c, padded numbers", output_of([rebuild], padded), (0, said))
    told, part = digests(wanted), table_of(pocket.pocket().table)
    tally.equal("before the take-down and after the rebuilding", told["before"], told["rebuilt"])
    tally.equal("the digest of the pocket", told["before"], digest_of(part))
    tally.equal("the digest of nothing", told["emptied"], digest_of(cleared_table(CAPACITIES)))
    words = [line.split() for line in re.findall(r"^  (.*)$", wanted, re.MULTILINE)]
    script = script_bytes([operator(name, *map(int, operands)) for name, *operands in words])
    ran, table = run_fresh(CAPACITIES, script)
    tally.equal("the script in words, run by the model: refusal", ran.refusal, 0)
    tally.equal("the script in words, run by the model: table", (table.links, table.points), (part.links, part.points))
    last = f"rebuild: refusal 0 done {len(words)} used {len(script)} of {len(script)}\n"
    tally.holds("the script's length and how many operators it has", last in wanted)


def guide(tally, folder, kernel, sweep):
    """Each whole C program of the guide is built and has to end well, with the output that the guide says."""
    text = read("docs/GUIDE.md")
    programs = re.findall(r"```c\n(.*?)```\s+prints\s+```\n(.*?)```", text, re.DOTALL)
    tally.holds("the guide has a C program", programs)
    tally.equal("each C block of the guide is a program", len(programs), text.count("```c\n"))
    for number, (source, wanted) in enumerate(programs):
        path = os.path.join(folder, f"guide{number}")
        with open(path + ".c", "w", encoding="utf-8") as file:
            file.write(source)
        built = library.compile_c([path + ".c"], path, kernel, [sweep] * (os.path.basename(header.SWEEP) in source))
        tally.equal(f"program {number + 1} of the guide", output_of([built]), (0, wanted))


def pocket_script(tally):
    part, data, wanted = pocket.pocket(), read("examples/pocket.script", "rb"), read("examples/pocket.expected")
    tally.equal("pocket.script is what pocket.py writes", data, script_of(part))
    tally.equal("pocket.expected is what the model prints", wanted, program(data))
    table = table_of(part.table)
    tally.equal("the pocket's table is sound", check(table.links, table.points), (0, 0))
    body(tally, "the pocket", part.table, VOLUME)
    if os.path.exists(PROGRAM):
        tally.equal("the program on pocket.script", output_of([PROGRAM], data), (0, wanted))


def padded_pocket(said):
    """The pocket's script in padded numbers, and what is to be said of it: as of the short one but for its bytes."""
    short, padded = read("examples/pocket.script", "rb"), read("examples/pocket-padded.script", "rb")
    return padded, re.sub(rf"(used|of) {len(short)}\b", rf"\1 {len(padded)}", said)


def padded_script(tally):
    padded, wanted = padded_pocket(read("examples/pocket.expected"))
    short = read("examples/pocket.script", "rb")
    tally.equal("pocket-padded.script is what pocket.py --padded writes", padded, pocket.padded(short))
    tally.equal("each of its numbers has three groups", re.sub(rb"[\x80-\xFF]{2}[\x00-\x7F]", b"", padded), b"")
    tally.equal("what the model prints for pocket-padded.script", program(padded), wanted)
    if os.path.exists(PROGRAM):
        tally.equal("the program on pocket-padded.script", output_of([PROGRAM], padded), (0, wanted))


def main(arguments):
    tally, (kernel, sweep) = Tally(), arguments or (library.archive(), library.archive("sweep"))
    with tempfile.TemporaryDirectory() as folder:
        header.all_headers(tally, folder, kernel, sweep)
        edit_example(tally, folder, kernel)
        rebuild_example(tally, folder, kernel)
        viewing.view_example(tally, folder, kernel, VOLUME)
        sweeping.wizard_example(tally, folder, kernel, sweep)
        guide(tally, folder, kernel, sweep)
    pocket_script(tally)
    padded_script(tally)
    viewing.insert_script(tally)
    viewing.pictures(tally)
    print(f"{tally.passed} passed, {tally.failed} failed")
    return 0 if tally.failed == 0 and tally.passed > 0 else 1


if __name__ == "__main__":
    sys.exit(main(sys.argv[1:]))
