"""The gate: runs each step, adds up their 'N passed, M failed', and prints the sum as its last line.

A step fails as a whole where it exits with another status than 0, prints no such line as its last one, or counts no
test: a run that was cut short, or that tested nothing, must not pass for a good one. The step `rt ci` fails too where a
must-fail edit counts for nothing.
"""
import re
import subprocess
import sys
import time

CLOSING = re.compile(r"^(\d+) passed, (\d+) failed$")
# what `rt ci` says of a good run: the edits that were refused, and the bad ones, which fail nothing there
GOOD_RUN = re.compile(r"^rt: ok\b.*$", re.M)
REFUSED, BAD = re.compile(r"\bmust-fail edits: [1-9]\d* refused\b"), re.compile(r", (\d+) bad\b")
# what it says of edits that are refused and show nothing: by a limit of the check, or for a name that is gone
LIMITED = re.compile(r", (\d+) of them only by a limit\b")
EMPTY = re.compile(r"^rt: must-fail \S+ refused\b.*(?:only because|gave up at one of its limits).*$", re.M)


def steps():
    """Name and command of each step, in order: cheap ones first, so that a slip shows at once.

    `rt ci` leaves no archive, so what needs one or a program comes behind the step that builds them. A step whose file
    is missing fails.
    """
    found = [
        ("crates are listed", ["tests/gate/listed.py", "."]),
        ("theorems are where the table says", ["tests/gate/theorems.py", "."]),
        ("names are where the architecture says", ["tests/gate/architecture.py", "."]),
        ("rules of the sources", ["tests/gate/rules.py", "."]),
        ("kef has no scratch memory", ["tests/gate/scratch.py", "."]),
        ("the middle of kef", ["tests/gate/amid.py", "."]),
        ("the sweep is above the kernel", ["tests/gate/above.py", "."]),
        ("the gate itself", ["tests/gate/test_gate.py"]),
        ("model", ["tests/model/test_model.py"]),
        ("rows of the examples", ["tests/model/rows.py", "--check"]),
        ("rows of the sweep", ["tests/model/sweep_rows.py", "--check"]),
        ("rt ci", None),
        ("archives and programs", ["tests/gate/built.py", "."]),
        ("library against model", ["tests/model/compare_library.py"]),
        ("stores of kef, watched", ["tests/model/watch_kef.py"]),
        ("examples and guide", ["tests/examples/run_examples.py"]),
        ("Rust wrapper", ["tests/rust/run_cargo.py"]),
        ("program against model", ["tests/model/compare_program.py"]),
        ("OBJ program against model", ["tests/model/compare_obj.py"]),
        ("OBJ text in other programs", ["tests/model/loaders.py"]),
    ]
    return [(name, [sys.executable] + words if words else ["rt", "ci"]) for name, words in found]


def judge(status, output):
    """(passed, failed) of a step by its exit status and what it printed."""
    lines = output.strip().splitlines()
    closing = CLOSING.match(lines[-1]) if lines else None
    if closing is None:
        return 0, 1
    passed, failed = int(closing.group(1)), int(closing.group(2))
    if status != 0 or passed == 0:
        failed = max(failed, 1)
    return passed, failed


def judge_proofs(status, output):
    """The same of `rt ci`: it fails where edits are bad or show nothing, or where it does not say that edits were
    refused."""
    passed, failed = judge(status, output)
    said = GOOD_RUN.findall(output)
    bad = sum(int(count) for line in said for count in BAD.findall(line) + LIMITED.findall(line))
    bad += len(EMPTY.findall(output))
    if bad > 0 or len(said) != 1 or not REFUSED.search(said[0]):
        failed = max(failed, bad, 1)
    return passed, failed


def run_step(root, name, command):
    """Runs one step, shows what it prints, and judges it."""
    print(f"== {name}", flush=True)
    began = time.time()
    done = subprocess.run(command, cwd=root, stdout=subprocess.PIPE, stderr=subprocess.STDOUT, text=True,
                          errors="replace")
    print(done.stdout, end="" if done.stdout.endswith("\n") else "\n")
    passed, failed = (judge_proofs if name == "rt ci" else judge)(done.returncode, done.stdout)
    print(f"== {name}: {passed} passed, {failed} failed, {time.time() - began:.0f} s", flush=True)
    return passed, failed


def main(root):
    passed = failed = 0
    for name, command in steps():
        p, f = run_step(root, name, command)
        passed, failed = passed + p, failed + f
    print(f"{passed} passed, {failed} failed")
    return 0 if failed == 0 and passed > 0 else 1


if __name__ == "__main__":
    sys.exit(main(sys.argv[1]))
