"""Runs the Rust wrapper's tests against the two archives: python3 tests/rust/run_cargo.py [ARCHIVES' FOLDER]

What cargo counts is added up; the last line is 'N passed, M failed'. A build that fails is one failure.
"""

import os
import re
import shutil
import subprocess
import sys

ROOT = os.path.dirname(os.path.dirname(os.path.dirname(os.path.abspath(__file__))))
sys.path.insert(0, os.path.join(ROOT, "tests", "model"))
import library

RESULT = re.compile(r"^test result: \w+\. (\d+) passed; (\d+) failed;", re.MULTILINE)


def cargo():
    """The cargo on the path, or where Rust's installer puts it for a user."""
    return shutil.which("cargo") or os.path.expanduser(os.path.join("~", ".cargo", "bin", "cargo"))


def run(folder):
    """Cargo's exit status and output; what it builds goes to target/, like everything that is built here."""
    environment = dict(os.environ, ZOGHVARI_LIB_DIR=folder, CARGO_TARGET_DIR=os.path.join(ROOT, "target", "rust"))
    command = [cargo(), "test", "--offline", "--locked", "--quiet", "--no-fail-fast"]
    done = subprocess.run(command, cwd=os.path.join(ROOT, "rust"), env=environment, stdout=subprocess.PIPE,
                          stderr=subprocess.STDOUT, text=True, errors="replace", check=False)
    return done.returncode, done.stdout


def main(arguments):
    try:
        made = [os.path.dirname(library.archive(name)) for name in ("kernel", "sweep") if not arguments]
        status, output = run(os.path.abspath(arguments[0]) if arguments else made[0])
    except FileNotFoundError:
        status, output = 1, "cargo is not there\n"
    counted = [(int(passed), int(failed)) for passed, failed in RESULT.findall(output)]
    passed, failed = sum(p for p, _ in counted), sum(f for _, f in counted)
    if status != 0:
        print(output)
        failed = max(failed, 1)
    print(f"{passed} passed, {failed} failed")
    return 0 if failed == 0 and passed > 0 else 1


if __name__ == "__main__":
    sys.exit(main(sys.argv[1:]))
