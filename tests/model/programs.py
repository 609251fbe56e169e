"""The compiled programs for tests: found or made, run as processes, and compared with what the model prints."""

import os
import subprocess
import time
from collections import Counter, namedtuple

from generate import seeded
from library import ROOT, build, newest_source
from tally import Tally

SECONDS = 20

# A program by its name, and what the model prints in its place. Input that is fixed, that comes in pieces, and that is
# random, so often by default. Which kind of output something is, and the kinds that have to be met.
Program = namedtuple("Program", "name model fixed pieces random usual kind wanted")


def built(name):
    """The program's path; proved and made where it is missing or older than the code it is made of."""
    path = os.path.join(ROOT, "target", "bin", name)
    if not os.path.exists(path) or os.path.getmtime(path) < newest_source():
        build(name)
    return path


def printed(path, data):
    """What the program prints for this input, or how it ended."""
    try:
        done = subprocess.run([path], input=data, stdout=subprocess.PIPE, stderr=subprocess.PIPE, timeout=SECONDS,
                              check=False)
    except subprocess.TimeoutExpired:
        return "no end"
    if done.returncode != 0 or done.stderr:
        return f"exit status {done.returncode}, {done.stderr!r}"
    return done.stdout.decode("latin-1")


def printed_slowly(path, pieces):
    """The same where the input comes in pieces, so that a read answers less than there is to come."""
    try:
        return fed_slowly(path, pieces)
    except BrokenPipeError:
        return "an end before the input's"


def fed_slowly(path, pieces):
    with subprocess.Popen([path], stdin=subprocess.PIPE, stdout=subprocess.PIPE) as process:
        try:
            for piece in pieces:
                process.stdin.write(piece)
                process.stdin.flush()
                time.sleep(0.02)
            output, _ = process.communicate(timeout=SECONDS)
        except BrokenPipeError:
            process.kill()
            raise
        except subprocess.TimeoutExpired:
            process.kill()
            return "no end"
    return output.decode("latin-1")


def compare(tally, met, program, path, data):
    wanted = program.model(data)
    if tally.equal(f"{program.name} on {data[:64].hex()} ({len(data)} bytes)", printed(path, data), wanted):
        met[program.kind(wanted)] += 1


def path_given(arguments):
    """The path behind --program, None without it; and the other arguments."""
    if "--program" not in arguments:
        return None, arguments
    place = arguments.index("--program")
    return arguments[place + 1], arguments[:place] + arguments[place + 2:]


def compare_all(program, arguments):
    """Compares a program with the model, by the arguments of the command; answers the exit status."""
    path, arguments = path_given(arguments)
    count, seed = (int(n) for n in (arguments + [program.usual, 1][len(arguments):])[:2])
    path, rng, tally, met, began = path or built(program.name), seeded(seed), Tally(), Counter(), time.time()
    for data in program.fixed:
        compare(tally, met, program, path, data)
    for pieces in program.pieces:
        wanted = program.model(b"".join(pieces))
        tally.equal(f"{program.name} on input in pieces", printed_slowly(path, pieces), wanted)
    for _ in range(count):
        compare(tally, met, program, path, program.random(rng))
    for name in program.wanted:
        tally.holds(f"met: {name}", met[name] > 0)
    print(f"{program.name} against model: {count} random scripts, seed {seed}, {time.time() - began:.0f} s")
    print("  met: " + ", ".join(f"{name}: {met[name]}" for name in sorted(met)))
    print(f"{tally.passed} passed, {tally.failed} failed")
    return 0 if tally.failed == 0 and tally.passed > 0 else 1
