"""The calls that are lent a session: clearing, run, undo and redo of documents 01 ("Scripts and the log") and 02 (job
4); and the program. The take-down, which is lent one too, is in takedown.py.
"""

from collections import namedtuple
from dataclasses import dataclass

from boundary import Boundary, write_back
from layout import Table, clear_words, cleared_table
from operators import plan
from rules import check, count
from script import operator_bytes, read_operator

PROGRAM_CAPACITY = 64
PROGRAM_LOG = 40_960
PROGRAM_INPUT = 4_096

ClearAnswer = namedtuple("ClearAnswer", "refusal")
RunAnswer = namedtuple("RunAnswer", "refusal rule done used start")
UndoAnswer = namedtuple("UndoAnswer", "refusal rule undone start")
# By "Redo and later jobs' logging calls answer the refusal and the number done.": no start.
RedoAnswer = namedtuple("RedoAnswer", "refusal rule done")


@dataclass
class Session:
    """By "The editor lends one session record, the two log starts, and the kernel updates that record.".

    Without a redo start it is that of a redo log of no bytes, for callers who do not redo.
    """

    log: int
    redo: int = 0

    def empty_redo(self, redo, done):
        """By "clearing, or an operator done by any call but these two, empties it"; its bytes stay."""
        if done > 0:
            self.redo = len(redo)


def entry_refusal(links, points, *logs):
    """1 and 2, in that order, of a table and of pairs of a log and its start; answers (refusal, rule)."""
    refusal, rule = check(links, points)
    if refusal == 1 or any(start > len(log) for log, start in logs):
        return 1, 0
    return refusal, rule


def put_in_front(log, start, entry):
    """Writes an entry just below the start, which moves down."""
    start -= len(entry)
    # A slice below the log's front would be put elsewhere without a word.
    assert start >= 0, "an entry that does not fit"
    log[start:start + len(entry)] = entry
    return start


def clear(capacities, links, points, log, redo, session):
    """Clearing looks at neither start; of the logs only their lengths matter."""
    refusal = clear_words(capacities, links, points)
    if refusal == 0:
        session.log, session.redo = len(log), len(redo)
    return ClearAnswer(refusal)


def run(links, points, log, redo, session, script):
    """Runs a script; links, points, log (a bytearray) and session are changed in place, of the redo log nothing."""
    refusal, rule = entry_refusal(links, points, (log, session.log))
    if refusal != 0:
        return RunAnswer(refusal, rule, 0, 0, session.log)
    body = Boundary(Table(links, points))
    done = used = 0
    while used < len(script) and refusal == 0:
        refusal, length, entry = run_one(body, script, used, session.log)
        if refusal == 0:
            session.log = put_in_front(log, session.log, entry)
            done, used = done + 1, used + length
    write_back(body, links, points)
    session.empty_redo(redo, done)
    return RunAnswer(refusal, 0, done, used, session.log)


def run_one(body, script, place, room):
    """Carries one operator out; answers (refusal, script bytes taken, log entry)."""
    refusal, op, length = read_operator(script, place, body.capacities)
    if refusal != 0:
        return refusal, 0, b""
    refusal, inverse, effect = plan(body, op)
    if refusal != 0:
        return refusal, 0, b""
    entry = operator_bytes(inverse)
    if len(entry) > room:
        return 9, 0, b""
    effect()
    return 0, length, entry


def undo(links, points, log, redo, session, wanted):
    """Runs the first operators of the live log, and writes the inverse of each into the redo log (a bytearray)."""
    answer, (session.log, session.redo) = move(links, points, (log, session.log), (redo, session.redo), wanted)
    return UndoAnswer(*answer, session.log)


def redo(links, points, log, redo_log, session, wanted):
    """By "Redo n runs its first n operators, logged as in a run": an undo with the logs exchanged."""
    answer, (session.redo, session.log) = move(links, points, (redo_log, session.redo), (log, session.log), wanted)
    return RedoAnswer(*answer)


def move(links, points, source, destination, wanted):
    """Carries out operators of one log, their inverses going into another; logs come with their starts.

    The source is only read. Answers ((refusal, rule, operators moved), the two starts).
    """
    refusal, rule = entry_refusal(links, points, source, destination)
    (script, here), (log, there), moved = source, destination, 0
    if refusal != 0:
        return (refusal, rule, 0), (here, there)
    body = Boundary(Table(links, points))
    while moved < wanted and refusal == 0:
        # "Redo past its log's end gives 11", as undo past the log's
        refusal, length, entry = run_one(body, script, here, there) if here < len(script) else (11, 0, b"")
        if refusal == 0:
            there = put_in_front(log, there, entry)
            moved, here = moved + 1, here + length
    write_back(body, links, points)
    return (refusal, 0, moved), (here, there)


def program(data):
    """What the program prints for these bytes of standard input."""
    if len(data) > PROGRAM_INPUT:
        return "input too long\n"
    table = cleared_table((PROGRAM_CAPACITY,) * 5)
    log = bytearray(PROGRAM_LOG)
    answer = run(table.links, table.points, log, b"", Session(len(log)), data)
    counts = count(table.links, table.points)[2:]
    first = f"refusal {answer.refusal} done {answer.done} used {answer.used}\n"
    return first + " ".join(f"{name} {n}" for name, n in zip("sflevrh", counts)) + "\n"


if __name__ == "__main__":
    import sys
    sys.stdout.write(program(sys.stdin.buffer.read(PROGRAM_INPUT + 1)))
