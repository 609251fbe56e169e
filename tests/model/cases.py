"""Random wire cases for each entry point, and standard input for the program; everything from a seed.

Tables, scripts and logs come from generate.py; here they are put together, and spoiled in every way a caller can spoil them.
"""

import wire
from boundary import Boundary
from generate import (EVEN, bend, bent_structure, damage_lengths, damaged_bytes, damaged_table, pools_of, propose, random_log,
                      random_operator, random_operators, random_redo, random_script, random_table, valid_operator)
from kernel import Session, run
from layout import cleared_table
from operators import plan
from padding import half_padded, padded_log
from script import number_bytes, operator, operator_bytes, script_bytes
from sweep_cases import sweep_case
from takedown_cases import takedown_case
from wavefront_cases import obj_case

# Counts for undo that no log holds, up to the largest number a caller can hand in.
TOO_MANY = (1_000, 1 << 32, (1 << 64) - 1)


def random_case(rng):
    kind = rng.choice((wire.CLEAR, wire.CHECK, wire.COUNT, wire.READ, wire.WRITE,
                       wire.RUN, wire.RUN, wire.RUN, wire.UNDO, wire.UNDO, wire.REDO, wire.TAKEDOWN, wire.OBJ,
                       wire.SWEEP))
    return CASES[kind](rng)


def lent_case(rng, kind, numbers, links, points, log, start, script=b""):
    """A case with a redo log beside the log, and so a session."""
    redo, redo_start = random_redo(rng)
    return wire.case(kind, numbers, links, points, log, script, redo, (start, redo_start))


def any_bytes(rng, length, highest=255):
    return bytes(rng.randint(0, highest) for _ in range(length))


# Clearing, checking, counting, reading, writing

def clear_case(rng):
    table, (log, start) = random_table(rng), random_log(rng)
    links, points, numbers = list(table.links), list(table.points), list(table.capacities)
    dice = rng.random()
    if dice < 0.2:
        numbers[rng.randrange(5)] = rng.choice((0, 1, 2, 4_096, 4_097, 65_535, 65_536))
    elif dice < 0.4:
        damage_lengths(rng, links, points)
    return lent_case(rng, wire.CLEAR, numbers, links, points, log, start)


def table_case(kind):
    def make(rng):
        if rng.random() < 0.4:
            table = random_table(rng)
            return wire.case(kind, (), table.links, table.points)
        links, points = damaged_table(rng)
        return wire.case(kind, (), links, points)
    return make


def read_case(rng):
    table = random_table(rng)
    script = half_padded(rng, random_script(rng, table))
    place = rng.choice((0, 0, rng.randint(0, len(script) + 2)))
    numbers = (place,) if rng.random() < 0.5 else (place,) + table.capacities
    return wire.case(wire.READ, numbers, script=script)


def write_case(rng):
    op = random_operator(rng, Boundary(random_table(rng)))
    code, count, args = op.code, op.count, list(op.args)
    dice = rng.randrange(8)
    if dice == 0:
        code = rng.choice((0, 14, 255, rng.randint(1, 13)))
    elif dice == 1:
        count = rng.choice((0, 8, 9, count + 1, count - 1))
    elif dice == 2:
        args[rng.randrange(8)] = rng.choice((0, -1, 1, 4_096, 4_097, 8_192, 8_193, 50_001, -50_001, -(1 << 31)))
    length = rng.choice((40, len(operator_bytes(op)), rng.randint(0, 20)))
    place = rng.choice((0, 0, rng.randint(0, length + 1)))
    return wire.case(wire.WRITE, [code, count] + args + [place], script=any_bytes(rng, length))


# One operator

def operator_case(rng):
    """A script of one operator on a sound table: each code, accepted or refused for each reason."""
    table, (log, start) = random_table(rng), roomy_log(rng)
    b = Boundary(table)
    code = rng.randint(1, 13)
    op = operator_for(rng, b, code)
    script, dice = operator_bytes(op), rng.random()
    if dice < 0.25:
        script = operator_bytes(bend(rng, b, op))
    elif dice < 0.33:
        script = damaged_bytes(rng, script)
    elif dice < 0.36:
        script = number_bytes(rng.choice((0, 14, 15, 127, 128, 16_384, rng.randint(14, 2_000_000)))) + script[1:]
    elif dice < 0.46:
        start = tight_start(rng, b, op, len(log))
    elif dice < 0.66:
        # Items as they have to be, and the condition left to chance: it is what has to accept or refuse.
        script = operator_bytes(propose(rng, b, pools_of(b), code))
    return lent_case(rng, wire.RUN, (), table.links, table.points, log, start, half_padded(rng, script))


def roomy_log(rng):
    """Most often room for one inverse, which takes 19 bytes at most."""
    if rng.random() < 0.1:
        return random_log(rng)
    log = any_bytes(rng, rng.choice((19, 22, 60)))
    return log, rng.randint(19, len(log))


def operator_for(rng, b, code, tries=30):
    """An accepted operator of this code where tries find one, else any accepted one, else one proposed."""
    pools = pools_of(b)
    for _ in range(tries):
        op = propose(rng, b, pools, code)
        if plan(b, op)[0] == 0:
            return op
    return valid_operator(rng, b, EVEN) or op


def tight_start(rng, b, op, length):
    """A start with exactly the room that the inverse needs, or a byte less, where the log is long enough."""
    refusal, inverse, _ = plan(b, op)
    need = len(operator_bytes(inverse)) if refusal == 0 else rng.randint(0, 19)
    return min(length, max(0, need - rng.randint(0, 1)))


# Whole scripts

def lent_table(rng):
    """Links and points for run and undo that fit no script: sound ones of another shape, damaged ones, short ones."""
    dice = rng.random()
    if dice > 0.6:
        return damaged_table(rng)
    # Words of a bent structure pass rules 1 to 3 more often than damaged words do.
    table = bent_structure(rng) if dice > 0.2 else random_table(rng)
    if dice < 0.05:
        return table.links[:rng.randint(0, 5)], table.points[:rng.randint(0, 3)]
    return table.links, table.points


def run_case(rng):
    table, (log, start) = random_table(rng), random_log(rng)
    script = random_script(rng, table)
    dice = rng.random()
    if dice < 0.06:
        script = any_bytes(rng, rng.choice((1, 3, 10, 40)), rng.choice((13, 255)))
    links, points = (table.links, table.points) if dice < 0.8 else lent_table(rng)
    return lent_case(rng, wire.RUN, (), links, points, log, start, half_padded(rng, script))


def undo_case(rng):
    """Undo on a log that a run left, on one that a stranger wrote, or on any bytes at all."""
    table = random_table(rng)
    make = rng.choice((log_of_run, log_of_run, log_of_stranger, log_of_script, log_of_bytes))
    links, points, log, start, live = make(rng, table)
    if rng.random() < 0.5:
        log = padded_log(rng, log, start)
    if log and rng.random() < 0.2:
        log = damaged_bytes(rng, bytes(log))
    if rng.random() < 0.08:
        start = random_log(rng)[1]
    if rng.random() < 0.2:
        links, points = lent_table(rng)
    wanted = rng.choice((live,) * 4 + (max(0, live - 1), live + 1, live + 2) + TOO_MANY)
    return lent_case(rng, wire.UNDO, (wanted,), links, points, log, start)


def exchanged(frame):
    """An undo's case or answer as that of a redo with the logs exchanged; redo answers no start."""
    return frame._replace(kind=wire.REDO, numbers=frame.numbers[:3], log=frame.redo, redo=frame.log,
                          session=frame.session[::-1])


def redo_case(rng):
    return exchanged(undo_case(rng))


def log_of_run(rng, table):
    log, start = random_log(rng)
    links, points, log = list(table.links), list(table.points), bytearray(log)
    done = run(links, points, log, b"", Session(start), random_script(rng, table))
    return links, points, log, done.start, done.done


def log_of_stranger(rng, table):
    """Operators that the table accepts, makers among them, which no run of ours has logged."""
    operators = random_operators(rng, Boundary(table), rng.choice((1, 2, 4, 8)))
    front, behind = any_bytes(rng, rng.choice((0, 1, 30))), any_bytes(rng, rng.choice((0, 0, 0, 1, 7)))
    return table.links, table.points, front + script_bytes(operators) + behind, len(front), len(operators)


def strange_script(rng, table):
    """Operators that the table accepts, makers among them; often with one behind that need not be accepted."""
    b, dice = Boundary(table), rng.random()
    operators = random_operators(rng, b, rng.choice((0, 1, 2, 4, 8)))
    if dice < 0.7:
        operators.append(bend(rng, b, operators[-1]) if operators and dice < 0.2 else random_operator(rng, b))
    return script_bytes(operators)


def log_of_script(rng, table):
    """Any script in the place of a log: its operators may be refused for each reason, which a run's log never is."""
    front = any_bytes(rng, rng.choice((0, 1, 30)))
    return table.links, table.points, front + random_script(rng, table), len(front), 16


def log_of_bytes(rng, table):
    """Bytes up to 13 are read as operators more often than any bytes."""
    log = any_bytes(rng, rng.choice((0, 1, 2, 5, 20, 60)), rng.choice((13, 13, 255)))
    return table.links, table.points, log, rng.randint(0, len(log)), rng.randint(0, 3)


CASES = {wire.CLEAR: clear_case, wire.CHECK: table_case(wire.CHECK), wire.COUNT: table_case(wire.COUNT),
         wire.READ: read_case, wire.WRITE: write_case, wire.RUN: run_case, wire.UNDO: undo_case,
         wire.REDO: redo_case, wire.TAKEDOWN: takedown_case, wire.OBJ: obj_case, wire.SWEEP: sweep_case}


# The program

def program_input(rng):
    """Standard input for the program: scripts for capacities 64, up to and past its limit."""
    b = Boundary(cleared_table((64,) * 5))
    script = half_padded(rng, script_bytes(random_operators(rng, b, rng.choice((0, 1, 5, 30, 120)))))
    dice = rng.random()
    if dice < 0.3:
        return script
    if dice < 0.5:
        return script + half_padded(rng, operator_bytes(random_operator(rng, b)))
    if dice < 0.9:
        return damaged_bytes(rng, script or b"\0")
    # A solid made and killed again and again fills any number of bytes with accepted operators.
    pair = script_bytes([operator("mvsf", 64, 64, 64, 64, 0, 0, 0), operator("kvsf", 64)])
    return (pair * 10_000)[:rng.choice((4_090, 4_095, 4_096, 4_096, 4_097, 4_097, 4_100, 70_000))]
