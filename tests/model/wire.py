"""Framing of test cases and answers, simple enough for a C program to read.

One frame, the same for a case and for its answer; all numbers are little-endian:

    u8  kind
    u32 n, then n numbers of u64 (a negative one as its two's complement)
    u32 n, then n words of u16     links
    u32 n, then n words of i32     points
    u32 n, then n bytes            log
    u32 n, then n bytes            script
    u32 n, then n bytes            redo log
    u32 n, then n numbers of u64   session: the starts of log and redo log, or none

A stream is frames one after the other up to its end. The answer to a case has the
case's kind, the numbers below, and links, points, log, script, redo log and session
as the call left them (a call that is not handed one of them passes it on unchanged).
Kinds 1, 6, 7, 8, 10 and 11 are lent a session.

    kind        numbers of the case             numbers of the answer
    1 clear     S F L E V                       refusal
    2 check     -                               refusal rule
    3 count     -                               refusal rule s f l e v r h
    4 read      place, then nothing             refusal length code count arg1 .. arg8
                or place S F L E V                (script: the bytes to read from; with
                                                  capacities: read for such a table)
    5 write     code count arg1 .. arg8 place   refusal length (script: the destination)
    6 run       -                               refusal rule done used start
    7 undo      n                               refusal rule undone start
    8 takedown  -                               refusal rule done start
    9 obj       solid                           refusal rule length (script: the buffer)
    10 redo     n                               refusal rule done
    11 sweep    face dx dy dz                   refusal rule done

rule is 0 unless the refusal is 2. What document 01 leaves free is 0 in the model's
answers, and mask_free sets it to 0 in any answer before two are compared.
"""

import struct
from collections import namedtuple

from kernel import Session, clear, redo, run, undo
from rules import check, count
from script import Operator, read_operator, write_operator
from sweep import sweep
from takedown import take_down
from wavefront import obj

CLEAR, CHECK, COUNT, READ, WRITE, RUN, UNDO, TAKEDOWN, OBJ, REDO, SWEEP = range(1, 12)
WORD = 1 << 64
KIND_NAMES = {CLEAR: "clear", CHECK: "check", COUNT: "count", READ: "read",
              WRITE: "write", RUN: "run", UNDO: "undo", TAKEDOWN: "takedown", OBJ: "obj",
              REDO: "redo", SWEEP: "sweep"}

Frame = namedtuple("Frame", "kind numbers links points log script redo session")


def case(kind, numbers=(), links=(), points=(), log=b"", script=b"", redo=b"", session=()):
    return Frame(kind, tuple(numbers), tuple(links), tuple(points), bytes(log), bytes(script), bytes(redo),
                 tuple(session))


def encode_case(frame):
    """The frame's bytes; answers are encoded the same way."""
    out = struct.pack("<B", frame.kind)
    for letter, values in (("Q", [n % WORD for n in frame.numbers]),
                           ("H", frame.links), ("i", frame.points)):
        out += struct.pack("<I", len(values)) + struct.pack(f"<{len(values)}{letter}", *values)
    for data in (frame.log, frame.script, frame.redo):
        out += struct.pack("<I", len(data)) + data
    return out + struct.pack(f"<I{len(frame.session)}Q", len(frame.session), *frame.session)


def decode_answer(data, place=0):
    """Answers (frame, place after it); cases are decoded the same way."""
    kind, place = data[place], place + 1
    fields = []
    for letter, size in (("Q", 8), ("H", 2), ("i", 4), ("s", 1), ("s", 1), ("s", 1), ("Q", 8)):
        (n,) = struct.unpack_from("<I", data, place)
        place += 4
        got = struct.unpack_from(f"<{n}{letter}", data, place)
        fields.append(got[0] if letter == "s" else got)
        place += n * size
    return Frame(kind, *fields), place


def decode_stream(data):
    place, frames = 0, []
    while place < len(data):
        frame, place = decode_answer(data, place)
        frames.append(frame)
    return frames


def decode_whole(data):
    """The frames that are there whole: what a driver that was cut off has answered."""
    place, frames = 0, []
    try:
        while place < len(data):
            frame, place = decode_answer(data, place)
            frames.append(frame)
    except struct.error:
        pass
    return frames


def signed(number):
    return number - WORD if number >= WORD // 2 else number


def mask_free(frame):
    """Sets to 0 the numbers of an answer that document 01 leaves free after a refusal."""
    numbers = [n % WORD for n in frame.numbers]
    keep = {COUNT: 2, READ: 1, WRITE: 1}.get(frame.kind)
    if keep is not None and numbers[0] != 0:
        numbers[keep:] = [0] * len(numbers[keep:])
    return frame._replace(numbers=tuple(numbers))


def answer_case(frame):
    """The model's answer to a case."""
    links, points = list(frame.links), list(frame.points)
    if frame.kind in LENT_SESSIONS:
        log, redo_log, session = bytearray(frame.log), bytearray(frame.redo), Session(*frame.session)
        numbers = LENT_SESSIONS[frame.kind](frame, (links, points, log, redo_log, session))
        return case(frame.kind, numbers, links, points, log, frame.script, redo_log, (session.log, session.redo))
    script = bytearray(frame.script)
    numbers = OTHERS[frame.kind](frame.numbers, links, points, script)
    return mask_free(case(frame.kind, numbers, links, points, frame.log, script, frame.redo, frame.session))


def answer_read(numbers, script):
    refusal, op, length = read_operator(script, numbers[0], numbers[1:] or None)
    return (refusal, length, op.code, op.count) + op.args


def answer_write(numbers, script):
    op = Operator(numbers[0], numbers[1], tuple(signed(n) for n in numbers[2:10]))
    return write_operator(op, script, numbers[10])


OTHERS = {
    CHECK: lambda numbers, links, points, script: check(links, points),
    COUNT: lambda numbers, links, points, script: count(links, points),
    READ: lambda numbers, links, points, script: answer_read(numbers, script),
    WRITE: lambda numbers, links, points, script: answer_write(numbers, script),
    OBJ: lambda numbers, links, points, script: obj(links, points, numbers[0], script),
}
# What they are lent: links, points, log, redo log and session.
LENT_SESSIONS = {
    CLEAR: lambda frame, lent: clear(frame.numbers, *lent),
    RUN: lambda frame, lent: run(*lent, frame.script),
    UNDO: lambda frame, lent: undo(*lent, frame.numbers[0]),
    TAKEDOWN: lambda frame, lent: take_down(*lent),
    REDO: lambda frame, lent: redo(*lent, frame.numbers[0]),
    SWEEP: lambda frame, lent: sweep(*lent, frame.numbers[0], *map(signed, frame.numbers[1:])),
}
