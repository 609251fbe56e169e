"""Padded numbers on the model alone: the promise about them on random cases, and what the shortest form is."""

import re
from collections import Counter, defaultdict

import wire
from cases import any_bytes
from met import Met
from padded_cases import padded_redo_case, padded_run_case, padded_undo_case
from padded_met import is_padded, number_situations, wanted_numbers
from padded_promise import keep_promise
from padding import MOST_READ
from script import number_forms, numbers_of, read_number, read_operator, read_script, script_bytes, shorten, shortest


# The promise

def answers_of(cases):
    return [wire.answer_case(case) for case in cases]


def padded_promise(kind, make):
    """The property that the promise holds of 2,000 random cases, all situations of this kind among them."""
    def prop(tally, rng, scale):
        met = Met()
        for case, answer in keep_promise(answers_of, tally, [make(rng) for _ in range(int(2_000 * scale))]):
            met.situations.update(number_situations(case, answer))
        # Fewer cases than by default cannot be asked to meet everything.
        met.want_situations(tally, wanted_numbers(kind) if scale >= 1 else ())
    prop.__name__ = f"padded_{kind}s"
    return prop


# The shortest form

NUMBER = re.compile(rb"[\x80-\xFF]{0,2}[\x00-\x7F]")


def without_zero_groups(data):
    """The shortest form by bytes alone: no value is made, groups of zero bits are dropped from each number's end."""
    out, place = b"", 0
    found = NUMBER.match(data)
    while found:
        groups, place = [byte & 127 for byte in found.group()], found.end()
        while len(groups) > 1 and groups[-1] == 0:
            groups.pop()
        out += bytes(group | 128 for group in groups[:-1]) + bytes(groups[-1:])
        found = NUMBER.match(data, place)
    return out + data[place:]


def shortest_forms(tally, rng, scale):
    """What the shortest form is, of 2,000 random scripts, damaged ones among them."""
    met = Counter()
    for _ in range(int(2_000 * scale)):
        data = padded_run_case(rng).script if rng.random() < 0.9 else any_bytes(rng, rng.randint(1, 12))
        name, short = data.hex(), shorten(data)
        tally.equal(f"groups of zero bits dropped: {name}", short, without_zero_groups(data))
        tally.equal(f"shortened twice: {name}", shorten(short), short)
        if shortest(data):
            tally.equal(f"a shortest script stays: {name}", short, data)
        refusal, operators, place = read_script(data)
        taken = shorten(data[:place])
        tally.equal(f"reads as its shortest form: {name}", read_script(short), (refusal, operators, len(taken)))
        tally.equal(f"written in shortest form: {name}", script_bytes(operators), taken)
        if refusal == 0:
            whole_script(tally, name, data)
        met["shortest" if shortest(data) else "padded" if is_padded(data) else "neither", refusal] += 1
        met["shortened and not shortest"] += not shortest(short)
    wanted = [(form, refusal) for form in ("shortest", "padded") for refusal in (0, 3, 4, 5)]
    for situation in wanted + [("neither", 3), "shortened and not shortest"] if scale >= 1 else ():
        tally.holds(f"met: {situation}", met[situation] > 0)


def whole_script(tally, name, data):
    """Of a script that is read to its end shortest says the same by bytes, by numbers and by what is written."""
    numbers, tail = numbers_of(data)
    fewest = all(form == number_forms(value)[0] for value, form in numbers)
    tally.equal(f"no tail: {name}", tail, b"")
    tally.holds(f"the shortened form is shortest: {name}", shortest(shorten(data)))
    tally.equal(f"shortest is its own shortest form: {name}", shortest(data), shorten(data) == data)
    tally.equal(f"shortest is every number in its fewest groups: {name}", shortest(data), fewest)
    place = 0
    while place < len(data):
        _, op, length = read_operator(data, place)
        tally.holds(f"bytes of an operator: {name}", length <= MOST_READ and len(script_bytes([op])) <= 19)
        place += length


def all_forms(tally, _rng, _scale):
    """Exactly the forms of a number are read as it: by all bytes of two groups at most, and by four third groups."""
    found, low, high = defaultdict(set), range(128), range(128, 256)
    texts = [bytes([a]) for a in low] + [bytes([a, b]) for a in high for b in low]
    texts += [bytes([a, b, c]) for a in high for b in high for c in (0, 1, 64, 127)]
    for text in texts:
        value, end = read_number(text + b"\x01", 0) or (None, None)
        tally.equal(f"read whole: {text.hex()}", end, len(text))
        found[value].add(text)
    refused = found.pop(None, set())
    tally.equal("none of these is refused", refused, set())
    for value, forms in found.items():
        tally.equal(f"forms of {value}", forms, set(number_forms(value)))
    tally.equal("the smallest numbers are all there", sum(value < 1 << 14 for value in found), 1 << 14)


PADDED_PROPERTIES = (padded_promise("run", padded_run_case), padded_promise("undo", padded_undo_case),
                     padded_promise("redo", padded_redo_case), shortest_forms, all_forms)
