"""The promise about padded numbers: a padded script or log does what its shortest form does, bytes taken aside.

It is asked of any bytes whatever, refused ones too, of the model and of the compiled kernel alike.
"""

import wire
from script import shorten


# What is only read: the script of a run, the log of an undo, the redo log of a redo.
READ_ONLY = {wire.RUN: "script", wire.UNDO: "log", wire.REDO: "redo"}


def shortened(case):
    """The case of a run with its script shortened, or of an undo or redo with the live part that it reads."""
    if case.kind == wire.RUN:
        return case._replace(script=shorten(case.script))
    name, start = READ_ONLY[case.kind], case.session[case.kind == wire.REDO]
    data = getattr(case, name)
    return case._replace(**{name: data[:start] + shorten(data[start:])})


def promised(case, answer):
    """The answer that the shortened case has to get, by the answer to the case itself."""
    short = shortened(case)
    if case.kind == wire.RUN:
        refusal, rule, done, used, start = answer.numbers
        numbers = (refusal, rule, done, len(shorten(case.script[:used])), start)
        return answer._replace(numbers=numbers, script=short.script)
    if case.kind == wire.REDO:
        first, (log, end) = case.session[1], answer.session
        return answer._replace(redo=short.redo, session=(log, first + len(shorten(case.redo[first:end]))))
    first, (end, redo) = case.session[0], answer.session
    start = first + len(shorten(case.log[first:end]))
    return answer._replace(numbers=answer.numbers[:3] + (start,), log=short.log, session=(start, redo))


def keep_promise(answers_of, tally, cases):
    """Asks each case and its shortened form; answers the cases that kept the promise, each with its answer."""
    kept, short_answers = [], answers_of([shortened(case) for case in cases])
    for case, answer, short in zip(cases, answers_of(cases), short_answers):
        name = f"padded {wire.KIND_NAMES[case.kind]}: {case}"
        if not tally.holds(f"answered, {name}", answer is not None):
            continue
        # By it the bytes are compared that the promise itself puts aside.
        read_only = READ_ONLY[case.kind]
        tally.equal(f"only read, {name}", getattr(answer, read_only), getattr(case, read_only))
        if tally.equal(f"as its shortest form, {name}", short, promised(case, answer)):
            kept.append((case, answer))
    return kept
