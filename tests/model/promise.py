"""The undo promise asked of the compiled kernel: lists of scripts run one after the other, then undone by the sum of the
done counts.

Each call is handed what the kernel's call before has left, never what the model says, so that a slip is carried on to
the end. By document 02 (job 4) the promise "supposes a redo start not beyond the redo log, and room in that log for the
operators undo writes there"; where the room ends, undo has to end by 9, with table and session as before the operator
that met it.
"""

import wire
from cases import any_bytes
from generate import beyond, random_log, random_script, random_table
from layout import Table
from library import ask
from padding import half_padded
from script import operator_bytes, read_script, script_bytes, shorten


# What undo meets counts, not what the first session held: the first operator done has set the redo log's start.
MENDED = "promised, though the first redo start was beyond its log"


# Room in the redo log, by the lengths of the operators that undo writes there, in the order in which they were done

def just_enough(_rng, lengths):
    return sum(lengths)


def more(rng, lengths):
    return sum(lengths) + rng.choice((1, 5, 300))


def a_byte_less(rng, lengths):
    """A byte less than some of the operators need, the last ones: undo begins with these."""
    return sum(lengths[rng.randrange(len(lengths)):]) - 1 if lengths else 0


class Story:
    """One list of scripts: where it began, the scripts, the operators done, and what the kernel left last."""

    def __init__(self, rng, room):
        table, (log, start) = random_table(rng), first_log(rng)
        last = wire.case(wire.RUN, (), table.links, table.points, log, session=(start, 0))
        self.scripts, taken = [], b""
        for _ in range(rng.choice((0, 1, 2, 3, 4, 6))):
            # The script fits the table as the model has it; which table the kernel has is its own affair.
            script = half_padded(rng, random_script(rng, Table(list(last.links), list(last.points))))
            last = wire.answer_case(run_after(last, script))
            self.scripts.append(script)
            taken += shorten(script[:last.numbers[3]])
        self.operators = read_script(taken)[1]
        redo = rng.randbytes(room(rng, [len(operator_bytes(op)) for op in self.operators]))
        # To a run it does not matter where the redo log starts; the first operator done empties it.
        redo_start = rng.choice((0, len(redo), len(redo), beyond(rng, redo)))
        self.first = self.last = wire.case(wire.RUN, (), table.links, table.points, log, b"", redo, (start, redo_start))
        self.done = 0

    def undo_case(self):
        return self.last._replace(kind=wire.UNDO, numbers=(self.done,), script=b"")

    def is_promised(self):
        """Whether neither start handed to undo is beyond its log."""
        return all(place <= len(log) for place, log in zip(self.last.session, (self.last.log, self.last.redo)))

    def fitting(self):
        """How many of the last operators fit into the redo log."""
        room, count = self.last.session[1], 0
        for op in reversed(self.operators):
            room -= len(operator_bytes(op))
            if room < 0:
                break
            count += 1
        return count

    def promised(self):
        """What undo has to answer and to leave: the table before the operators that fit, these in the redo log."""
        fitting = self.fitting()
        kept, undone = self.operators[:self.done - fitting], script_bytes(self.operators[self.done - fitting:])
        before = wire.answer_case(run_after(self.first, script_bytes(kept)))
        start, room = before.session[0], self.last.session[1] - len(undone)
        return before._replace(
            kind=wire.UNDO, numbers=(0 if fitting == self.done else 9, 0, fitting, start), script=b"",
            log=self.last.log, redo=self.last.redo[:room] + undone + self.last.redo[room + len(undone):], session=(start, room))

    def situations(self):
        if self.is_promised() and self.done > 0:
            fitting = self.fitting()
            yield "promised, all undone" if fitting == self.done else "promised, 9"
            if self.first.session[1] > len(self.first.redo):
                yield MENDED
            if self.last.session[1] == len(script_bytes(self.operators)):
                yield "promised, all undone by just the room for it"
            if fitting < self.done:
                yield "promised, 9 at the first operator" if fitting == 0 else "promised, 9 behind others"
                if len(script_bytes(self.operators[-fitting - 1:])) == self.last.session[1] + 1:
                    yield "promised, 9 by one byte"


def first_log(rng):
    """Most often long enough for a list of scripts; now and then short, or with a start beyond it."""
    if rng.random() < 0.3:
        return random_log(rng)
    log = any_bytes(rng, rng.choice((300, 600)))
    return log, rng.choice((len(log), len(log) - 7, len(log) // 2))


def run_after(last, script):
    return last._replace(kind=wire.RUN, numbers=(), script=script)


def run_round(driver, tally, met, stories, place):
    """The script at this place of each story that has one; stories that lost their answer are left out from here on."""
    going = [story for story in stories if place < len(story.scripts)]
    cases = [run_after(story.last, story.scripts[place]) for story in going]
    lost = set()
    for story, case, answer in zip(going, cases, ask(driver, cases)):
        if tally.equal(f"script {place} of a list: {case}", answer, wire.answer_case(case)):
            met.add(case, answer)
        if answer is None:
            lost.add(id(story))
            continue
        story.last, story.done = answer, story.done + answer.numbers[2]
    return [story for story in stories if id(story) not in lost]


def tell(driver, tally, met, rng, count, rooms):
    """So many lists of scripts, from the first run to the undo, with room in the redo log by one of these choices."""
    stories = [Story(rng, rng.choice(rooms)) for _ in range(count)]
    for place in range(max(len(story.scripts) for story in stories)):
        stories = run_round(driver, tally, met, stories, place)
    cases = [story.undo_case() for story in stories]
    for story, case, answer in zip(stories, cases, ask(driver, cases)):
        if not tally.equal(f"undo of a list: {case}", answer, wire.answer_case(case)):
            continue
        met.add(case, answer)
        keep_promise(tally, met, story, case, answer)


def keep_promise(tally, met, story, case, answer):
    """Of a start beyond its log nothing is promised but that the table stays, which no operator has changed then."""
    if not story.is_promised():
        tally.equal(f"nothing done, nothing undone: {case}", (story.done, answer.links, answer.points),
                    (0, story.first.links, story.first.points))
        return
    met.situations.update(story.situations())
    tally.equal(f"operators done: {case}", story.done, len(story.operators))
    tally.equal(f"as promised, to the byte: {case}", answer, story.promised())
    start = story.first.session[0]
    tally.equal(f"the log behind the first start: {case}", answer.log[start:], story.first.log[start:])


WANTED = ["promised, all undone by just the room for it", "promised, 9 at the first operator",
          "promised, 9 behind others", "promised, 9 by one byte"]
