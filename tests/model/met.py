"""What a comparison has met: how often each code was accepted and refused, each refusal answered, each rule named.

A comparison that meets only refusals shows little, so the counts are printed, and large ones have to have met everything.
"""

from collections import Counter

import wire
from script import PATTERNS, read_number

NAMES = {code: name for code, (name, _) in PATTERNS.items()}


class Met:
    def __init__(self):
        self.answers, self.codes, self.rules, self.situations = Counter(), Counter(), Counter(), Counter()

    def add(self, case, answer):
        """Counts an answer, and for run, undo and redo each operator carried out and the one refused."""
        kind, refusal = wire.KIND_NAMES[case.kind], answer.numbers[0]
        self.answers[kind, refusal] += 1
        if refusal == 2:
            self.rules[kind, answer.numbers[1]] += 1
        if case.kind == wire.RUN and refusal not in (1, 2):
            self.add_operators(case.script, 0, answer.numbers[2], refusal)
        if case.kind == wire.UNDO and refusal not in (1, 2):
            self.add_operators(case.log, case.session[0], answer.numbers[2], refusal)
        if case.kind == wire.REDO and refusal not in (1, 2):
            self.add_operators(case.redo, case.session[1], answer.numbers[2], refusal)

    def add_operators(self, data, place, done, refusal):
        for _ in range(done):
            code, place = read_number(data, place)
            self.codes[code, 0] += 1
            for _ in PATTERNS[code][1]:
                _, place = read_number(data, place)
        got = read_number(data, place)
        if refusal not in (0, 11):
            self.codes[got[0] if got and got[0] in PATTERNS else 0, refusal] += 1

    def show(self):
        """A line for each entry point, each code and the rules."""
        for kind in wire.KIND_NAMES.values():
            self.line(f"answers of {kind}", {refusal: n for (of, refusal), n in self.answers.items() if of == kind})
        for kind in ("check", "count", "run", "undo", "redo", "takedown", "obj"):
            self.line(f"rules named by {kind}", {rule: n for (of, rule), n in self.rules.items() if of == kind})
        for code in sorted({code for code, _ in self.codes}):
            self.line(NAMES.get(code, "no code"), {refusal: n for (of, refusal), n in self.codes.items() if of == code})
        for name in sorted(self.situations):
            print(f"  {name}: {self.situations[name]}")

    def line(self, name, counts):
        if counts:
            print(f"  {name}: " + ", ".join(f"{number}: {counts[number]}" for number in sorted(counts)))

    def want_rules(self, tally, kind, rules=(1, 2, 3, 4, 5, 6)):
        tally.equal(f"rules named by {kind}", sorted(rule for of, rule in self.rules if of == kind), list(rules))

    def want_situations(self, tally, names, least=1):
        for name in names:
            tally.holds(f"met: {name}, at least {least}", self.situations[name] >= least)

    def want_conditions(self, tally):
        """Each operator that has a condition refused by it."""
        for code, name in NAMES.items():
            if name not in ("mvsf", "semv"):
                tally.holds(f"met: {name} refused by 8", self.codes[code, 8] > 0)

    def want_codes(self, tally, refusals):
        """Each code accepted, and each of these refusals answered, by entry point."""
        for code, name in NAMES.items():
            tally.holds(f"met: {name} accepted", self.codes[code, 0] > 0)
        self.want_answers(tally, refusals)

    def want_answers(self, tally, refusals, least=1):
        for kind, numbers in refusals.items():
            for number in numbers:
                tally.holds(f"met: {kind} answers {number}, at least {least}", self.answers[kind, number] >= least)
