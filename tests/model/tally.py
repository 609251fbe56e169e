"""Counting of checks: a failed one is told and counted, and the others still run."""


# A table at its largest is half a million characters; the seed brings back what is cut off here.
LINE = 4_000


def cut(line):
    return line if len(line) <= LINE else line[:LINE] + " ..."


class Tally:
    def __init__(self, told=20):
        self.passed = self.failed = 0
        self.told = told

    def equal(self, name, got, wanted):
        """Answers whether the two are equal, and counts it."""
        if got == wanted:
            self.passed += 1
            return True
        self.failed += 1
        if self.failed <= self.told:
            print(cut(f"FAILED {name}") + "\n" + cut(f"  got    {got}") + "\n" + cut(f"  wanted {wanted}"))
        return False

    def holds(self, name, condition):
        return self.equal(name, bool(condition), True)
