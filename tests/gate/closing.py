"""The end of a step of the gate: a line for each fault, then the line that the gate adds up."""


def close(passed, bad):
    """Prints them; the step's status."""
    for line in bad:
        print(line)
    print(f"{passed} passed, {len(bad)} failed")
    return 1 if bad else 0
