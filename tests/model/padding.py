"""Padding: the numbers of a script or log in more groups than they need, up to three each."""

from script import number_forms, numbers_of

# The most bytes that an operator is read from: nine numbers of three groups.
MOST_READ = 27


def in_forms(choose, data):
    """The same numbers, each in a form chosen from all it has; from the first cut off or too long on the bytes stay."""
    numbers, tail = numbers_of(data)
    return b"".join(choose(number_forms(value)) for value, _ in numbers) + tail


def longest_of(forms):
    return forms[-1]


def all_padded(data):
    """Each number in three groups, as the drawing office's exporter writes them."""
    return in_forms(longest_of, data)


def padded(rng, data):
    """Each number in any of its forms, or all in three groups."""
    return in_forms(rng.choice if rng.random() < 0.75 else longest_of, data)


def half_padded(rng, data):
    """Padded in half of the cases."""
    return padded(rng, data) if rng.random() < 0.5 else data


def padded_log(rng, log, start):
    """The live part padded; the log gets longer behind the start, which stays where it is."""
    return bytes(log[:start]) + padded(rng, log[start:])
