"""What kefs have met: what their two loops hold beside the killed edge, how long they are, where their firsts lie."""

from boundary import Boundary, from_half
from layout import CAPACITY_LIMIT, Table, mate
from script import read_operator

# The shortest loops of a plain part, and the longest that the comparison is asked for.
SHORT, LONG = 3, 4_000

# Whether the killed loop and the kept one hold more than their half of the killed edge.
RESTS = {(True, True): "both rests", (False, True): "k alone", (True, False): "the mate alone",
         (False, False): "both alone"}
PLACES = ("at the killed edge", "just behind it", "just before it", "farther on")


def two_loops(b, k):
    """The killed loop from k on and the kept one from its mate on."""
    return [from_half(b.cycles[b.loop_of(half)], half) for half in (k, mate(k))]


def kef_situations(b, k):
    """What is special about a kef that the table accepts."""
    (_, *run), (_, *others) = killed, kept = two_loops(b, k)
    yield RESTS[bool(run), bool(others)]
    yield "k even" if k % 2 == 0 else "k odd"
    yield f"the killed loop is {'longer' if run[len(others):] else 'shorter' if others[len(run):] else 'as long'}"
    yield f"the killed loop's first lies {first_place(killed)}"
    yield f"the kept loop's first lies {first_place(kept)}"
    if run and others:
        yield "the run has the new first" if min(run) < min(others) else "the others have the new first"
    yield from run_situations(run, others)
    if b.is_ring(b.loop_of(mate(k))):
        yield "the kept loop is a ring"
    elif len(b.loops_of_face(b.face_of(mate(k)))) > 1:
        yield "the kept loop has rings beside it"


def first_place(cycle):
    """Where the least half-edge lies in a loop that begins at the killed edge."""
    place = cycle.index(min(cycle))
    return PLACES[0 if place == 0 else 1 if place == 1 else 2 if place == len(cycle) - 1 else 3]


def run_situations(run, others):
    """How the half-edges that are relabelled lie to each other and to those that are not."""
    inside, mates = set(run), set(map(mate, run))
    if inside & mates:
        yield "an edge with both sides in the run"
    if mates & set(others):
        yield "another edge between the two loops"
    if len(run) > 2 and run not in (sorted(run), sorted(run, reverse=True)):
        yield "the run is in no order of numbers"


WANTED_KEFS = list(RESTS.values()) + ["k even", "k odd"]
WANTED_KEFS += [f"the killed loop is {length}" for length in ("longer", "shorter", "as long")]
WANTED_KEFS += [f"the {loop} loop's first lies {place}" for loop in ("killed", "kept") for place in PLACES]
WANTED_KEFS += ["the run has the new first", "the others have the new first", "an edge with both sides in the run",
                "another edge between the two loops", "the run is in no order of numbers", "the kept loop is a ring",
                "the kept loop has rings beside it"]


# Cases for the compiled kernel

def case_situations(case, answer):
    """Of a script of one kef: what it meets, or by what it is refused, and the lengths that are wanted."""
    refusal, b = answer.numbers[0], Boundary(Table(case.links, case.points))
    k = read_operator(case.script, 0)[1].args[0]
    if refusal != 0:
        found = [f"refused by {refusal}"]
        return found + [f"{LONG:,} long, {name}" for name in found if LONG in map(len, two_loops(b, k))]
    found = list(kef_situations(b, k))
    if answer.numbers[-1] == 0:
        found.append("just the room that the inverse needs")
    return found + length_situations(b, k, found)


def length_situations(b, k, found):
    """Which lengths its loops have; with the longest, also what else it meets."""
    killed, kept = map(len, two_loops(b, k))
    lengths = {f"a killed loop of {n:,}": killed == n for n in (SHORT, LONG)}
    lengths |= {f"a kept loop of {n:,}": kept == n for n in (SHORT, LONG)}
    lengths |= {f"both loops of {n:,}": killed == kept == n for n in (SHORT, LONG)}
    lengths["all half-edges that a table can hold"] = killed + kept == 2 * CAPACITY_LIMIT
    if LONG in map(len, b.cycles.values()):
        lengths |= {f"{LONG:,} long, {name}": True for name in found}
    return [name for name, holds in lengths.items() if holds]


WANTED_CASES = WANTED_KEFS + ["refused by 8", "refused by 9", "just the room that the inverse needs"]
WANTED_CASES += [f"{LONG:,} long, {name}" for name in WANTED_KEFS + ["refused by 9"]]
WANTED_CASES += [f"{loop} of {n:,}" for loop in ("a killed loop", "a kept loop", "both loops") for n in (SHORT, LONG)]
WANTED_CASES += ["all half-edges that a table can hold"]
