"""What is promised of the middle of kef (docs/THEOREMS.md, document 02, job 3) rests on two lines that no contract asks
for, since a contract speaks of entry and exit: the invariant of the walk's loop says what the links are at each turn,
and a turn is one store. Both are looked at here, in the text of the sources. Prints 'N passed, M failed'."""
import os
import re
import sys

sys.path.insert(0, os.path.dirname(os.path.abspath(__file__)))

import scratch
from closing import close

WALK, TURN = "euler_walks::walks::relabel_steps", "euler_walks::walks::pass_one"
PROOF = os.path.join("crates", "euler_walks", "proofs", "walks", "relabel_steps", "Invariants.antt")
# at the head of each turn the links are those with so many half-edges passed as turns have been made
SAID = r"× Walked l\.sh l\.initial\.links l\.from l\.stop l\.l l\.counter l\.links l\.k(?:\n\n|\n?\Z)"
INVARIANT = re.compile(r"^invariant-loop l =(?:(?!\n\n).)*" + SAID, re.M | re.S)
STORE = re.compile(r"\]\s*=(?!=)")
LOOP = re.compile(r"\b(?:while|loop|for)\b")


def stores(found, full, above=()):
    """How many stores to arrays or slices a call of a function makes at most; 2, for many, where they are in a loop, or
    in a function that it hands over, or where it calls itself."""
    function, above = scratch.named(found, "functions", full), above + (full,)
    body = function.body
    called = [scratch.resolve(found, "functions", function.module, word) for word in scratch.CALL.findall(body)]
    if set(called) & set(above):
        return 2
    made = len(STORE.findall(body)) + sum(stores(found, other, above) for other in called if other)
    made += sum(2 * min(stores(found, other, above), 1) for other in set(scratch.handed(found, function)) - set(above))
    return min(made, 1) * 2 if LOOP.search(body) else made


def turns(found):
    """What the walk's loop calls that stores, and what of that it hands over, or hands over unseen."""
    walk = scratch.named(found, "functions", WALK)
    given = [f"{full}, handed over" for full in scratch.handed(found, walk) if stores(found, full)]
    return [full for full in scratch.called(found, walk) if stores(found, full)] + given + scratch.unseen(found, walk)


def faults(root):
    """A line for each thing that is not so."""
    found = scratch.modules(root)
    with open(os.path.join(root, PROOF), encoding="utf-8") as f:
        bad = [] if INVARIANT.search(f.read()) else [f"{PROOF}: the invariant does not say `Walked`"]
    bad += [] if turns(found) == [TURN] else [f"{WALK}: stores otherwise than by {TURN}"]
    direct = STORE.search(scratch.named(found, "functions", WALK).body)
    bad += [f"{WALK}: stores by itself"] if direct else []
    return bad + ([] if stores(found, TURN) == 1 else [f"{TURN}: is not one store"])


def main(root):
    bad = faults(root)
    return close(4 - len(bad), bad)


if __name__ == "__main__":
    sys.exit(main(sys.argv[1]))
