"""Prints the tables of crates and of edits, as in docs/PROOF-COSTS.md, from what `rt ci --anew` printed into a file:

    python3 bench/costs.py FILE

Of each crate its functions, its lines without blanks and its must-fail edits; of each edit what refuses it. Of a crate
that was kept from an earlier run `rt ci` says no function and no edit.
"""
import glob
import os
import re
import sys

ROOT = os.path.dirname(os.path.dirname(os.path.abspath(__file__)))
PROVED = re.compile(r"^fn (\w+)::(\S+): proved$", re.M)
EDIT = re.compile(r"^rt: must-fail (\w+)/(\S+)\.edit: (.*)$", re.M)
REFUSED = re.compile(r"^refused, as it must be: (?:note: )?(\S+?):[\d:]+ (.*)$")


def text_of(path):
    with open(path, encoding="utf-8", errors="replace") as f:
        return f.read()


def lines(crate, part):
    """Lines that are not blank of the crate's files of Rattle and antt in one folder."""
    files = glob.glob(os.path.join(ROOT, "crates", crate, part, "**", "*.*"), recursive=True)
    return sum(1 for path in files if path.endswith((".rt", ".antt"))
               for line in text_of(path).splitlines() if line.strip())


def crates():
    rows = [line.split("#")[0].strip() for line in text_of(os.path.join(ROOT, "crates.txt")).splitlines()]
    return [row.split(":")[0].split()[0] for row in rows if row]


def edits(crate):
    """The names of the crate's edits."""
    return sorted(os.path.basename(path)[:-len(".edit")]
                  for path in glob.glob(os.path.join(ROOT, "crates", crate, "must-fail", "*.edit")))


def crate_row(crate, functions):
    """(functions, code, specs, proofs, edits) of a crate."""
    return (len(functions), lines(crate, "src"), lines(crate, "specs"), lines(crate, "proofs"), len(edits(crate)))


def refusal(said):
    """Where an edit is refused and by what, by what `rt` says of it."""
    found = REFUSED.match(said)
    if found:
        return f"`{found.group(1)}`", found.group(2)
    return "", "not run" if not said else "shows nothing: " + said


def main(path):
    said = text_of(path)
    proved = {(crate, name) for crate, name in PROVED.findall(said)}
    told = {(crate, label): words for crate, label, words in EDIT.findall(said)}
    print("| crate | functions | code | specs and theory | proofs | must-fail edits |")
    print("|---|---|---|---|---|---|")
    sums = [0] * 5
    for crate in crates():
        row = crate_row(crate, {name for owner, name in proved if owner == crate})
        sums = [a + b for a, b in zip(sums, row)]
        print(f"| {crate} | " + " | ".join(str(cell) for cell in row) + " |")
    print("| all | " + " | ".join(str(cell) for cell in sums) + " |")
    print("\n| edit | where | what refuses it |\n|---|---|---|")
    for crate in sorted(crates()):
        for label in edits(crate):
            print(f"| {crate}/{label} | " + " | ".join(refusal(told.get((crate, label), ""))) + " |")


if __name__ == "__main__":
    sys.exit(main(sys.argv[1]) if len(sys.argv) == 2 else __doc__)
