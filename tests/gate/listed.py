"""Each folder under crates/ is listed in crates.txt, and each crate listed there has a folder. Prints
'N passed, M failed'."""
import os
import sys

sys.path.insert(0, os.path.dirname(os.path.abspath(__file__)))
from closing import close


def lines(root):
    """(name, what it uses) of each crate that crates.txt lists; words behind the name say how it is built."""
    with open(os.path.join(root, "crates.txt"), encoding="utf-8") as f:
        told = [line.split("#")[0].partition(":") for line in f if line.split("#")[0].strip()]
    return [(head.split()[0], set(used.split())) for head, _, used in told]


def listed(root):
    """The names that crates.txt lists."""
    return {name for name, _ in lines(root)}


def faults(root):
    """A line for each crate that is on one side only."""
    names = listed(root)
    folders = set(os.listdir(os.path.join(root, "crates")))
    lost = [f"crates/{name}: not listed in crates.txt" for name in sorted(folders - names)]
    gone = [f"crates.txt lists {name}, and there is no crates/{name}" for name in sorted(names - folders)]
    return names, lost + gone


def main(root):
    names, bad = faults(root)
    return close(len(names), bad)


if __name__ == "__main__":
    sys.exit(main(sys.argv[1]))
