"""docs/ARCHITECTURE.md names nothing that is not there. What it has in backquotes is a file or folder of the
repository, or a name that is defined, not just in a comment, in the file that comes next in the same paragraph or list
item; once looked up, a name may come again without its file. Prints 'N passed, M failed'."""
import os
import re
import sys

sys.path.insert(0, os.path.dirname(os.path.abspath(__file__)))
from closing import close
from theorems import TICKED, defines

TEXT = os.path.join("docs", "ARCHITECTURE.md")


def items(text):
    """(line number, text) of each paragraph and list item; what stands between fences is a picture."""
    found, fresh, picture = [], True, False
    for number, line in enumerate(text.splitlines(), 1):
        fence = line.strip().startswith("```")
        picture = picture != fence
        if fence or picture or not line.strip():
            fresh = True
        elif fresh or re.match(r"\s*(?:-|#+|\d+\.) ", line):
            found.append([number, line])
            fresh = False
        else:
            found[-1][1] += "\n" + line
    return [tuple(item) for item in found]


def pairs(item):
    """(name, file, whether the name stands next to the file) of a paragraph; a file that no name precedes has None for
    its name, a name that no file follows None for its file."""
    names, found = [], []
    for word in TICKED.findall(item):
        if "/" in word:
            found += [(name, word, name == names[-1]) for name in names] or [(None, word, False)]
            names = []
        else:
            names.append(word)
    return found + [(name, None, False) for name in names]


def fault(root, known, name, path, near):
    """What is wrong with a name or file, or None. A name next to its file has to be defined there; one farther off may
    be a name that was looked up elsewhere."""
    if path and not os.path.exists(os.path.join(root, path)):
        return f"there is no {path}"
    if name is None or (name in known and not near) or (path and defines(os.path.join(root, path), name)):
        return None
    return f"{name} is not defined in {path}" if path else f"{name} comes without its file"


def faults(root):
    """How many names and files were looked for, and a line for each that is not there."""
    with open(os.path.join(root, TEXT), encoding="utf-8") as f:
        told = [(number, pair) for number, item in items(f.read()) for pair in pairs(item)]
    known = {name for _, (name, path, _) in told if name and path and defines(os.path.join(root, path), name)}
    bad = [(number, fault(root, known, *pair)) for number, pair in told]
    return len(told), [f"{TEXT}:{number}: {text}" for number, text in bad if text]


def main(root):
    looked, bad = faults(root)
    return close(looked - len(bad), bad)


if __name__ == "__main__":
    sys.exit(main(sys.argv[1]))
