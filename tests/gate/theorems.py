"""docs/THEOREMS.md says which theorem, function or test meets which sentence: each file that it names is there, and
defines each name beside it, not just in a comment. Prints 'N passed, M failed'."""
import os
import re
import sys

sys.path.insert(0, os.path.dirname(os.path.abspath(__file__)))
from closing import close

TABLE = os.path.join("docs", "THEOREMS.md")
TICKED = re.compile(r"`([^`]+)`")

# by the file's kind: how a line defines NAME for others to use, and how a comment begins
TYPE, VALUE = r"(?:data|record)\s+NAME(?:\s|$)", r"NAME(?:\s+\{[^}]*\})?\s+:\s"
KINDS = {
    ".antt": (rf"^\s*(?:(?:abbrev|unfoldable)\s+)*pub\s+(?:{TYPE}|{VALUE})", "--"),
    ".rt": (r"^\s*(?:pub\s+)?(?:extern\s+\"C\"\s+)?(?:fn|struct|enum|const)\s+NAME\b", "//"),
    ".py": (r"^(?:\s*(?:def|class)\s+NAME\b|NAME\s*=)", "#"),
}


def rows(text):
    """(line number, names, files) of each row of the tables: the names of the second cell, the files of the third."""
    found = []
    for number, line in enumerate(text.splitlines(), 1):
        cells = [cell.strip() for cell in line.strip().strip("|").split("|")]
        if not line.startswith("|") or set(line) <= set("|-: ") or cells[-1] == "file":
            continue
        whole = len(cells) == 3
        found.append((number, TICKED.findall(cells[1]) if whole else [], TICKED.findall(cells[2]) if whole else []))
    return found


def defines(path, name):
    """Whether the file defines the name."""
    form, comment = KINDS.get(os.path.splitext(path)[1], (None, None))
    if form is None or not os.path.isfile(path):
        return False
    with open(path, encoding="utf-8") as f:
        lines = [line for line in f if not line.lstrip().startswith(comment)]
    return any(re.search(form.replace("NAME", re.escape(name)), line) for line in lines)


def faults(root):
    """How many names and files were looked for, and a line for each that is not there."""
    with open(os.path.join(root, TABLE), encoding="utf-8") as f:
        table = rows(f.read())
    looked, bad = 0, []
    for number, names, files in table:
        looked += max(1, len(names) + len(files))
        if not files:
            bad.append(f"{TABLE}:{number}: names no file")
        bad += [f"{TABLE}:{number}: there is no {path}" for path in files
                if not os.path.exists(os.path.join(root, path))]
        bad += [f"{TABLE}:{number}: {name} is not defined in {path}" for name in names for path in files
                if not defines(os.path.join(root, path), name)]
    return looked, bad


def main(root):
    looked, bad = faults(root)
    return close(looked - len(bad), bad)


if __name__ == "__main__":
    sys.exit(main(sys.argv[1]))
