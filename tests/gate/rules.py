"""Rules of the sources that no proof sees: lines are at most 120 columns wide, a record's place is named in crate
layout alone, every public function has a contract and no entry point asks anything of its caller, and crates.txt lists
exactly the crates that a crate names. Prints 'N passed, M failed'."""
import os
import re
import sys

sys.path.insert(0, os.path.dirname(os.path.abspath(__file__)))
import listed
from closing import close

WIDTH = 120
# where the records of a kind begin: words of `Shape` that only `layout` may look at
PLACE = re.compile(r"\.(?:face0|loop0|half0|vertex0)\b")
# but a shape may be handed on whole
HANDED = re.compile(r"^\s*(\w+0) = sh\.\1;$")
# comments of Rattle; a function's name with what stands before it since the last item; what can stand in its head
COMMENT = re.compile(r"//[^\n]*|/\*.*?\*/", re.S)
FUNCTION = re.compile(r"(?P<before>[^{};]*)\bfn\s+(?P<name>\w+)")
CLAUSE = re.compile(r"\b(requires|ensures)\b|\{")
# a crate, by its definitions or laws (`Rattle.NAME`), or by its code (`NAME::` at the head of a path)
NAMED = re.compile(r"\bRattle\.([a-z_]+)|(?<![:\w.])([a-z_]+)::")
# types of these are reached by way of others, and the checker wants them listed all the same
REACHED = {"runs_run": {"table"}, "runs_move": {"table"}, "takedown_all": {"takedown_across"},
           "kernel": {"laws", "layout", "euler"}}


def sources(root):
    """(path, text) of every file of Rattle and of antt, but the rows that the model writes and what runs left in out/."""
    for folder, _, names in sorted(os.walk(os.path.join(root, "crates"))):
        if "out" in os.path.relpath(folder, root).split(os.sep):
            continue
        for name in sorted(names):
            written = os.path.basename(os.path.dirname(folder)) == "evidence_rows" and name.startswith("Rows")
            if name.endswith(".rt") or (name.endswith(".antt") and not written):
                path = os.path.join(folder, name)
                with open(path, encoding="utf-8") as f:
                    yield os.path.relpath(path, root), f.read()


def crate_of(path):
    return path.split(os.sep)[1]


def wide(path, text):
    """A line for each line that is too wide."""
    lines = enumerate(text.splitlines(), 1)
    return [f"{path}:{number}: {len(line)} columns" for number, line in lines if len(line) > WIDTH]


def placed(path, text):
    """A line for each place of a record that is named outside crate layout."""
    if crate_of(path) == "layout":
        return []
    lines = enumerate(text.splitlines(), 1)
    return [f"{path}:{number}: a record's place" for number, line in lines
            if PLACE.search(line) and not HANDED.match(line)]


def closed(text, at):
    """The place after the brace that closes the one at this place."""
    depth = 0
    for place in range(at, len(text)):
        depth += {"{": 1, "}": -1}.get(text[place], 0)
        if depth == 0:
            return place + 1
    return len(text)


def clauses(text, at):
    """The clauses of a function from this place up to the brace that opens its body."""
    found = []
    while True:
        part = CLAUSE.search(text, at)
        if part is None or part.group() == "{":
            return found
        found.append(part.group())
        opened = text.find("{", part.end())
        if opened < 0:
            return found
        at = closed(text, opened)


def uncontracted(path, text):
    """A line for each public function without a contract, and for each entry point that asks something of its caller."""
    if not path.endswith(".rt"):
        return []
    text, bad = COMMENT.sub("", text), []
    for function in FUNCTION.finditer(text):
        before, name = function.group("before"), function.group("name")
        has = clauses(text, function.end())
        if re.search(r"\bpub\b", before) and "ensures" not in has:
            bad.append(f"{path}: {name} has no contract")
        if re.search(r"\bextern\b|\bno_mangle\b", before) and "requires" in has:
            bad.append(f"{path}: {name} asks something of its caller")
    return bad


def dependencies(root):
    """What crates.txt lists for each crate."""
    return dict(listed.lines(root))


def undue(root, files):
    """A line for each crate that is listed and not named, or named and not listed."""
    lines = dependencies(root)
    named = {name: set() for name in lines}
    for path, text in files:
        named.setdefault(crate_of(path), set()).update(a or b for a, b in NAMED.findall(text))
    bad = []
    for name, others in sorted(lines.items()):
        ours = {other for other in named[name] if other in lines and other != name}
        bad += [f"crates.txt: {name} lists {other} and does not name it"
                for other in sorted((others & set(lines)) - ours - REACHED.get(name, set()))]
        bad += [f"crates.txt: {name} names {other} and does not list it" for other in sorted(ours - others)]
    return bad


def faults(root):
    """How many files and crates were looked at, and a line for each fault."""
    files = list(sources(root))
    bad = [line for path, text in files for line in wide(path, text) + placed(path, text) + uncontracted(path, text)]
    return len(files) + len(dependencies(root)), bad + undue(root, files)


def main(root):
    looked, bad = faults(root)
    return close(looked, bad)


if __name__ == "__main__":
    sys.exit(main(sys.argv[1]))
