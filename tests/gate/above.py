"""The sweep stands above the kernel and is proved from the operators' contracts alone (document 01, "The form for each
place"). Looked at is every crate that `sweep` needs and `kernel` does not. Of their code: it lists no crate of operator
code; two functions alone hold a table to write, the entry point and the one that it calls with the session by value;
these hand it on whole, once to be written, to that function and to the kernel's run, in no loop. All others are lent
it to read, and the language lets nobody write what is lent to read. Of their theory and proofs: of the files that
define the operators they name only what is listed here, and unfold of it two lists by code: the inverses, for how many
bytes those of mev and mef take, and the words that tell whether an item is in use. Prints 'N passed, M failed'."""
import os
import re
import sys

sys.path.insert(0, os.path.dirname(os.path.abspath(__file__)))
import rules
import scratch
from closing import close

# the product, and what it stands on
PRODUCT, BASE = "sweep", "kernel"
# where operators are carried out, one by one or many; `runs` has the way in and the definitions
OPERATORS = re.compile(r"^(euler|runs|takedown)_\w+$")
# what a table is lent as to be written (a lent array is no table), and who holds one: to whom it is handed on
TABLE = re.compile(r"^(?:mut\s+)?(\w+)\s*:\s*&\s*(?:'\w+\s+)?mut\s+"
                   r"\[\s*(?:u16|i32)\s*(?:;(?!\s*ITEM_PLACES\s*\])[^\]]*)?\]$")
# what could hide a table or a function: another name for a type, a module in a file, a struct that lends to write
HIDING = re.compile(r"\btype\s+\w+|\bmod\s+\w+\s*\{|\bstruct\s+\w+[^{(;]*[{(][^})]*&\s*(?:'\w+\s*)?mut\b")
LOOPS = re.compile(r"\b(while|loop|for)\b")
HOLDERS = {"sweep::zoghvari_sweep": "sweep_call::sweep", "sweep_call::sweep": "sessions_entry::run"}
# the files that define the operators, and what of them may be unfolded
OPENED = ("EdgeOperators", "FaceOperators", "Surgery", "Steps", "Exec", "Valence")
READ = {"inverse", "use_word"}
NAMED = READ | {"limits", "when_used", "links_after", "points_after", "refusal_of", "mev_inverse", "mef_inverse"}
DEFINED = re.compile(r"^\s*(?:abbrev |unfoldable )?pub ([^\s:{(]+)", re.M)
UNFOLDING = re.compile(r"\bunfolding((?:[ \t]+[^\s]+)*[ \t]*(?:\n[ \t]+[^\s=:]+(?:[ \t]+[^\s=:]+)*[ \t]*(?=\n))*)")
# the same as an attribute of the code, which the check's own tactics obey
ATTRIBUTE = re.compile(r"\bunfolding\(([^()]*)\)")
FROM = re.compile(r"\bRattle\.euler\.specs\.(\w+)(?:\.\{([^}]*)\})?")
COMMENT = re.compile(r"[ \t]*--[^\n]*")


def above(root):
    """The crates that the product needs and its base does not."""
    listed = rules.dependencies(root)

    def reached(name, seen):
        if name in listed and name not in seen:
            seen.add(name)
            for other in listed[name]:
                reached(other, seen)
        return seen
    return reached(PRODUCT, set()) - reached(BASE, set())


def listing(root):
    """A line for each crate of operator code that one of them lists and has code."""
    found = {name: rules.dependencies(root)[name] for name in above(root) if has_code(root, name)}
    bad = [f"crates.txt: {name} lists {other}, which is operator code" for name, others in sorted(found.items())
           for other in sorted(others) if OPERATORS.match(other)]
    return len(found), bad


def has_code(root, name):
    return any(re.search(r"\bfn\s", scratch.UNSEEN.sub("", text)) for path, text in rules.sources(root)
               if path.endswith(".rt") and rules.crate_of(path) == name)


def unread(root, found, crates):
    """A line for each function that was not read, and for what could hide one or a type."""
    bad = []
    for path, text in rules.sources(root):
        if path.endswith(".rt") and rules.crate_of(path) in crates:
            source = os.path.relpath(path, os.path.join("crates", rules.crate_of(path), "src"))
            parts = source[:-len(".rt")].split(os.sep)
            module = "::".join([rules.crate_of(path)] + [part for part in parts if part != "lib"])
            text = scratch.UNSEEN.sub("", text)
            names = re.findall(r"\bfn\s+(\w+)", text)
            bad += [f"{path}: {name} could not be read" for name in names if name not in found[module].functions]
            bad += [f"{path}: {name} is there twice" for name in sorted(set(names)) if names.count(name) > 1]
            bad += [f"{path}: {words.strip()}" for words in HIDING.findall(text)]
    return bad


def writing(root):
    """A line for each function that holds a table to write and may not, or does more with it than hand it on."""
    found, looked, crates = scratch.modules(root), 0, above(root)
    bad = unread(root, found, crates)
    for path, module in sorted(found.items()):
        if path.split("::")[0] not in crates:
            continue
        for name, function in sorted(module.functions.items()):
            looked += 1
            held = [TABLE.match(p).group(1) for p in function.parameters if TABLE.match(p)]
            full = f"{path}::{name}"
            if not scratch.GENERICS.fullmatch(function.generics):
                bad.append(f"{full} is generic in more than closures of numbers, and could hold a table")
            if held and full not in HOLDERS:
                bad.append(f"{full} holds a table to write")
            elif held:
                bad += [f"{full} {fault}" for fault in handing(found, path, function.body, held, HOLDERS[full])]
                bad += [f"{full} has a loop" for _ in LOOPS.findall(function.body)[:1]]
    return looked, bad


def handing(found, path, body, held, to):
    """What is wrong with what a holder does with the words of a table: each is a whole argument of a call; of one that
    asks for it to write there is one, that of the function to which it is handed on."""
    bad, calls, times = [], [], {word: 0 for word in held}
    for call in scratch.CALL.finditer(body):
        full = scratch.resolve(found, "functions", path, call.group(1))
        if full:
            calls.append((full, scratch.arguments(body, call.end() - 1)))
    for word in held:
        seen = sum(words.count(word) for _, words in calls)
        if seen != len(re.findall(rf"(?<![\w.]){word}\b", body)):
            bad.append(f"does something else with {word} than to hand it on")
        for full, words in calls:
            parameters = scratch.named(found, "functions", full).parameters
            for place in (i for i, w in enumerate(words) if w == word):
                kind = parameters[place].partition(":")[2].strip() if place < len(parameters) else "&"
                lent = not kind.startswith("&") or "mut" in kind
                times[word] += lent
                if lent and full != to:
                    bad.append(f"lends {word} to {full} to be written")
        if times[word] != 1:
            bad.append(f"hands {word} on to be written {times[word]} times")
    return bad


def opened(root):
    """A line for each definition of an operator that one of their files names or unfolds and may not."""
    hidden, looked, bad, crates = set(), 0, [], above(root)
    for name in OPENED:
        with open(os.path.join(root, "crates", "euler", "specs", name + ".antt"), encoding="utf-8") as f:
            hidden |= set(DEFINED.findall(f.read()))
    for path, text in rules.sources(root):
        if path.endswith(".rt") and rules.crate_of(path) in crates:
            words = {word.strip() for part in ATTRIBUTE.findall(text) for word in re.split(r",|::|\.", part)}
            bad += [f"{path}: unfolds {word}" for word in sorted(words & (hidden - READ))]
        if path.endswith(".antt") and rules.crate_of(path) in crates:
            looked += 1
            text = COMMENT.sub("", text)
            for module, names in FROM.findall(text):
                words = {word.strip() for word in names.split(",")} if names else {"all of it"}
                bad += [f"{path}: names {word} of {module}" for word in sorted(words - NAMED) if module in OPENED]
            words = {word.split(".")[-1] for part in UNFOLDING.findall(text) for word in part.split()}
            bad += [f"{path}: unfolds {word}" for word in sorted(words & (hidden - READ))]
    return looked, bad


def faults(root):
    """How much was looked at, and a line for each fault."""
    parts = [listing(root), writing(root), opened(root)]
    empty = [f"nothing was found to look at ({place})" for place, (looked, _) in enumerate(parts) if looked == 0]
    return sum(looked for looked, _ in parts), empty + [line for _, bad in parts for line in bad]


def main(root):
    looked, bad = faults(root)
    return close(looked, bad)


if __name__ == "__main__":
    sys.exit(main(sys.argv[1]))
