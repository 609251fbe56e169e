#!/usr/bin/env python3
"""Spells the names that this repository declares in its specs and proofs as today's Rattle does: words in snake case.

usage: python3 tools/snake_names.py [--check]        once, at the top, after port.py and before any edit by hand

A definition, lemma, field, constructor or local of a .antt file, and what a macro of the repository's pages cites of it, gets
underscores for its dashes and for the humps of its camel case. Types and modules keep their names, and so do functions of src/,
names of the library, and the goals and steps that Rattle makes in proofs/F. Must-fail edits turn with the files that they edit,
pages in the text between backticks. --check writes nothing and prints the names that would fall together in some file.
"""

import collections
import os
import re
import sys

NAME = r"[^\s(){}.;,@\"«»\[\]|]+"
TOKEN = re.compile(r"[^\s(){}.;,@\"«»\[\]|]+")
DECLARED = re.compile(r"(?m)^ *(?:(?:pub|abbrev|unfoldable|data|record|local) )*([^\s(){}.;,@\"]+)(?: \{[^{}\n]*\})* :(?!:)([^\n]*)")
USE = re.compile(r"(?m)^(?:pub |ghost )?use ([^\s;{]+?)\.?(?:\{([^}]*)\}|$|;)")
GOAL = re.compile(r"^\s*goal\.")
# Labels and fields that Rattle makes, which no script of ours may turn.
HEADS = {"goal", "c", "w", "l", "g"}
FACTS = re.compile(r"\.(?:ensures|requires|invariant)\.")
# Where the plain rule would give a name that is taken, the name to give.
OTHER = {
    "moved_at": "moved_at_lem",
    "taken_back": "taken_back_lem",
    "run_in": "run_in_lem",
    "written_all": "written_all_lem",
    "not_done": "not_done_lem",
    "edge_in": "edge_in_range",
}


def snake(name):
    if name[0].isupper():
        return re.sub(r"-", "_", name)
    words = re.sub(r"(?<=[a-z0-9])[A-Z](?![A-Z])", lambda m: "_" + m[0].lower(), name)
    return words.replace("-", "_")


def own(path):
    return path.startswith("Rattle.") and path.split(".")[1] in CRATES


def items(path, names):
    if names is None:
        return [path.split(".")[-1]]
    out = []
    for it in names.split(","):
        it = it.strip()
        if it:
            out += [it.split(" as ")[0].strip()] + it.split(" as ")[1:]
    return [x.strip() for x in out]


def files(ending):
    for folder, dirs, fs in os.walk("crates"):
        dirs[:] = sorted(d for d in dirs if d != "out")
        for f in sorted(fs):
            if f.endswith(ending):
                yield os.path.join(folder, f)


def of_function(path):
    """Whether the file is the proof of one function, where Rattle makes names."""
    parts = path.split("/")
    return parts[2] == "proofs" and len(parts) > 4


def comments_apart(text):
    """Pieces of the text, each with whether it is a comment."""
    out = []
    for line in text.splitlines(keepends=True):
        at = re.search(r"(?:^|(?<=\s))(?:--|//)", line)
        if at:
            out += [(line[: at.start()], False), (line[at.start():], True)]
        else:
            out.append((line, False))
    return out


def turn_code(text, names, behind=None):
    """Turns the text's names; where behind is given, a name behind a dot turns only if behind says so of the path before it."""
    def one(m):
        if behind and m.start() and text[m.start() - 1] == ".":
            head = re.search(r"[^\s(){};,\[\]]*$", text[: m.start()])[0]
            return names.get(m[0], m[0]) if behind(head) else m[0]
        return names.get(m[0], m[0])

    return TOKEN.sub(one, text)


def of_ours(head):
    """Whether what stands behind the path head, in the proof of a function, is a field of ours and no step of Rattle's."""
    return bool(FACTS.search(head)) or head.split(".")[0] not in HEADS


def turn_comment(text, names):
    return re.sub(r"(`)([^`\n]+)(`)", lambda m: m[1] + turn_code(m[2], names) + m[3], text)


def turn(text, names, behind=None):
    return "".join(turn_comment(piece, names) if c else turn_code(piece, names, behind) for piece, c in comments_apart(text))


def declared_in(path, text):
    found = {}
    for name, rest in DECLARED.findall("".join(p for p, c in comments_apart(text) if not c)):
        if of_function(path) and GOAL.match(rest):
            continue
        found[name] = snake(name)
    return found


def reserved_in(text):
    kept = set()
    for path, names in USE.findall(text):
        if not own(path):
            kept.update(items(path, names or None))
    return kept


class Turned:
    """The spelling of a name in a page: the table's, or the one in snake case where just that is declared."""

    def __init__(self, table, now):
        self.table, self.now = table, now

    def get(self, name, other):
        if name in self.table:
            return self.table[name]
        return snake(name) if name not in self.now and snake(name) in self.now else other


def meetings(texts):
    """For each file the names in it, so that names which would fall together in one file show."""
    return [set(TOKEN.findall("".join(piece for piece, c in comments_apart(t) if not c))) for t in texts.values()]


def main(check):
    texts = {p: open(p, encoding="utf-8").read() for p in files(".antt")}
    table, where = {}, collections.defaultdict(set)
    for p, t in texts.items():
        for a, b in declared_in(p, t).items():
            where[a].add(p)
            b = OTHER.get(a, b)
            if a != b:
                table[a] = b
    # names that only a proof of one function declares stay in that file
    public = {a: b for a, b in table.items() if any(not of_function(p) for p in where[a])}
    # a lemma that would have its function's name gets `_lem`
    together = collections.defaultdict(list)
    met = meetings({**texts, **{p: open(p, encoding="utf-8").read() for p in files(".rt")}})
    for a in {*public, *[a for a in where if a not in table and any(not of_function(p) for p in where[a])]}:
        together[table.get(a, a)].append(a)
    for b, xs in together.items():
        lemmas = [x for x in xs if "-" in x]
        if len(xs) > 1:
            if len(lemmas) == 1 and any(set(xs) <= m for m in met):
                table[lemmas[0]] = public[lemmas[0]] = OTHER.get(lemmas[0], b + "_lem")
                print("together", b, *sorted(xs), sep="\t")
    clashes = []
    turned = {}
    rust = {p: open(p, encoding="utf-8").read() for p in files(".rt")}
    edits = {p: open(p, encoding="utf-8").read() for p in files(".edit")}
    for p, t in {**texts, **rust}.items():
        code = "".join(piece for piece, c in comments_apart(t) if not c)
        tokens = set(TOKEN.findall(code))
        kept = reserved_in(t)
        names = {}
        imported = set()
        for path, its in USE.findall(t):
            if own(path):
                imported.update(items(path, its or None))
        mine = set(declared_in(p, t)) if p.endswith(".antt") else set()
        for a in tokens & set(table):
            if a in kept:
                continue
            if p.endswith(".rt") and a not in imported:
                if a in public and "swift." + a in code:
                    names[a] = table[a]
                elif a in public:
                    clashes.append((p, a, "rust: not imported"))
                continue
            if of_function(p) and a not in imported and a not in mine:
                heads = re.findall(r"([^\s(){};,\[\]]*)\." + re.escape(a) + r"(?![^\s(){}.;,\[\]])", code)
                if a in public and any(of_ours(h) for h in heads):
                    names[a] = table[a]
                continue
            names[a] = table[a]
        bare = code
        if p.endswith(".rt"):
            bare = re.sub(r"\bfn \w+|\w+(?=\()|::\w+|(?m:^use .*$)|\w+::", " ", code)
        bare = re.sub(r"(?m)^ *(?:pub )?(?:ghost )?use .*$", " ", bare)
        here = {m[0] for m in TOKEN.finditer(bare) if not (m.start() and bare[m.start() - 1] == ".")}
        for a, b in names.items():
            if b in here and b not in names:
                clashes.append((p, a, f"{b} is there"))
        by_new = collections.defaultdict(list)
        for a, b in names.items():
            by_new[b].append(a)
        for b, xs in by_new.items():
            if len(xs) > 1:
                clashes.append((p, " ".join(xs), f"fall together as {b}"))
        turned[p] = names
    for c in sorted(clashes):
        print(*c, sep="\t")
    print(len(table), "names of", len(public), "public;", len(clashes), "to look at")
    if check:
        return 0
    for p, names in turned.items():
        t = texts.get(p, rust.get(p))
        n = turn(t, names, of_ours if of_function(p) else None)
        if n != t:
            open(p, "w", encoding="utf-8").write(n)
    for p, t in edits.items():
        # an edit turns as the file that it edits does
        crate = p.split("/must-fail/")[0]
        aim = re.search(r"(?m)^file: (\S+)", t)
        names = turned.get(os.path.join(crate, aim[1]), {}) if aim else {}
        n = "".join(turn(l, names) if l.startswith(("old:", "new:")) else turn_comment(l, public) for l in t.splitlines(keepends=True))
        if n != t:
            open(p, "w", encoding="utf-8").write(n)
    # names that port.py has turned already stand in pages and edits as they were
    now = set()
    for p in files(".antt"):
        if not of_function(p):
            now.update(declared_in(p, open(p, encoding="utf-8").read()))
    was = Turned(public, now)
    for p in edits:
        t = open(p, encoding="utf-8").read()
        n = "".join(turn(l, was) if l.startswith(("old:", "new:")) else turn_comment(l, was) for l in t.splitlines(keepends=True))
        if n != t:
            open(p, "w", encoding="utf-8").write(n)
    pages = [os.path.join(d, f) for d, ds, fs in os.walk(".") if "/.git" not in d and "/out" not in d and "/target" not in d for f in fs if f.endswith((".md", ".h", ".rs", ".c"))]
    for p in pages:
        t = open(p, encoding="utf-8").read()
        n = turn_comment(t, was)
        if n != t:
            open(p, "w", encoding="utf-8").write(n)
    return 0


if __name__ == "__main__":
    CRATES = {c for c in os.listdir("crates")}
    sys.exit(main("--check" in sys.argv[1:]))
