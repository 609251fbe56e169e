#!/usr/bin/env python3
"""The places that docs/DESIGN-PASS.md counts, point by point: `tools/design_counts.py [FOLDER]`, with --list each place.

It reads crates/*/src and goes by the form of the text alone, so that the same places are found in any commit. Whether a
place has to stay is for the page to say; a line `// Kept: ..` beside it gives the reason."""
import collections
import os
import re
import sys

INTERFACE = ("kernel", "sweep")


def functions(text):
    """Each function: its line, name, parameters, result, clauses and body."""
    lines = text.split("\n")
    at = 0
    while at < len(lines):
        head = re.match(r"\s*(?:pub )?(?:extern \"C\" )?fn (\w+)", lines[at])
        if not head:
            at += 1
            continue
        first = at
        signature = [lines[at]]
        while not re.search(r"\{\s*$", lines[at]) or re.match(r"\s*(requires|ensures)\b", lines[at]):
            at += 1
            signature.append(lines[at])
        indent = len(lines[first]) - len(lines[first].lstrip())
        body = []
        at += 1
        while lines[at] != " " * indent + "}":
            body.append(lines[at])
            at += 1
        whole = "\n".join(signature)
        cut = re.search(r"^\s*(requires|ensures)\b", whole, re.M)
        plain = whole[: cut.start()] if cut else whole
        clauses = whole[cut.start():] if cut else ""
        yield first + 1, head.group(1), plain, clauses, "\n".join(body)


def parameters(plain):
    plain = re.sub(r"(fn \w+)<(?:[^<>()-]|->|\([^()]*\))*>", r"\1", plain)  # what a function is generic in has brackets
    inner = plain[plain.index("(") + 1: plain.rindex(")")] if ")" in plain else ""
    inner = inner.split(") ->")[0]
    parts, depth, word = [], 0, ""
    for c in inner:
        depth += c in "([<"
        depth -= c in ")]>"
        if c == "," and depth == 0:
            parts.append(word)
            word = ""
        else:
            word += c
    parts.append(word)
    out = []
    for p in parts:
        m = re.match(r"\s*(?:mut )?(\w+)\s*:\s*(.+?)\s*$", p, re.S)
        if m:
            out.append((m.group(1), " ".join(m.group(2).split())))
    return out


def structs(text):
    for m in re.finditer(r"^(?:pub )?struct (\w+)[^{;(\n]*\{\n(.*?)^\}", text, re.M | re.S):
        line = text[: m.start(1)].count("\n") + 1
        yield line, m.group(1), re.findall(r"^\s*(?:pub )?(\w+): ([^\n]+?),?$", m.group(2), re.M)


def enums(text):
    for m in re.finditer(r"^(?:pub )?enum (\w+)[^{]*\{\n(.*?)^\}", text, re.M | re.S):
        body = re.sub(r"//[^\n]*", "", m.group(2))
        line = text[: m.start(1)].count("\n") + 1
        yield line, m.group(1), [v.strip() for v in re.findall(r"^\s*(\w+(?:\([^)]*\))?)\s*,?\s*$", body, re.M)]


def canonical(body):
    """The body with names, numbers and types by the order in which they first stand."""
    body = re.sub(r"//[^\n]*", "", body)
    seen = {}
    out = []
    for t in re.findall(r"\w+|[^\w\s]", body):
        if re.match(r"[A-Za-z_]\w*$", t) and t not in ("if", "else", "return", "let", "mut", "while", "for", "in", "match", "as"):
            t = seen.setdefault(t, "n%d" % len(seen))
        elif t[0].isdigit():
            t = "0"
        out.append(t)
    return " ".join(out)


def main():
    root = next((a for a in sys.argv[1:] if not a.startswith("-")), ".")
    places = collections.OrderedDict((k, []) for k in (
        "1 own enum of the shape of Option or Result",
        "1 refusal or rule as a number: a field",
        "1 refusal or rule as a number: a result",
        "1 flag beside a value: a field",
        "1 kind as a number: a constant",
        "1 kind or code as a number: a parameter",
        "2 twins: functions alike but for names and constants",
        "2 twins: structs with the same fields but for a type",
        "3 while",
        "4 conversion by hand: a function that only casts",
        "5 fact in the requires of three functions or more",
        "5 parameters together in three functions or more",
        "6 buffer of fixed length as a parameter",
        "7 enum that is a switch, flag as a parameter",
        "8 answer in a proof",
        "8 lemma in proofs/",
    ))
    alike = collections.defaultdict(list)
    fields_alike = collections.defaultdict(list)
    facts = collections.defaultdict(set)
    groups = collections.defaultdict(set)
    for folder, _, names in sorted(os.walk(os.path.join(root, "crates"))):
        for name in sorted(names):
            path = os.path.join(folder, name)
            short = os.path.relpath(path, os.path.join(root, "crates"))
            crate = short.split(os.sep)[0]
            if "/out/" in path:
                continue
            if name.endswith(".antt") and "/proofs/" in path:
                text = open(path, encoding="utf-8").read()
                if name == "Answers.antt":
                    for a in re.findall(r"^pub (\S+) : goal\.", text, re.M):
                        places["8 answer in a proof"].append("%s %s" % (short, a))
                elif name not in ("Invariants.antt", "Lib.antt", "Proof.antt"):
                    for a in re.findall(r"^(?:pub )?(?!where|use|module|record|data|abbrev|unfoldable)([^\s:]+) :", text, re.M):
                        places["8 lemma in proofs/"].append("%s %s" % (short, a))
            if not name.endswith(".rt") or "/src/" not in path:
                continue
            text = open(path, encoding="utf-8").read()
            for n, line in enumerate(text.split("\n"), 1):
                if re.match(r"\s*(?:'\w+: )?while ", line):
                    places["3 while"].append("%s:%d %s" % (short, n, line.strip()))
                if re.match(r"pub const \w+: u8 = \d+;", line):
                    places["1 kind as a number: a constant"].append("%s:%d %s" % (short, n, line.strip()))
            for n, enum, variants in enums(text):
                if len(variants) == 2 and any("(" in v for v in variants):
                    places["1 own enum of the shape of Option or Result"].append("%s:%d %s" % (short, n, enum))
                if variants and not any("(" in v for v in variants):
                    places["7 enum that is a switch, flag as a parameter"].append("%s:%d enum %s" % (short, n, enum))
            for n, struct, fields in structs(text):
                for f, t in fields:
                    if f in ("refusal", "rule") and t.startswith("u"):
                        places["1 refusal or rule as a number: a field"].append("%s:%d %s.%s" % (short, n, struct, f))
                    if t == "bool":
                        places["1 flag beside a value: a field"].append("%s:%d %s.%s" % (short, n, struct, f))
                fields_alike[" ".join(f for f, _ in fields)].append("%s:%d %s" % (short, n, struct))
            for n, fn, plain, clauses, body in functions(text):
                here = "%s:%d %s" % (short, n, fn)
                taken = parameters(plain)
                result = plain.rsplit("->", 1)[1].strip(" {\n") if "->" in plain else ""
                if result == "u8" and re.search(r"refus|rule|due|when_|number_of", fn + clauses):
                    places["1 refusal or rule as a number: a result"].append(here)
                for p, t in taken:
                    if p in ("kind", "code", "refusal", "rule") and t in ("u8", "usize", "u32"):
                        places["1 kind or code as a number: a parameter"].append("%s %s" % (here, p))
                    if t == "bool":
                        places["7 enum that is a switch, flag as a parameter"].append("%s %s: bool" % (here, p))
                    if re.search(r"\[\w+; [A-Z0-9_]+\]", t):
                        places["6 buffer of fixed length as a parameter"].append("%s %s" % (here, p))
                if re.match(r"\s*\(?\w+(\[\w+\])? as \w+\)?\s*$", body):
                    places["4 conversion by hand: a function that only casts"].append(here)
                if crate not in INTERFACE:
                    alike[canonical(body)].append(here)
                for clause in re.findall(r"requires(?: \w+)? \{(.*?)\}(?=\s*(?:requires|ensures|\{|$))", clauses, re.S):
                    for fact in re.split("×", clause):
                        fact = " ".join(fact.split()).strip("() ")
                        if fact:
                            facts[fact].add(here)
                words = tuple(p for p, _ in taken)
                for i in range(len(words)):
                    for j in range(i + 2, len(words) + 1):
                        groups[words[i:j]].add(here)
    for same in alike.values():
        if len(same) > 1:
            for here in same:
                places["2 twins: functions alike but for names and constants"].append("%s (%d alike)" % (here, len(same)))
    for same in fields_alike.values():
        if len(same) > 1:
            places["2 twins: structs with the same fields but for a type"] += same
    for fact, where in sorted(facts.items(), key=lambda x: -len(x[1])):
        if len(where) >= 3:
            places["5 fact in the requires of three functions or more"].append("%d: %s" % (len(where), fact))
    kept = []
    for g, where in sorted(groups.items(), key=lambda x: -len(x[0])):
        if len(where) >= 3 and not any(len(o) > len(g) and " ".join(g) in " ".join(o) and w >= where for o, w in kept):
            kept.append((g, where))
    for g, where in sorted(kept, key=lambda x: -len(x[1])):
        places["5 parameters together in three functions or more"].append("%d: %s" % (len(where), ", ".join(g)))
    for point, found in places.items():
        print("%5d  %s" % (len(found), point))
        if "--list" in sys.argv:
            for p in found:
                print("         " + p)


if __name__ == "__main__":
    main()
