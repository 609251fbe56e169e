#!/usr/bin/env python3
"""Breaks the lines under crates/ that are wider than 120 columns, which the gate refuses (tests/gate/rules.py).

    python3 tools/narrow.py [CRATE]..           breaks them; then `rt fmt` in each crate, and this once more
    python3 tools/narrow.py --check [CRATE]..   only says which there are

A `use` of many names becomes several, a comment behind a line goes before it, and any other line goes on in the next
one, where the fewest brackets are open, best before a sign. No word changes. What a must-fail edit looks for stays in
one line. Lines that cannot be broken are printed.
"""
import os
import re
import sys

sys.path.insert(0, os.path.join(os.path.dirname(os.path.abspath(__file__)), "..", "tests", "gate"))
import rules

ROOT = os.path.dirname(os.path.dirname(os.path.abspath(__file__)))
WIDTH = rules.WIDTH
# what a line best goes on with: the sign that binds least first
SIGNS = ("→", "≡", "≢", "≤", "<", "×", "⊎", "∷", "++", "&&", "||", "∙", "$", "+", "*")
GROUP = re.compile(r"^(\s*(?:ghost |pub )?use [^{]*\{)([^{}]*)(\};?)$")
COMMENT = re.compile(r"^(\s*(?:--|//)\s*)(.*)$")
BEHIND = re.compile(r"^(\s*)(\S.*\S)\s+(-- .*)$")
OLD = re.compile(r"^old: (.*)$", re.M)
FILE = re.compile(r"^file: (.*)$", re.M)


def grouped(line):
    """A `use` of many names as several, or None."""
    found = GROUP.match(line)
    if not found:
        return None
    head, names, tail = found.groups()
    lines, some = [], []
    for name in (word.strip() for word in names.split(",")):
        if some and len(head + ", ".join(some + [name]) + tail) > WIDTH:
            lines, some = lines + [head + ", ".join(some) + tail], []
        some.append(name)
    return lines + [head + ", ".join(some) + tail]


def commented(line):
    """A comment in several lines, or None."""
    found = COMMENT.match(line)
    if not found:
        return None
    head, lines, some = found.group(1), [], []
    for word in found.group(2).split():
        if some and len(head + " ".join(some + [word])) > WIDTH:
            lines, some = lines + [head + " ".join(some)], []
        some.append(word)
    return lines + [head + " ".join(some)]


def places(line):
    """Where a line can be broken, the best place first."""
    depth, at, found = 0, len(line) - len(line.lstrip()), []
    for place, char in enumerate(line):
        depth += {"(": 1, "[": 1, "{": 1, ")": -1, "]": -1, "}": -1}.get(char, 0)
        if char == " " and at + 20 < place <= WIDTH and not line[place + 1:].startswith((" ", "=")):
            sign = line[place + 1:].split(" ", 1)[0]
            rank = SIGNS.index(sign) if sign in SIGNS else len(SIGNS) if line[place - 1] in ",;" else len(SIGNS) + 1
            found.append((depth, rank, -place, place))
    return [place for _, _, _, place in sorted(found)]


def broken(line, whole):
    """The line in several, or None. `whole` are words that have to stay in one line."""
    several, behind = grouped(line) or commented(line), BEHIND.match(line)
    if several is None and behind:
        several = [behind.group(1) + behind.group(3), behind.group(1) + behind.group(2)]
    if several is None and " -- " not in line and '"' not in line:
        indent = " " * (len(line) - len(line.lstrip()) + 4)
        kept = [words for words in whole if words in line]
        for place in places(line):
            first, rest = line[:place], indent + line[place + 1:]
            tail = [rest] if len(rest) <= WIDTH else broken(rest, whole)
            if tail and all(any(words in part for part in [first] + tail) for words in kept):
                several = [first] + tail
                break
    if several is None or any(len(part) > WIDTH for part in several) or len(several) < 2:
        return None
    return several


def edited(crate):
    """The words that must-fail edits of the crate look for, by file."""
    found, folder = {}, os.path.join(ROOT, "crates", crate, "must-fail")
    for name in sorted(os.listdir(folder)) if os.path.isdir(folder) else []:
        with open(os.path.join(folder, name), encoding="utf-8") as f:
            text = f.read()
        for path in FILE.findall(text)[:1]:
            found.setdefault(os.path.join("crates", crate, path.strip()), []).extend(
                words.strip() for words in OLD.findall(text))
    return found


def main(words):
    only, check = [word for word in words if word != "--check"], "--check" in words
    left = 0
    for path, text in list(rules.sources(ROOT)):
        crate = rules.crate_of(path)
        if (only and crate not in only) or not rules.wide(path, text):
            continue
        whole, lines = edited(crate).get(path, []), []
        for number, line in enumerate(text.split("\n"), 1):
            several = None if len(line) <= WIDTH or check else broken(line, whole)
            if len(line) > WIDTH and several is None:
                left += 1
                print(f"{path}:{number}: {len(line)} columns")
            lines += several or [line]
        if not check:
            with open(os.path.join(ROOT, path), "w", encoding="utf-8") as f:
                f.write("\n".join(lines))
    print(f"{left} lines are too wide")
    return 1 if left else 0


if __name__ == "__main__":
    sys.exit(main(sys.argv[1:]))
