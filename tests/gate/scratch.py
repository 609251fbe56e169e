"""kef has no memory of its own: no function that it reaches, by the text of the sources, makes, takes or answers an
array, or calls itself by way of others. A lent array or slice is not kef's: the links are the caller's, and the counts
of loops, which the test of kef reads, are kept by the run for all operators. The operands of an inverse are what kef
answers, so `Operator` alone may hold an array. What cannot be told is a fault: a called name that is not found, or what
lies behind a reference taken whole. Prints how many functions were looked at and 'N passed, M failed'."""
import collections
import os
import re
import sys

sys.path.insert(0, os.path.dirname(os.path.abspath(__file__)))

# what kef alone does, and the vertex words, which it keeps as all operators do
ROOTS = ["euler_cuts::mef_kef::kef_fits", "euler_cuts::mef_kef::kef_inverse", "euler_cuts::mef_kef::kef_links",
         "euler_valence::valence::leaving", "euler_valence::valence::lower_both",
         "euler_valence::valence::raise_starts"]
OPERATOR = "script::Operator"
PLAIN = {"bool", "u8", "u16", "u32", "u64", "usize", "i8", "i16", "i32", "i64", "isize"}
KEYWORDS = {"if", "while", "match", "return", "in", "as", "mut", "let", "else", "loop", "for", "Some", "Ok", "Err"}
# what the standard library makes a number or a bool by, of numbers, ranges and options of them: a function, methods
STANDARD = {"usize::try_from"}
NUMBERS = {"min", "max", "saturating_sub", "saturating_add", "contains", "unwrap_or"}

# what a proof reads and the compiler does not, and attributes; where a clause of a contract begins
UNSEEN = re.compile(r"//[^\n]*|\bghost use [^;]*;|#!?\[[^\]]*\]")
CLAUSE = re.compile(r"\b(?:requires|ensures)\b[\s\w*]*(?=\{)")
USE = re.compile(r"^\s*(?:pub\s+)?use\s+([^;]+);", re.M)
GENERIC = r"(?:<((?:[^<>()-]|->|\([^()]*\))*)>)?"  # what a function is generic in, `F: Fn(usize) -> bool` among it
FUNCTION = re.compile(r"\bfn\s+(\w+)\s*" + GENERIC + r"\(([^()]*)\)\s*(?:->\s*([^{]+?))?\s*\{")
TYPE = re.compile(r"\b(?:struct|enum)\s+(\w+)\s*\{([^{}]*)\}")
CONSTANT = re.compile(r"\bconst\s+(\w+)\s*:\s*([^=;]*(?:;[^=\]]*\])?)\s*=")
FIELD = re.compile(r"\b(\w+)\s*:\s*([^,{}]+)|\(([^()]*)\)")  # of a struct; what a case of an enum holds
CALL = re.compile(r"(?<![\w.:])((?:\w+::)*\w+)\s*\(")
VALUE = re.compile(r"(?<![\w.:])((?:\w+::)*\w+)\b(?!\s*(?:\(|::))")  # a name that is not called: a function handed over
CLOSURE = re.compile(r"\b(\w+)\s*:\s*Fn\(")  # what a function is generic in that is a closure
# all that one may be generic in: closures of numbers, which store nothing, as often as they are called
GENERICS = re.compile(r"(?:\s*\w+\s*:\s*Fn\([\w\s,]*\)\s*->\s*\w+\s*,?)*\s*")
BEHIND = re.compile(r"(?:[=({,;&|<>+\-*/!]|\breturn|\bmatch|\bif|\bin)\s*\*\s*(\w+)\b(?!\s*\[)")  # `*r`, not a product
OTHER_CALL = re.compile(r"\.\s*(?!len\b)(\w+)\s*\(|\b(\w+!)\s*[(\[{]")
ARRAY = re.compile(r"(?<![\w)\]])\[|\bb\"")  # what stands before the bracket of an index ends a value
MADE = re.compile(r"(?<![\w:])((?:\w+::)*[A-Z]\w*)\s*\{")
LET = re.compile(r"\blet\s+(?:mut\s+)?\w+\s*:\s*([^=]+)=")

Module = collections.namedtuple("Module", "uses functions types constants stated")
Function = collections.namedtuple("Function", "module parameters answer body generics")


def body_at(text, start):
    """What stands from a brace up to the one that closes it."""
    depth = 0
    for i in range(start, len(text)):
        depth += {"{": 1, "}": -1}.get(text[i], 0)
        if depth == 0:
            return text[start:i + 1]
    return text[start:]


def without_clauses(text):
    """The text without the clauses of its contracts."""
    kept, at = [], 0
    for clause in CLAUSE.finditer(text):
        if clause.start() >= at:
            kept.append(text[at:clause.start()])
            at = clause.end() + len(body_at(text, clause.end()))
    return "".join(kept) + text[at:]


def brought(path, head=""):
    """(name, full path) of what a `use` brings in: an item, by its name or another, or the items of a group."""
    path, opened, group = (word.strip() for word in path.partition("{"))
    if opened:
        return [item for part in split(group[:group.rindex("}")]) for item in brought(part, head + path)]
    path, _, name = (word.strip() for word in path.partition(" as "))
    full = head[:-len("::")] if path == "self" else head + path
    return [(name or full.rpartition("::")[2], full)]


def split(group):
    """The parts of a group, at its own commas."""
    parts, depth = [""], 0
    for char in group:
        depth += {"{": 1, "}": -1}.get(char, 0)
        if char == "," and depth == 0:
            parts.append("")
        else:
            parts[-1] += char
    return [part.strip() for part in parts if part.strip()]


def parameters(text):
    """The parameters of a function, at the commas that no bracket holds."""
    parts, depth = [""], 0
    for char in text:
        depth += {"<": 1, "[": 1, ">": -1, "]": -1}.get(char, 0)
        if char == "," and depth == 0:
            parts.append("")
        else:
            parts[-1] += char
    return [part.strip() for part in parts if part.strip()]


def parse(name, text):
    """A source file as the module of this name. `crate` at the head of a path is spelt out."""
    text = without_clauses(UNSEEN.sub("", text))
    text = re.sub(r"\bcrate::", name.split("::")[0] + "::", text)
    functions = {m.group(1): Function(name, parameters(m.group(3)), m.group(4) or "", body_at(text, m.end() - 1),
                                      m.group(2) or "") for m in FUNCTION.finditer(text)}
    return Module(dict(item for path in USE.findall(text) for item in brought(path)), functions,
                  {m.group(1): m.group(2) for m in TYPE.finditer(text)},
                  {m.group(1): m.group(2) for m in CONSTANT.finditer(text)}, set(re.findall(r"\bfn\s+(\w+)", text)))


def modules(root):
    """The modules of all crates by their paths."""
    found = {}
    for crate in sorted(os.listdir(os.path.join(root, "crates"))):
        src = os.path.join(root, "crates", crate, "src")
        for folder, _, names in os.walk(src):
            for name in (n for n in names if n.endswith(".rt")):
                path = os.path.join(folder, name)
                parts = os.path.relpath(path, src)[:-len(".rt")].split(os.sep)
                module = "::".join([crate] + [part for part in parts if part != "lib"])
                with open(path, encoding="utf-8") as f:
                    found[module] = parse(module, f.read())
    return found


def resolve(found, kind, module, path):
    """The full path of what a module calls by this name, a function, type or constant; None where there is none."""
    head, _, rest = path.partition("::")
    near = f"{module}::{path}" if not rest else path
    far = found[module].uses.get(head, head) + ("::" + rest if rest else "")
    for full in (near, far):
        owner, _, name = full.rpartition("::")
        if owner in found and name in getattr(found[owner], kind):
            return full
    return None


def named(found, kind, full):
    owner, _, name = full.rpartition("::")
    return getattr(found[owner], kind)[name]


def fields(text):
    """(name, type) of all that a struct or enum holds; the name is empty for what a case of an enum holds."""
    return [(name, kind.strip()) for name, one, more in FIELD.findall(text) for kind in (one or more).split(",")]


def memory(found, module, text):
    """Why a value of this type is memory of its own, or None: it is an array, or holds one, or cannot be told."""
    if text.startswith("&"):
        return None
    if "[" in text:
        return "an array"
    for word in set(re.findall(r"(?:\w+::)*\w+", text)) - PLAIN:
        full = resolve(found, "types", module, word)
        if full is None:
            return f"the type {word}, which is not found"
        inner = [] if full == OPERATOR else fields(named(found, "types", full))
        if any(memory(found, full.rpartition("::")[0], kind) for _, kind in inner):
            return f"{word}, which holds an array"
    return None


def whole_arrays(found, function):
    """Arrays that a body names whole, so that they may be copied: a field, a lent array, a constant."""
    body = re.sub(r"&(?:mut\s+)?[\w.]+", "", function.body)
    held = {name for path, module in found.items() for text in module.types.values() for name, kind in fields(text)
            if memory(found, path, kind)}
    bad = [f"copies {name}" for name in re.findall(r"\.(\w+)\b(?!\s*[\[(])(?!\s*=[^=])", body) if name in held]
    bad += [f"copies what {name} lends" for name in BEHIND.findall(body)]
    for word in re.findall(r"(?<![\w.:])((?:\w+::)*[A-Z]\w*)\b(?!\s*\[)", body):
        full = resolve(found, "constants", function.module, word)
        if full and memory(found, full.rpartition("::")[0], named(found, "constants", full).strip()):
            bad.append(f"copies {word}")
    return bad


def of_body(found, function):
    """What a body makes: arrays, but not the operands of an operator, and structs that hold one."""
    body = function.body
    if resolve(found, "types", function.module, "Operator") == OPERATOR:
        body = re.sub(r"\bOperator\s*\{[^{}]*\}", lambda m: re.sub(r"(\bargs):\s*\[[^\[\]]*\]", r"\1", m.group()), body)
    made = [name for name in MADE.findall(body) if not resolve(found, "constants", function.module, name)]
    types = [("has", kind.strip()) for kind in LET.findall(body)] + [("makes", name) for name in made]
    told = [(verb, memory(found, function.module, kind)) for verb, kind in types]
    bad = [f"{verb} {why}" for verb, why in told if why]
    bad += ["makes a closure that moves"] if re.search(r"\bmove\s*\|", body) else []
    return bad + (["makes an array"] if ARRAY.search(LET.sub("", body)) else [])


def of_signature(found, function):
    """What a function takes or answers by value. A closure holds what it borrows, unless it is written with `move`."""
    given = set(CLOSURE.findall(function.generics))
    kinds = [p.partition(":")[2].strip() for p in function.parameters]
    taken = [memory(found, function.module, kind) for kind in kinds if kind not in given]
    answered = memory(found, function.module, function.answer.strip())
    more = [] if GENERICS.fullmatch(function.generics) else ["is generic in more than closures of numbers"]
    return more + [f"takes {why}" for why in taken if why] + ([f"answers {answered}"] if answered else [])


def arguments(body, at):
    """The arguments of a call whose bracket opens at this place."""
    depth, words, word = 0, [], ""
    for char in body[at:]:
        depth += {"(": 1, "[": 1, "{": 1, ")": -1, "]": -1, "}": -1}.get(char, 0)
        if depth == 0 or (depth == 1 and char == ","):
            words, word = words + [word.lstrip("(").strip()], ""
        else:
            word += char
        if depth == 0:
            return words
    return words


def closures(function):
    """The parameters of a function that are closures, each by its name; None for others, and where a `let` hides one."""
    kinds, names = set(CLOSURE.findall(function.generics)), []
    for name, _, kind in (p.partition(":") for p in function.parameters):
        name = name.replace("mut ", "").strip()
        hidden = re.search(rf"\blet\s+(?:mut\s+)?{name}\b", function.body)
        names.append(name if kind.strip().lstrip("& ") in kinds and not hidden else None)
    return names


def resolved(found, function, words):
    """The full paths of the functions that these words of a body name."""
    words = set(words) - KEYWORDS - set(closures(function))
    return sorted(set(filter(None, (resolve(found, "functions", function.module, word) for word in words))))


def called(found, function):
    return resolved(found, function, CALL.findall(function.body))


def handed(found, function):
    """The functions that a body names and does not call: it hands them over."""
    return resolved(found, function, VALUE.findall(function.body))


def unseen(found, function):
    """A line for each closure that a body hands over and that is neither written there, nor one of its own, nor a
    function that is found."""
    bad, own = [], set(closures(function)) - {None}
    for call in CALL.finditer(function.body):
        full = resolve(found, "functions", function.module, call.group(1))
        if full is None:
            continue
        given, to = arguments(function.body, call.end() - 1), named(found, "functions", full)
        kinds = set(CLOSURE.findall(to.generics))
        for place, asked in enumerate(to.parameters):
            closure = asked.partition(":")[2].strip().lstrip("& ") in kinds
            word = given[place].lstrip("& ") if closure and place < len(given) else "|"
            if not (word.startswith("|") or word in own or resolve(found, "functions", function.module, word)):
                bad.append(f"hands over {word}, which is not found")
    return bad


def calls(found, function):
    """The full paths of the functions that a body reaches, and a line for each call whose function is not found. A call
    of a closure is one of what the caller wrote, and was seen there; a method of numbers is one of the standard
    library's where no function of the sources has its name."""
    own = set().union(*(module.stated for module in found.values()))
    words = sorted(set(CALL.findall(function.body)) - KEYWORDS - STANDARD - set(closures(function)))
    lost = [word for word in words if resolve(found, "functions", function.module, word) is None]
    lost += [a or b for a, b in OTHER_CALL.findall(function.body) if a not in NUMBERS - own]
    reached = sorted(set(called(found, function) + handed(found, function)))
    return reached, [f"calls {word}, which is not found" for word in lost] + unseen(found, function)


def follow(found, full, above, seen):
    """Looks at a function and at all that it calls: `seen` gets a list of faults for each of them."""
    if full in above:
        seen[full].append("calls itself: " + " > ".join(above[above.index(full):] + (full,)))
    if full in seen:
        return
    owner, _, name = full.rpartition("::")
    if owner not in found or name not in found[owner].functions:
        seen[full] = ["there is no such function"]
        return
    function = found[owner].functions[name]
    reached, lost = calls(found, function)
    seen[full] = of_signature(found, function) + of_body(found, function) + whole_arrays(found, function) + lost
    for other in reached:
        follow(found, other, above + (full,), seen)


def faults(root, roots=ROOTS):
    """The functions that were looked at, each with what is wrong with it."""
    found, seen = modules(root), {}
    for full in roots:
        follow(found, full, (), seen)
    return seen


def main(root):
    seen = faults(root)
    for full, bad in sorted(seen.items()):
        for line in bad:
            print(f"{full}: {line}")
    good = sum(not bad for bad in seen.values())
    print(f"kef reaches {len(seen)} functions")
    print(f"{good} passed, {len(seen) - good} failed")
    return 1 if good < len(seen) else 0


if __name__ == "__main__":
    sys.exit(main(sys.argv[1]))
