"""The gate refuses what it must refuse: an unlisted crate, a theorem that is not where the table says, a name that is
not where the architecture says, a line too wide, a record's place named outside layout, a dependency that is not named
or not listed, scratch memory in what kef reaches, a walk that no invariant holds, a sweep that reaches below the
kernel, a failed step, a step that tested nothing or was cut short."""
import os
import sys
import tempfile

sys.path.insert(0, os.path.dirname(os.path.abspath(__file__)))
import above
import amid
import architecture
import gate
import listed
import rules
import scratch
import theorems


def tree(folder, names, lines):
    """A repository with these crate folders and these lines in crates.txt."""
    for name in names:
        os.makedirs(os.path.join(folder, "crates", name))
    with open(os.path.join(folder, "crates.txt"), "w", encoding="utf-8") as f:
        f.write("# a comment\n" + "".join(line + "\n" for line in lines))
    return folder


def faults(names, lines):
    with tempfile.TemporaryDirectory() as folder:
        return listed.faults(tree(folder, names, lines))[1]


# a file with a theorem, a private one, and a word in a comment
SPEC = "-- pub spoken : Type 0\npub proved : Type 0\nproved = one\nhidden : Type 0\nhidden = two\n"


def table_faults(name, path):
    """What is wrong with a table of one row that names this theorem and this file."""
    with tempfile.TemporaryDirectory() as folder:
        os.makedirs(os.path.join(folder, "docs"))
        with open(os.path.join(folder, "A.antt"), "w", encoding="utf-8") as f:
            f.write(SPEC)
        with open(os.path.join(folder, theorems.TABLE), "w", encoding="utf-8") as f:
            f.write(f"| sentence | met by | file |\n|---|---|---|\n| it is so | {name} | {path} |\n")
        return theorems.faults(folder)[1]


def text_faults(text):
    """What is wrong with this text as the architecture, by a repository with the file specs/A.antt."""
    with tempfile.TemporaryDirectory() as folder:
        for name, content in (("specs/A.antt", SPEC), (architecture.TEXT, text)):
            os.makedirs(os.path.dirname(os.path.join(folder, name)), exist_ok=True)
            with open(os.path.join(folder, name), "w", encoding="utf-8") as f:
                f.write(content)
        return architecture.faults(folder)[1]


def rule_faults(path, text, lines):
    """What the rules of the sources say of one file in a repository with these lines in crates.txt."""
    with tempfile.TemporaryDirectory() as folder:
        tree(folder, [], lines)
        os.makedirs(os.path.dirname(os.path.join(folder, path)))
        with open(os.path.join(folder, path), "w", encoding="utf-8") as f:
            f.write(text)
        return rules.faults(folder)[1]


# crates that the functions below may use: an operator's operands and its making, a helper that lends, a record
SCRIPT = """#[derive(Clone, Copy)]
pub struct Operator { pub code: u8, pub args: [i32; 8], }
pub fn blank(code: u8) -> Operator { Operator { code, args: [0i32; 8], } }
"""
OTHERS = """use script::Operator;
pub const ROW: [u8; 2] = [1, 2];
pub struct Held { pub words: [u16; 4], }
pub struct Pair { pub held: Held, pub n: usize, }
pub const NONE: Held = Held { words: [0u16; 4], };
pub fn first(s: &[u16]) -> u16 requires { length [s; 1] } ensures one { P (record { a = [b] }) } { s[0] }
pub fn buffer(s: &[u16]) -> u16 { let t = [0u16; 8]; t[0] }
"""
NAMES = ("others::ROW", "others::NONE", "others::Held", "others::Pair", "others::first", "others::buffer",
         "others::gone", "script::Operator", "script::blank")
USES = "".join(f"use {name};\n" for name in NAMES)
# the same as groups, one in another
GROUPED = ("use others::{\n    Held, NONE, Pair, ROW, buffer,\n    first, gone,\n};\n"
           "use script::{self, {Operator, blank}};\n")


def scratch_faults(code, uses=USES):
    """What is wrong with each function that f of this code reaches."""
    with tempfile.TemporaryDirectory() as folder:
        for path, text in (("a/src/b.rt", uses + code), ("script/src/lib.rt", SCRIPT), ("others/src/lib.rt", OTHERS)):
            os.makedirs(os.path.dirname(os.path.join(folder, "crates", path)))
            with open(os.path.join(folder, "crates", path), "w", encoding="utf-8") as f:
                f.write(text)
        return {name: bad for name, bad in scratch.faults(folder, ["a::b::f"]).items() if bad}


def scratch_in(parameters, body):
    """What is wrong with a function of these parameters and this body."""
    return scratch_faults(f"fn f({parameters}) {{ {body} }}\n").get("a::b::f", [])


ROOT = os.path.dirname(os.path.dirname(os.path.dirname(os.path.abspath(__file__))))


WALKED = ("(length l.links ≡ length l.initial.links)"
          " × Walked l.sh l.initial.links l.from l.stop l.l l.counter l.links l.k")


def amid_faults(turn="put(links, k, l);", walk="k = pass_one(links, k, l);", invariant=WALKED, more=""):
    """What is wrong with a walk of this turn, this loop's body and this invariant, with further code."""
    code = (f"fn put(links: &mut [u16], k: usize, l: u16) {{ links[k] = l; }}\n"
            f"fn pass_one(links: &mut [u16], k: usize, l: u16) -> usize {{ {turn} k }}\n"
            f"fn relabel_steps(links: &mut [u16], mut k: usize, l: u16) {{ for _ in 0..k {{ {walk} }} }}\n{more}")
    proof = (f"abbrev pub invariant-loop : goal.invariant-loop\ninvariant-loop l = (l.k ≤ 65536)\n"
             f"    × {invariant}\n")
    with tempfile.TemporaryDirectory() as folder:
        for path, text in ((os.path.join("crates", "euler_walks", "src", "walks.rt"), code), (amid.PROOF, proof)):
            os.makedirs(os.path.dirname(os.path.join(folder, path)))
            with open(os.path.join(folder, path), "w", encoding="utf-8") as f:
                f.write(text)
        return amid.faults(folder)



def above_faults(body="sessions_entry::run(links);", uses="runs sessions_entry", unfolded="run_of", more="",
                 named="inverse", below=""):
    """What is wrong with a sweep of this body, with these dependencies and further code, whose proof unfolds this and
    names that of the operators."""
    run = "pub fn run(links: &mut [u16]) { links[0] = 1; }\n"
    files = [("sweep_call/src/lib.rt", f"pub fn sweep(links: &mut [u16]) {{ {body} }}\n{more}"),
             ("sweep_call/specs/A.antt",
              f"use Rattle.euler.specs.Exec.{{{named}}}\nlaw : T\nunfolding {unfolded}\nlaw = refl\n"),
             ("sessions_entry/src/lib.rt", run), ("euler_edges/src/lib.rt", run),
             ("runs/src/lib.rt", "pub fn enter(links: &[u16]) {}\n" + below)]
    files += [(f"euler/specs/{name}.antt", f"unfoldable pub of_{name} : T\nof_{name} = one\n") for name in above.OPENED]
    with tempfile.TemporaryDirectory() as folder:
        tree(folder, [], ["runs:", "sessions_entry:", "kernel: runs sessions_entry", f"sweep_call: {uses}",
                          "sweep: sweep_call"])
        for path, text in files:
            os.makedirs(os.path.dirname(os.path.join(folder, "crates", path)), exist_ok=True)
            with open(os.path.join(folder, "crates", path), "w", encoding="utf-8") as f:
                f.write(text)
        return above.faults(folder)[1]


def proofs_said(edits):
    """What `rt ci` prints last where all is proved, with these words on edits."""
    return (f"rt: x proved\nrt: ok; handles allowed: none{edits}; done in this run: 1 of the 4 proofs\n"
            "3 passed, 0 failed\n")


CASES = [
    ("`rt ci` is a step", lambda: ("rt ci", ["rt", "ci"]) in gate.steps()),
    ("every other step's file is there", lambda: all(os.path.exists(os.path.join(ROOT, command[1]))
                                                     for name, command in gate.steps() if name != "rt ci")),
    ("a step without its file fails", lambda: gate.judge(2, "can't open file 'none.py'\n") == (0, 1)),
    ("listed crates pass", lambda: faults(["a", "b"], ["a:", "b: a"]) == []),
    ("a static library is listed by its name", lambda: faults(["a", "b"], ["a staticlib: b", "b:"]) == []),
    ("an unlisted crate is named", lambda: faults(["a", "b"], ["a:"]) == ["crates/b: not listed in crates.txt"]),
    ("a commented crate is not listed", lambda: len(faults(["a"], ["# a:"])) == 1),
    ("a listed crate without a folder is named", lambda: len(faults(["a"], ["a:", "b:"])) == 1),
    ("a theorem that is there passes", lambda: table_faults("`proved`", "`A.antt`") == []),
    ("a missing name fails", lambda: table_faults("`proven`", "`A.antt`")
     == ["docs/THEOREMS.md:3: proven is not defined in A.antt"]),
    ("a word in a comment is no theorem", lambda: len(table_faults("`spoken`", "`A.antt`")) == 1),
    ("a private helper is no theorem", lambda: len(table_faults("`hidden`", "`A.antt`")) == 1),
    ("a missing file fails", lambda: len(table_faults("an edit", "`B.edit`")) == 1),
    ("a row without a file fails", lambda: len(table_faults("`proved`", "A.antt")) == 1),
    ("a name before its file passes", lambda: text_faults("`proved` in\n`specs/A.antt`.\n\nAgain `proved`.\n") == []),
    ("a name that its file lacks fails", lambda: text_faults("One.\n\n1. `proven` in\n   `specs/A.antt`.\n")
     == ["docs/ARCHITECTURE.md:3: proven is not defined in specs/A.antt"]),
    ("a name without a file fails", lambda: text_faults("- `proved`\n- `hidden`, `specs/A.antt`\n")
     == ["docs/ARCHITECTURE.md:1: proved comes without its file",
         "docs/ARCHITECTURE.md:2: hidden is not defined in specs/A.antt"]),
    ("a name beside another file than its own fails", lambda: len(text_faults(
        "`proved` in `specs/A.antt`.\n\n`proved` in `docs/ARCHITECTURE.md`.\n")) == 1),
    ("a file that the architecture invents fails", lambda: text_faults("See `specs/B.antt`.\n")
     == ["docs/ARCHITECTURE.md:1: there is no specs/B.antt"]),
    ("a picture is not looked at", lambda: text_faults("```text\n`proven`\n```\n") == []),
    ("a line of 120 columns passes", lambda: rule_faults("crates/a/specs/A.antt", "x" * 120 + "\n", ["a:"]) == []),
    ("a wider line fails", lambda: rule_faults("crates/a/src/lib.rt", "\n" + "x" * 121 + "\n", ["a:"])
     == ["crates/a/src/lib.rt:2: 121 columns"]),
    ("a row that the model wrote may be wide", lambda: rule_faults(
        "crates/evidence_rows/specs/RowsCuts.antt", "x" * 121 + "\n", ["evidence_rows:"]) == []),
    ("a place in crate layout passes", lambda: rule_faults("crates/layout/src/a.rt", "sh.half0\n", ["layout:"]) == []),
    ("a place elsewhere fails", lambda: rule_faults("crates/a/specs/A.antt", "kind sh.half0 4\n", ["a:"])
     == ["crates/a/specs/A.antt:1: a record's place"]),
    ("a shape handed on is no place", lambda: rule_faults(
        "crates/a/specs/A.antt", "  half0 = sh.half0;\n", ["a:"]) == []),
    ("what a run left in out/ is no source", lambda: rule_faults(
        "crates/a/out/A.antt", "x" * 121 + "\n", ["a:"]) == []),
    ("a public function with a contract passes", lambda: rule_faults(
        "crates/a/src/lib.rt", "pub fn f() -> u8\n    ensures { result ≡ 1 }\n{\n    1\n}\n", ["a:"]) == []),
    ("a public function without one is named", lambda: rule_faults(
        "crates/a/src/lib.rt", "pub fn f() -> u8 {\n    1\n}\nfn g() -> u8\n    ensures { p }\n{\n}\n", ["a:"])
     == ["crates/a/src/lib.rt: f has no contract"]),
    ("a function of one line does not borrow its neighbour's contract", lambda: rule_faults(
        "crates/a/src/lib.rt", "pub fn f() -> u8 { 1 }\npub fn g() -> u8\n    ensures { p }\n{\n}\n", ["a:"])
     == ["crates/a/src/lib.rt: f has no contract"]),
    ("a constant function is public too", lambda: rule_faults(
        "crates/a/src/lib.rt", "pub const fn f() -> u8 {\n    1\n}\n", ["a:"])
     == ["crates/a/src/lib.rt: f has no contract"]),
    ("a function that is not public needs none", lambda: rule_faults(
        "crates/a/src/lib.rt", "fn f() -> u8 {\n    1\n}\n", ["a:"]) == []),
    ("an entry point that asks something of its caller is named", lambda: rule_faults(
        "crates/a/src/lib.rt", "pub extern \"C\" fn f(n: u8) -> u8\n    requires { n }\n    ensures { p }\n{\n}\n", ["a:"])
     == ["crates/a/src/lib.rt: f asks something of its caller"]),
    ("wherever the clause stands", lambda: all(len(rule_faults("crates/a/src/lib.rt", text, ["a:"])) == 1 for text in (
        "pub extern \"C\" fn f() -> u8\n    ensures { p\n        (record { a = n }) }\n    requires { n }\n{\n}\n",
        "pub extern \"C\" fn f() -> u8\n    ensures { p } requires{ n }\n{\n}\n",
        "pub extern \"C\" fn f() -> u8\n    ensures\n    { p }\n    requires { n }\n{\n}\n",
        "#[unsafe(no_mangle)] pub fn f() -> u8\n    requires { n }\n    ensures { p }\n{\n}\n",
        "#[unsafe(no_mangle)]\npub extern \"C\" fn f() -> u8\n    ensures one { p }\n    requires two { n }\n{\n}\n"))),
    ("wherever the function stands", lambda: all(len(rule_faults("crates/a/src/lib.rt", text, ["a:"])) == 1 for text in (
        "impl C { pub fn f(self) -> u8 { 1 } }\n",
        "pub\nfn f() -> [u8; 4] {\n    [0; 4]\n}\n",
        "pub fn f() -> u8\n    requires { n } // {\n{\n}\npub fn g() -> u8\n    ensures { p }\n{\n}\n",
        "pub fn f() -> u8\n/*\n    ensures { p }\n*/\n{\n}\n"))),
    ("a clause of its own name passes", lambda: rule_faults(
        "crates/a/src/lib.rt", "pub fn f() -> u8\n    ensures bounded { result ≡ 1 }\n{\n    1\n}\n", ["a:"]) == []),
    ("a crate that is named has to be listed", lambda: rule_faults(
        "crates/a/specs/A.antt", "use Rattle.b.specs.B.{c}\n", ["a:", "b:"])
     == ["crates.txt: a names b and does not list it"]),
    ("also one that is built as a static library", lambda: rule_faults(
        "crates/a/src/lib.rt", "ghost use Rattle.b.specs.B.{c};\nuse c::{d, e};\n", ["a staticlib: c", "b:", "c:"])
     == ["crates.txt: a names b and does not list it"]),
    ("a crate that is listed has to be named", lambda: rule_faults(
        "crates/a/src/lib.rt", "use b::c;\n", ["a: b c", "b:", "c:"])
     == ["crates.txt: a lists c and does not name it"]),
    ("what is lent and an operator's operands are no scratch memory", lambda: scratch_faults(
        "// let t = [0u16; 8];\npub fn f(s: &mut [u16], t: &[u16; 4], k: usize) -> Operator\n"
        "    ensures { result ≡ [k] }\n{\n    s[k] = t[0];\n    let n = first(s);\n    g(n, &ROW, s.len())\n"
        "}\nfn g(n: u16, row: &[u8; 2], k: usize) -> Operator {\n    let mut op = blank(row[0] + ROW[1]);\n"
        "    if (k > 2) & (n == 1) { op.args[0] = 1; }\n    op\n}\n") == {}),
    ("items of a group are found", lambda: scratch_faults(
        "fn f(s: &[u16], k: u8) -> Operator { let n = first(s); g(n, &ROW); script::blank(k) }\n"
        "fn g(n: u16, row: &[u8; 2]) -> Operator { blank(row[0] + ROW[1]) }\n", GROUPED) == {}),
    ("and looked at", lambda: scratch_faults("fn f(s: &[u16]) -> u16 { buffer(s); gone(s) }\n", GROUPED)
     == {"a::b::f": ["calls gone, which is not found"], "others::buffer": ["makes an array"]}),
    ("by the name that they get", lambda: scratch_faults(
        "fn f(s: &[u16]) -> u16 { first(s) }\n", "use others::{buffer as first, gone};\n")
     == {"others::buffer": ["makes an array"]}),
    ("an array that is made fails", lambda: scratch_in("", "let t = [0u16; 8];") == ["makes an array"]),
    ("an array of words fails", lambda: scratch_in("k: u16", "first(&[k, k]);") == ["makes an array"]),
    ("an array by its type fails", lambda: scratch_in("", "let t: [u16; 8] = g();\n} fn g() -> u8 { 0")
     == ["has an array"]),
    ("an array by value fails", lambda: scratch_in("t: [u16; 8]", "") == ["takes an array"]),
    ("an array as the answer fails", lambda: scratch_faults("fn f() -> [u16; 8] { f2() }\nfn f2() -> u8 { 0 }\n")
     == {"a::b::f": ["answers an array"]}),
    ("a struct that holds an array fails", lambda: scratch_in("p: Pair", "") == ["takes Pair, which holds an array"]),
    ("a search by a closure passes", lambda: scratch_faults(
        "fn f(n: usize) -> usize { g(n, |k| k == 3).min(n) }\n"
        "fn g<F: Fn(usize) -> bool>(n: usize, test: F) -> usize { if test(n) { n } else { 0 } }\n") == {}),
    ("what a closure makes is seen", lambda: scratch_faults(
        "fn f(n: usize) -> usize { g(n, |k| { let t = [0u8; 8]; t[k] == 3 }) }\n"
        "fn g<F: Fn(usize) -> bool>(n: usize, test: F) -> usize { if test(n) { n } else { 0 } }\n")
     == {"a::b::f": ["makes an array"]}),
    ("a closure that moves fails", lambda: scratch_in("n: usize", "first(move |k| k)") == ["makes a closure that moves"]),
    ("a method that is not of numbers fails", lambda: scratch_in("n: usize", "n.clone()")
     == ["calls clone, which is not found"]),
    ("a function handed over by its name is followed", lambda: scratch_faults(
        "fn f(n: usize) -> usize { g(n, h) }\nfn h(k: usize) -> bool { let t = [0u8; 8]; t[k] == 3 }\n"
        "fn g<F: Fn(usize) -> bool>(n: usize, test: F) -> usize { if test(n) { n } else { 0 } }\n")
     == {"a::b::h": ["makes an array"]}),
    ("one handed over by a path that is not read fails", lambda: all(scratch_faults(
        f"fn f(n: usize) -> usize {{ g(n, {word}) }}\n"
        "fn g<F: Fn(usize) -> bool>(n: usize, test: F) -> usize { if test(n) { n } else { 0 } }\n")
     == {"a::b::f": [f"hands over {word}, which is not found"]}
        for word in ("self::h", "S::h", "h::<4>", "deep::h", "n"))),
    ("a closure handed on passes", lambda: scratch_faults(
        "fn f(n: usize) -> usize { g(n, |k| k == 3) }\n"
        "fn g<F: Fn(usize) -> bool>(n: usize, test: F) -> usize { h(&test) }\n"
        "fn h<F: Fn(usize) -> bool>(test: &F) -> usize { if test(1) { 1 } else { 0 } }\n") == {}),
    ("a closure of more than numbers fails", lambda: all(scratch_faults(
        f"fn f(n: usize) -> usize {{ g(n, |t, k| put(t, k)) }}\nfn put(t: &mut [u16], k: usize) -> usize {{ k }}\n"
        f"fn g<{kind}>(n: usize, go: F) -> usize {{ n }}\n")
     == {"a::b::g": ["is generic in more than closures of numbers"]}
        for kind in ("F: Fn(&mut [u16], usize) -> usize", "F: Fn(&mut [u16], usize) -> usize, T: Put"))),
    ("a comma in a parameter's type moves no place", lambda: scratch_faults(
        "fn f(n: usize) -> usize { g(&n, self::h) }\n"
        "fn g<F: Fn(usize) -> bool>(n: &Pair<usize, u8>, test: F) -> usize { if test(1) { 1 } else { 0 } }\n")
     == {"a::b::f": ["hands over self::h, which is not found"]}),
    ("a closure's name that a `let` hides is none", lambda: "a::b::k" in scratch_faults(
        "fn f(n: usize) -> usize { k(n, |i| i == 3) }\n"
        "fn k<F: Fn(usize) -> bool>(n: usize, test: F) -> usize { let test = self::h; g(n, test) }\n"
        "fn g<F: Fn(usize) -> bool>(n: usize, test: F) -> usize { if test(n) { n } else { 0 } }\n")),
    ("a plain call of a method's name fails", lambda: scratch_in("n: usize", "max(n)")
     == ["calls max, which is not found"]),
    ("one handed over that calls back calls itself", lambda: "a::b::f" in scratch_faults(
        "fn f(n: usize) -> usize { g(n, h) }\nfn h(k: usize) -> bool { f(k) == 3 }\n"
        "fn g<F: Fn(usize) -> bool>(n: usize, test: F) -> usize { if test(n) { n } else { 0 } }\n")),
    ("a parameter that is no closure is not called unseen", lambda: scratch_in("first_of: usize", "first_of(1)")
     == ["calls first_of, which is not found"]),
    ("a function of the sources named as a method of numbers is followed", lambda: scratch_faults(
        "fn f(n: usize) -> usize { max(n) }\nfn max(n: usize) -> usize { let t = [0u8; 8]; t[n] as usize }\n")
     == {"a::b::max": ["makes an array"]}),
    ("a method of the sources named so fails", lambda: scratch_faults(
        "fn f(n: usize) -> usize { n.max(1) }\n"
        "impl S { fn max(self, n: usize) -> usize { let t = [0u8; 8]; n } }\n")
     == {"a::b::f": ["calls max, which is not found"]}),
    ("also where that one is not read", lambda: scratch_faults(
        "fn f(n: usize) -> usize { n.max((1, 2)) }\n"
        "impl S { fn max(self, k: (usize, usize)) -> usize { 0 } }\n")
     == {"a::b::f": ["calls max, which is not found"]}),
    ("a struct of another file has to be found", lambda: scratch_in("p: Lost", "")
     == ["takes the type Lost, which is not found"]),
    ("a copy of a lent array fails", lambda: scratch_in("t: &[u16; 4]", "let c = *t;") == ["copies what t lends"]),
    ("by way of another name too", lambda: scratch_in("t: &[u16; 4]", "let u = t; let c = *u;")
     == ["copies what u lends"]),
    ("a copy of a lent struct fails", lambda: scratch_in("p: &Pair", "match *p { q => 1 };")
     == ["copies what p lends"]),
    ("a product and a word of a lent array are no copies", lambda: scratch_in(
        "t: &[u16; 4], n: u16", "let c = n * n; let d = t[0] * c;") == []),
    ("a copy of operands fails", lambda: scratch_in("op: Operator", "let a = op.args;") == ["copies args"]),
    ("a copy of a lent struct's part fails", lambda: scratch_in("p: &Pair", "let h = p.held;") == ["copies held"]),
    ("a copy of a constant fails", lambda: scratch_in("", "let r = ROW;") == ["copies ROW"]),
    ("of a constant struct too", lambda: scratch_in("", "let r = NONE;") == ["copies NONE"]),
    ("scratch memory of another crate's function fails", lambda: scratch_faults(
        "fn f(s: &[u16]) -> u16 { g(s) }\nfn g(s: &[u16]) -> u16 { buffer(s) }\n")
     == {"others::buffer": ["makes an array"]}),
    ("a cycle of calls fails", lambda: scratch_faults("fn f(n: u8) { g(n) }\nfn g(n: u8) { if n > 0 { f(n - 1) } }\n")
     == {"a::b::f": ["calls itself: a::b::f > a::b::g > a::b::f"]}),
    ("a called name that is nowhere fails", lambda: scratch_in("", "lost(1);") == ["calls lost, which is not found"]),
    ("a called name that its crate lacks fails", lambda: scratch_in("", "gone(1);")
     == ["calls gone, which is not found"]),
    ("a call by a path is followed", lambda: "others::buffer" in scratch_faults(
        "fn f(s: &[u16]) -> u16 { others::buffer(s) }\n")),
    ("a method that is not known fails", lambda: scratch_in("s: &[u16]", "s.to_vec();")
     == ["calls to_vec, which is not found"]),
    ("kef's functions have to be there", lambda: scratch_faults("fn other() {}\n")
     == {"a::b::f": ["there is no such function"]}),
    ("a walk of one store a turn, held by its invariant, passes", lambda: amid_faults() == []),
    ("a turn of two stores fails", lambda: len(amid_faults(turn="put(links, k, 0); put(links, k, l);")) == 1),
    ("a turn of no store fails", lambda: len(amid_faults(turn="")) == 2),
    ("a turn that stores in a loop fails", lambda: len(amid_faults(turn="while k > 9 { put(links, k, l); }")) == 1),
    ("a walk that stores beside its turns fails", lambda: len(amid_faults(
        walk="k = pass_one(links, k, l); put(links, k, l);")) == 1),
    ("a walk that stores by itself fails", lambda: len(amid_faults(
        walk="k = pass_one(links, k, l); links[k] = l;")) == 1),
    ("a walk that stores by a function named as a method of numbers fails", lambda: len(amid_faults(
        walk="k = pass_one(links, k, l); max(links, k);",
        more="fn max(links: &mut [u16], k: usize) { links[k] = 9; }\n")) == 1),
    ("a turn that hands its store over fails", lambda: len(amid_faults(
        turn="twice(links, k, l, put);", more="fn twice<F: Fn(&mut [u16], usize, u16)>(links: &mut [u16], k: usize, "
        "l: u16, put: F) { put(links, k, 0); put(links, k, l); }\n")) == 1),
    ("a walk that hands its turn over fails", lambda: len(amid_faults(
        walk="k = both(links, k, l, pass_one);", more="fn both<F: Fn(&mut [u16], usize, u16) -> usize>("
        "links: &mut [u16], k: usize, l: u16, go: F) -> usize { go(links, k, l) }\n")) == 1),
    ("a walk that hands over what is not read fails", lambda: len(amid_faults(
        walk="k = pass_one(links, k, l); once(links, self::put);",
        more="fn once<F: Fn(&mut [u16])>(links: &mut [u16], put: F) { put(links); }\n")) == 1),
    ("a turn that calls itself fails", lambda: len(amid_faults(turn="pass_one(links, k, l);")) == 1),
    ("another invariant fails", lambda: len(amid_faults(
        invariant="(relabel l.sh (l.fuel - l.counter) l.links l.k l.stop l.l ≡ whole)")) == 1),
    ("an invariant that says more of other links fails", lambda: all(len(amid_faults(invariant=said)) == 1 for said in (
        WALKED.replace("l.initial.links", "l.links"), WALKED + " -- or so",
        WALKED.replace("l.counter", "(l.counter + 1)")))),
    ("a sweep that reads and runs passes", lambda: above_faults("runs::enter(links); sessions_entry::run(links);")
     == []),
    ("a sweep that lists operator code fails", lambda: above_faults(uses="euler_edges runs_steps takedown_acts")
     == [f"crates.txt: sweep_call lists {name}, which is operator code"
         for name in ("euler_edges", "runs_steps", "takedown_acts")]),
    ("a sweep that lends the table to an operator fails", lambda: above_faults("euler_edges::run(links);")
     == ["sweep_call::sweep lends links to euler_edges::run to be written"]),
    ("a sweep that runs twice fails", lambda: above_faults("sessions_entry::run(links); sessions_entry::run(links);")
     == ["sweep_call::sweep hands links on to be written 2 times"]),
    ("a sweep that does anything else with the table fails", lambda: all(len(above_faults(
        f"{store} sessions_entry::run(links);")) == 1 for store in (
            "links[3] = 1;", "links[a[0]] = 1;", "let t = links;", "links[0] <<= 1;", "links.fill(0);", "lost(links);",
            "*links = t;", "runs::enter(&mut links[..]);"))),
    ("a sweep that runs in a loop fails", lambda: above_faults("while i < 3 { sessions_entry::run(links); }")
     == ["sweep_call::sweep has a loop"]),
    ("another function that holds a table fails", lambda: all(above_faults(more=f"fn f({p}) {{}}\n")
     == ["sweep_call::f holds a table to write"] for p in (
         "points: &mut [i32]", "mut links: &mut [u16]", "a: &mut [u16; 61445]"))),
    ("a function that cannot be read fails", lambda: above_faults(more="fn f(p: (u8, u8)) -> u8 { 0 }\n")
     == ["crates/sweep_call/src/lib.rt: f could not be read".replace("/", os.sep)]),
    ("what could hide a holder fails", lambda: all(len(above_faults(more=text)) == 1 for text in (
        "type T = u8;\n", "mod m { }\n", "struct S { a: &mut [u16] }\n", "struct S { a: &mut [u16], b: u8 }\n",
        "struct S(&mut [u16]);\n"))),
    ("a struct that lends to read passes", lambda: above_faults(more="struct S<'a> { a: &'a [u16; ITEM_PLACES] }\n")
     == []),
    ("a struct that lends to write fails with a lifetime too", lambda: len(above_faults(
        more="struct S<'a> { a: &'a mut [u16] }\n")) == 1),
    ("a table lent with a lifetime is one", lambda: all(len(above_faults(more=text)) == 1 for text in (
        "fn f(links: &'static mut [u16]) { links[0] = 1; }\n", "fn f(points: &'a mut [i32; 3]) { points[0] = 1; }\n"))),
    ("a function generic in more than closures fails", lambda: all(len(above_faults(more=text)) >= 1 for text in (
        "fn f<'a>(links: &'a mut [u16]) { links[0] = 1; }\n", "fn f<T: Put>(t: &mut T) { t.put(0, 1); }\n",
        "fn f<F: Fn(&mut [u16]) -> u8>(g: F) { }\n"))),
    ("a table handed below the kernel to one that is generic in it fails", lambda: len(above_faults(
        "runs::scribble(links); sessions_entry::run(links);", below="pub fn scribble<T: Put>(t: T) { t.put(0, 1); }\n"))
     >= 1),
    ("a table handed to one that is generic in it fails", lambda: len(above_faults(
        "scribble(links); sessions_entry::run(links);", more="fn scribble<T: Put>(t: T) { t.put(0, 1); }\n")) >= 1),
    ("a search by a closure of numbers passes above the kernel", lambda: above_faults(
        more="fn f<F: Fn(usize) -> bool>(n: usize, test: F) -> bool { test(n) }\n") == []),
    ("scratch arrays are no tables", lambda: above_faults(more="fn f(a: &mut [u16; ITEM_PLACES]) { a[0] = 1; }\n")
     == []),
    ("a proof that unfolds an operator fails", lambda: all(above_faults(unfolded=text)
     == ["crates/sweep_call/specs/A.antt: unfolds of_Surgery".replace("/", os.sep)] for text in (
         "run_of\n    of_Surgery", "Surgery.of_Surgery", "run_of -- so: it is\n    of_Surgery"))),
    ("code that lets the check unfold an operator fails", lambda: above_faults(
        more="#[tactic(auto, using(a::b), unfolding(crate::c, euler::specs::Surgery::of_Surgery))]\nfn f() { }\n")
     == ["crates/sweep_call/src/lib.rt: unfolds of_Surgery".replace("/", os.sep)]),
    ("a name of an operator fails", lambda: above_faults(named="inverse, of_Exec as m")
     == ["crates/sweep_call/specs/A.antt: names of_Exec as m of Exec".replace("/", os.sep)]),
    ("a good step counts", lambda: gate.judge(0, "ok\n3 passed, 0 failed\n") == (3, 0)),
    ("a failed test fails the step", lambda: gate.judge(1, "2 passed, 1 failed\n") == (2, 1)),
    ("a bad exit status fails the step", lambda: gate.judge(1, "3 passed, 0 failed\n") == (3, 1)),
    ("no closing line fails the step", lambda: gate.judge(0, "3 passed, 0 failed\nkilled\n") == (0, 1)),
    ("no output fails the step", lambda: gate.judge(0, "") == (0, 1)),
    ("no test fails the step", lambda: gate.judge(0, "0 passed, 0 failed\n") == (0, 1)),
    ("proofs with their edits refused pass", lambda: gate.judge_proofs(0, proofs_said("; must-fail edits: 5 refused"))
     == (3, 0)),
    ("bad edits fail the proofs", lambda: gate.judge_proofs(0, proofs_said("; must-fail edits: 5 refused, 2 bad"))
     == (3, 2)),
    ("also beside edits that a limit refused", lambda: gate.judge_proofs(0, proofs_said(
        "; must-fail edits: 5 refused, 1 of them only by a limit, 12 bad")) == (3, 13)),
    ("edits that a limit refused fail the proofs", lambda: gate.judge_proofs(0, proofs_said(
        "; must-fail edits: 5 refused, 2 of them only by a limit")) == (3, 2)),
    ("so do edits that are refused and show nothing", lambda: all(gate.judge_proofs(
        0, f"rt: must-fail a/b.edit: refused, as it must be{words}\n" + proofs_said("; must-fail edits: 5 refused"))
        == (3, 1) for words in (" (only because a proof file names what the edit took away, so this says little)",
                                ": note: src/lib.rt:4:9: (`returns`); `search` gave up at one of its limits"))),
    ("an edit that is refused for a fact passes", lambda: gate.judge_proofs(
        0, "rt: must-fail a/b.edit: refused, as it must be: ./proofs/f/Answers.antt:8:5: error: `returns`: no\n"
        + proofs_said("; must-fail edits: 5 refused")) == (3, 0)),
    ("no edit fails the proofs", lambda: gate.judge_proofs(0, proofs_said("")) == (3, 1)),
    ("edits that are all bad fail the proofs", lambda: gate.judge_proofs(0, proofs_said(
        "; must-fail edits: 0 refused, 1 bad")) == (3, 1)),
    ("proofs that do not end well fail", lambda: gate.judge_proofs(1, "rt: FAILED: k\n2 passed, 1 failed\n") == (2, 1)),
    ("proofs without their line fail", lambda: gate.judge_proofs(0, "3 passed, 0 failed\n") == (3, 1)),
    ("proofs that were cut short fail", lambda: gate.judge_proofs(0, "rt: ok; must-fail edits: 5 refused\n") == (0, 1)),
]


def main():
    bad = [name for name, holds in CASES if not holds()]
    for name in bad:
        print("failed:", name)
    print(f"{len(CASES) - len(bad)} passed, {len(bad)} failed")
    return 1 if bad else 0


if __name__ == "__main__":
    sys.exit(main())
