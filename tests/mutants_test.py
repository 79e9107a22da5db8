"""Tests the mutants: each kind of edit on small made-up sources, the choice among them, those of this repository, and how what the
prover says is read. No prover runs.

The last line is 'N passed, M failed', and the exit status is 0 exactly when M is 0.
"""

import re
import sys
import tempfile
import unittest
from importlib.machinery import SourceFileLoader
from importlib.util import module_from_spec, spec_from_loader
from pathlib import Path

from counting import run_tests
from mutating import KINDS, all_mutants, chosen, crates_of, difference, edited, mutants_of
from sources import Reader

ROOT = Path(__file__).resolve().parent.parent
FEWEST_MUTANTS = 150


def script():
    """The script tests/mutants as a module."""
    loader = SourceFileLoader("mutants", str(ROOT / "tests" / "mutants"))
    module = module_from_spec(spec_from_loader("mutants", loader))
    loader.exec_module(module)
    return module


SCRIPT = script()

# What is not edited: a comment, a contract, a type.
BEFORE = """// 1 < 2
#![tactic(auto)]

ghost use Rattle.std.specs.Prelude.{◌≡◌};
use one::LESS;

#[derive(Clone, Copy)]
pub struct Pair {
    pub x: u64,
    pub y: u64,
    pub flag: bool,
}

enum Shape {
    Round { size: [u8; 8] },
    Flat,
}

fn f(a: u64, b: u64, c: bool) -> u64
    requires { (a - 1 < 2) × (b ≡ 3) }
    ensures { result ≡ 4 }
{
    """
AFTER = "\n}\n"


def mutants_in(text):
    """The mutants of a source that is a crate's only file."""
    source = Reader(text).read()
    return list(mutants_of("one", "crates/one/src/lib.rt", text, source, source))


# By its lines: a function with its body, at an indent; and a block of functions with its owner, the type that it is for, or else the trait.
FUNCTION = r"^{0}(?:pub(?:\(\w+\))? )?(?:extern \"C\" )?fn (\w+)(?:<[^(]*>)?\((?:(?!;\n).)*?\{{\n(.*?)^{0}\}}"
OWNER = r"^(?:impl|(?:pub )?trait)(?:<[^\n]*?>)? (?:[^\n{]* for )?(\w+)[^\n]*\{\n(.*?)^\}"


def functions_in(text, indent=""):
    """The functions of a source that have a body, each by its owner and name, with its body; those of its blocks come after the others."""
    found = re.findall(FUNCTION.format(indent), text, re.M | re.S)
    blocks = () if indent else re.findall(OWNER, text, re.M | re.S)
    return found + [(f"{owner}::{name}", body) for owner, block in blocks for name, body in functions_in(block, "    ")]


class Edits(unittest.TestCase):
    """What the edits of one kind make of a function's body."""

    def check(self, kind, body, *wanted):
        """The edits of this kind make these bodies of this one, in this order."""
        text = BEFORE + body + AFTER
        found = [edited(text, mutant.changes) for mutant in mutants_in(text) if mutant.kind == kind]
        self.assertEqual(found, [BEFORE + one + AFTER for one in wanted])

    def test_each_comparison(self):
        for old, new in (("<", "<="), ("<=", "<"), (">", ">="), (">=", ">"), ("==", "!="), ("!=", "==")):
            self.check("comparison", f"a {old} b", f"a {new} b")

    def test_comparisons_in_their_order(self):
        wanted = ["if a <= 1 { c == (b > 2) }", "if a < 1 { c != (b > 2) }", "if a < 1 { c == (b >= 2) }"]
        self.check("comparison", "if a < 1 { c == (b > 2) }", *wanted)

    def test_numbers(self):
        self.check("constant", "a + 7", "a + 8", "a + 6")
        self.check("constant", "0", "1")
        self.check("constant", "-1_000 + a", "-1001 + a", "-999 + a")
        self.check("constant", "a & 0x1f_u64", "a & 32u64", "a & 30u64")
        self.check("constant", "a[5..]", "a[6..]", "a[4..]")

    def test_a_number_that_names_a_field(self):
        self.check("constant", "a.0 + b")

    def test_truth(self):
        self.check("constant", "f(true, c)", "f(false, c)")
        self.check("constant", "c = false;", "c = true;")

    def test_bytes(self):
        self.check("constant", 'put(b"ab")', 'put(b"xb")')
        self.check("constant", 'put(b"x")', 'put(b"y")')
        self.check("constant", 'put(b"\\n")', 'put(b"x")')
        self.check("constant", "b'\\x7f'", "b'x'")
        self.check("constant", 'put(b"")')

    def test_the_lengths_of_an_array(self):
        wanted = ["let m: [u8; 3] = [b; 3];\n    a", "let m: [u8; 1] = [b; 1];\n    a"]
        self.check("constant", "let m: [u8; 2] = [b; 2];\n    a", *wanted)
        self.check("constant", "let m: [u8; 2] = [b, b];")

    def test_a_pattern(self):
        self.check("constant", "match a { 3 => b, _ => a }", "match a { 4 => b, _ => a }", "match a { 2 => b, _ => a }")

    def test_a_guard(self):
        body = "match a { d if d < b && c => b, 3 | 5 if f(a, 7, false) => a, _ => b }"
        self.check("comparison", body, body.replace("<", "<="))
        self.check("exchange", body, body.replace("d < b", "b < d"), body.replace("&&", "||"), body.replace("a, 7", "7, a"))
        numbers = [("3", "4"), ("3", "2"), ("5", "6"), ("5", "4"), ("7", "8"), ("7", "6"), ("false", "true")]
        self.check("constant", body, *(body.replace(old, new) for old, new in numbers))

    def test_a_result_that_is_taken_apart(self):
        body = "match g(a, &mut d[b..]) { Ok(more) => { if more == 0 { break; } a += more; } Err(_) => { return Pair { x: a }; } }"
        self.check("comparison", body, body.replace("more == 0", "more != 0"))
        self.check("constant", body, body.replace("0", "1"))
        self.check("exchange", body, body.replace("+=", "-="))
        self.check("drop", body, body.replace("if more == 0 { break; }", ""), body.replace("a += more;", ""))

    def test_operands(self):
        self.check("exchange", "a < b", "b < a")
        self.check("exchange", "a - b", "b - a", "a + b")
        self.check("exchange", "a[1] as u64 % (b + 1)", "(b + 1) % a[1] as u64", "a[1] as u64 / (b + 1)", "a[1] as u64 % (b - 1)")

    def test_operands_that_may_stand_in_either_order(self):
        self.check("exchange", "a == b")
        self.check("exchange", "a ^ b")
        self.check("exchange", "a + b", "a - b")
        self.check("exchange", "a * b", "a + b")
        self.check("exchange", "a < a")

    def test_how_strongly_operators_bind(self):
        self.check("exchange", "a - b - 1", "b - a - 1", "1 - a - b", "a + b - 1", "a - b + 1")
        self.check("exchange", "a <= b << 1", "b << 1 <= a", "a <= 1 << b")
        self.check("exchange", "!c | (a < b) & c", "!c & (a < b) & c", "!c | (b < a) & c", "!c | (a < b) | c")

    def test_operators_with_a_partner(self):
        self.check("exchange", "c && c", "c || c")
        self.check("exchange", "a += b;", "a -= b;")
        self.check("exchange", "g(&a, -b, *c)")

    def test_arguments_of_one_type(self):
        self.check("exchange", "one::f(a, 2, c)", "one::f(2, a, c)")
        self.check("exchange", "f(a, a, c)")

    def test_arguments_of_a_function_that_is_not_known(self):
        self.check("exchange", "libc::read(a, b)")

    def test_fields_of_one_type(self):
        self.check("exchange", "Pair { x: a, y: b, flag: c }", "Pair { x: b, y: a, flag: c }")
        self.check("exchange", "if c { one::Pair { x: a, y: b, flag: c }.x }", "if c { one::Pair { x: b, y: a, flag: c }.x }")

    def test_branches(self):
        self.check("exchange", "if c { a } else { b }", "if c { b } else { a }")
        self.check("exchange", "if let Pair { x: d } = b { d } else { b }", "if let Pair { x: d } = b { b } else { d }")

    def test_statements(self):
        self.check("drop", "a = b; a", " a")
        self.check("drop", "a[1] += b;\n    a", "a")
        self.check("drop", "f(a, b, c);\n    f(a, b, c)", "f(a, b, c)")

    def test_ifs(self):
        body = "while c {\n        if a < b {\n            return b;\n        }\n    }\n    a"
        self.check("drop", body, "while c {\n    }\n    a")
        self.check("drop", "if c { f(a, b, c); } a", " a", "if c {  } a")

    def test_statements_that_stay(self):
        self.check("drop", "let d = f(a, b, c);\n    if c { a } else { b }")
        self.check("drop", "return f(a, b, c);")
        self.check("drop", "let Shape::Round { size: d } = a else { return b; };\n    loop { break; }")


class Sources(unittest.TestCase):
    """Which items a source has."""

    def test_constants_and_functions(self):
        text = "pub const MOST: usize = 2 * LESS;\nmod within;\nconst LESS: usize = 3;\nimpl Pair {\n    fn g(self) -> u64 { 1 }\n}\n"
        found = {mutant.item: mutant.public_constant for mutant in mutants_in(text)}
        self.assertEqual(found, {"one/MOST": True, "one/LESS": False, "one/Pair::g": False})

    def test_what_stands_before_a_body(self):
        clauses = "    requires { 3 ≡ 3 }\n    ensures whole { 4 ≡ 4 }\n    ensures part { 5 ≡ 5 }\n"
        text = f"#[unsafe(no_mangle)]\npub extern \"C\" fn g<'a>(a: &'a [u8; 4]) -> [u8; 4]\n{clauses}{{\n    [a[0]; 4]\n}}\n"
        found = [difference(text, mutant)[1][1] for mutant in mutants_in(text)]
        self.assertEqual(found, ["+ [a[1]; 4]", "+ [a[0]; 5]", "+ [a[0]; 3]"])

    def test_names_and_differences(self):
        text = "const LESS: usize = 3;\n"
        found = [(mutant.name, *difference(text, mutant)) for mutant in mutants_in(text)]
        more = ["- const LESS: usize = 3;", "+ const LESS: usize = 4;"]
        less = ["- const LESS: usize = 3;", "+ const LESS: usize = 2;"]
        self.assertEqual(found, [("one/LESS/constant-1", 1, more), ("one/LESS/constant-2", 1, less)])

    def test_a_dropped_statement_differs_by_its_lines(self):
        text = "fn g(a: &mut [u8]) {\n    let b = a[0];\n    if b == 1 {\n        a[1] = b;\n    }\n}\n"
        dropped = [mutant for mutant in mutants_in(text) if mutant.name == "one/g/drop-1"]
        self.assertEqual(difference(text, dropped[0]), (3, ["- if b == 1 {", "- a[1] = b;", "- }"]))

    def test_a_text_that_is_not_read_is_told(self):
        with self.assertRaisesRegex(SyntaxError, "line 2: `}` is expected|line 2: `an expression` is expected"):
            Reader("fn g() {\n    a + ;\n}\n").read()


class Choice(unittest.TestCase):
    """Which mutants of this repository are chosen."""

    @classmethod
    def setUpClass(cls):
        cls.mutants = all_mutants(ROOT)
        cls.chosen = chosen(cls.mutants, SCRIPT.COUNT, SCRIPT.SEED)

    def test_names_and_texts_differ(self):
        texts = {path: (ROOT / path).read_text(encoding="utf-8") for path in {mutant.path for mutant in self.mutants}}
        made = {(mutant.path, edited(texts[mutant.path], mutant.changes)) for mutant in self.mutants}
        self.assertEqual(len(made), len(self.mutants))
        self.assertEqual(len({mutant.name for mutant in self.mutants}), len(self.mutants))
        self.assertFalse(made & set(texts.items()))

    def test_enough_of_each_kind(self):
        self.assertEqual(len(self.chosen), SCRIPT.COUNT)
        self.assertGreaterEqual(SCRIPT.COUNT, FEWEST_MUTANTS)
        for kind in KINDS:
            self.assertGreaterEqual(sum(mutant.kind == kind for mutant in self.chosen), SCRIPT.COUNT // 10, kind)

    def test_every_function_with_a_place(self):
        """A body has a place if it has a number or an operator between spaces, past its macros: this is read off the text, line by line."""
        items, functions = {mutant.item for mutant in self.chosen}, 0
        for crate in crates_of(ROOT):
            for path in (ROOT / "crates" / crate / "src").glob("*.rt"):
                within = "" if path.stem in ("lib", "main") else f"{path.stem}."
                for name, body in functions_in(path.read_text(encoding="utf-8")):
                    if re.search(r"\b\d| (?:[-+/%<>&|*]|[-+]=|[=!<>]=) ", re.sub(r"\w!\(.*", "", body)):
                        functions += 1
                        self.assertIn(f"{crate}/{within}{name}", items)
        self.assertGreaterEqual(functions, 150)

    def test_functions_by_their_lines(self):
        generic = "    pub fn b<const N: usize>(self) -> [u8; N]\n        ensures { 1 ≡ 1 }\n    {\n        [2; N]\n    }\n"
        text = "fn a() {\n    1\n}\n\nimpl<'a, T: Of<U>> Pair<'a, T> {\n" + generic + "}\n"
        text += "\nimpl fmt::Display for Pair {\n    fn c();\n\n    pub(crate) fn d() {\n        3\n    }\n}\n"
        self.assertEqual(functions_in(text), [("a", "    1\n"), ("Pair::b", "        [2; N]\n"), ("Pair::d", "        3\n")])

    def test_every_crate_that_has_code(self):
        crates = {mutant.crate for mutant in self.chosen}
        self.assertEqual(set(crates_of(ROOT)) - crates, {"boundaries", "live", "rule"})

    def test_the_same_each_time(self):
        again = chosen(all_mutants(ROOT), SCRIPT.COUNT, SCRIPT.SEED)
        self.assertEqual(again, self.chosen)
        self.assertNotEqual(chosen(self.mutants, SCRIPT.COUNT, "another seed"), self.chosen)

    def test_in_place_of_the_stillborn(self):
        stillborn = {mutant.name for mutant in self.chosen[::5]}
        more = chosen(self.mutants, SCRIPT.COUNT, SCRIPT.SEED, stillborn)
        living = [mutant for mutant in more if mutant.name not in stillborn]
        self.assertEqual(len(living), SCRIPT.COUNT)
        self.assertLessEqual({mutant.name for mutant in self.chosen if mutant.item == "plane/LOW_END"}, {mutant.name for mutant in more})

    def test_as_many_as_there_are(self):
        self.assertEqual(chosen(self.mutants, 10**6, SCRIPT.SEED), self.mutants)

    def test_digests(self):
        digests = SCRIPT.digests_of(ROOT, self.chosen, "kit")
        self.assertEqual(len(set(digests.values())), len(self.chosen))
        self.assertFalse(set(digests.values()) & set(SCRIPT.digests_of(ROOT, self.chosen, "another kit").values()))


class Verdicts(unittest.TestCase):
    """How what the prover says is read."""

    REFUSED = "./proofs/f/Answers.antt:3:4: error: `returns`: the two types differ\nlogic=not-proved\n"
    STILLBORN = "src/lib.rt:3:4: error[mismatched-types]: expected `bool`\n"

    def test_each_verdict(self):
        self.assertEqual(SCRIPT.verdict_of(0, "logic=proved functions=8\n"), "accepted")
        self.assertEqual(SCRIPT.verdict_of(1, self.REFUSED), "refused")
        self.assertEqual(SCRIPT.verdict_of(1, self.STILLBORN), "stillborn")
        self.assertEqual(SCRIPT.verdict_of(None, ""), "not told")
        self.assertEqual(SCRIPT.verdict_of(3, self.REFUSED), "not told")

    def test_exit_status_and_log_must_agree(self):
        self.assertEqual(SCRIPT.verdict_of(0, self.REFUSED), "not told")
        self.assertEqual(SCRIPT.verdict_of(1, "logic=proved functions=8\n"), "not told")
        self.assertEqual(SCRIPT.verdict_of(2, self.STILLBORN), "not told")

    def check_outcome(self, wanted, status, *said):
        """Where `rt ci two` ends with this status and writes this, of a crate that names another, this is what it came to."""
        verdict, crate, log = SCRIPT.outcome_of("two", status, "rt: note: a note\n" + "".join(said))
        self.assertEqual((verdict, *([crate, log] if verdict == "refused" else [])), wanted)

    def test_what_a_check_came_to(self):
        kept = "rt: one is kept: an earlier run on this machine proved the same files over the same libraries\n"
        proved = "== two\nlogic=proved functions=1\nrt: two proved\n"
        tests = "== two: its tests\nlogic=proved functions=2\nrt: two: its tests are proved\n"
        over = "rt: two NOT PROVED: its library one failed\n"

        def unproved(crate, log, whose=""):
            return f"== {crate}{whose}\n{log}rt: {crate}{whose}{' are' if whose else ''} NOT PROVED\n"

        self.check_outcome(("accepted",), 0, kept, proved, "1 passed, 0 failed\n")
        self.check_outcome(("accepted",), 0, kept, tests, proved)
        self.check_outcome(("accepted",), 1, kept, proved, "rt: FAILED: two (run)\n")
        self.check_outcome(("not told",), 1, kept, proved, "rt: FAILED: two (tests)\n")
        self.check_outcome(("not told",), 1, kept, proved, "rt: FAILED: two/some.edit two (run)\n")
        self.check_outcome(("not told",), 1, kept, proved)
        self.check_outcome(("not told",), 2, kept, proved, "rt: FAILED: two (run)\n")
        self.check_outcome(("refused", "two", self.REFUSED), 1, kept, unproved("two", self.REFUSED), "rt: FAILED: two\n")
        self.check_outcome(("refused", "two", self.REFUSED), 1, kept, unproved("two", self.REFUSED, ": its tests"), proved)
        self.check_outcome(("refused", "one", self.REFUSED), 1, unproved("one", self.REFUSED), over, "rt: FAILED: one two\n")
        self.check_outcome(("stillborn",), 1, unproved("one", self.STILLBORN), over)
        self.check_outcome(("not told",), 1, kept, unproved("two", "rt: run rt fmt in the crate's folder\n"))
        self.check_outcome(("not told",), None, kept)

    def test_the_first_error(self):
        follows = "./proofs/A.antt:1:1: error: `a`: `returns` was not admitted, so this cannot be checked\n"
        self.assertEqual(SCRIPT.first_error("one", follows + self.REFUSED), ("one/proofs/f/Answers.antt: returns", True))

    def test_a_function_without_a_proof_file(self):
        note = "note: src/lib.rt:3:4: it is not proved that the sum fits its type (`add-sum`); the facts known there allow no\n"
        self.assertEqual(SCRIPT.first_error("one", note), ("one/src/lib.rt: add-sum", True))

    def test_a_proof_of_another_form(self):
        form = "./proofs/f/Invariants.antt:2:1: error: `invariant-loop`: this pattern needs a function (or path) type to bind\n"
        self.assertEqual(SCRIPT.first_error("one", form + self.REFUSED), ("one/proofs/f/Invariants.antt: invariant-loop", False))

    def test_the_compilers_error(self):
        self.assertEqual(SCRIPT.first_error("one", self.STILLBORN), ("one/src/lib.rt:3:4: error[mismatched-types]", True))

    def test_kept_for_as_long_as_the_texts_are_the_same(self):
        first, second = mutants_in("const LESS: usize = 3;\n")
        with tempfile.TemporaryDirectory() as folder:
            file, digests = Path(folder, "deep", "results.json"), {first.name: "a", second.name: "b"}
            SCRIPT.Results(file, digests).keep(first, {"verdict": "stillborn"})
            SCRIPT.Results(file, digests).keep(second, {"verdict": "refused"})
            known, edited_since = SCRIPT.Results(file, digests), SCRIPT.Results(file, {**digests, first.name: "c"})
        self.assertEqual([known.of(mutant)["verdict"] for mutant in (first, second)], ["stillborn", "refused"])
        self.assertEqual(known.stillborn([first, second]), {first.name})
        self.assertEqual((edited_since.of(first), edited_since.stillborn([first, second])), (None, set()))

    def test_the_crates_of_a_list(self):
        with tempfile.TemporaryDirectory() as folder:
            lines = "# a list\none: # the first\n\ntwo staticlib: one io\nthree may_wait=1: two one\n"
            Path(folder, "crates.txt").write_text(lines, encoding="utf-8")
            self.assertEqual(crates_of(Path(folder)), {"one": [], "two": ["one"], "three": ["two", "one"]})

    def test_who_uses_a_crate(self):
        crates = {"a": [], "b": ["a"], "c": ["b"], "d": []}
        self.assertEqual(SCRIPT.reached(crates, "c"), ["a", "b"])
        self.assertEqual(SCRIPT.users(crates, "a"), ["b", "c"])


if __name__ == "__main__":
    sys.exit(run_tests(__name__))
