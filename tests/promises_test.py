"""Tests tests/promises.py on small made-up trees: a good one, and the good one with a single fault.

The last line is 'N passed, M failed', and the exit status is 0 exactly when M is 0.
"""

import subprocess
import sys
import tempfile
import unittest
from pathlib import Path

from counting import run_tests

CHECKER = Path(__file__).resolve().parent / "promises.py"

PROMISES = "docs/PROMISES.md"
SPEC = "crates/one/specs/Words.antt"
SOURCE = "crates/one/src/lib.rt"
OTHER_SOURCE = "crates/two/src/lib.rt"
EDIT = "crates/one/must-fail/wrong.edit"
SCRIPT = "tests/tool.py"
DOCUMENT = "../shared/01-scope.md"
REQUESTS = "../shared/02-change-requests.md"

NO_DOCUMENT = "document 01 is not beside the checkout, so that no sentence of it was looked for"
CONTRACTS = "Every public function carries a contract on its result."
EXCEPTIONS = "An exception is listed in docs/ and explained there."

REFUSALS = ["done"] + [f"FAULT-{number}" for number in range(1, 12)]

GOOD_SPEC = """\
-- hidden : ℕ
{- veiled : ℕ
shrouded : ℕ -}
use Rattle.std.specs.Prelude.{◌≡◌, brought}

plain : ℕ
plain = 1 -- {- opens no block

unfoldable pub open' : ℕ → ℕ
abbrev pub short : ℕ
axiom pub assumed : ℕ
pub levelled {ℓ κ} : {A : Type ℓ} → A → A
◌⊕◌ : ℕ → ℕ → ℕ
pub ruleset simps = (plain, open')

pub data Shape : Type 0 where
  round : (radius : ℕ) → Shape

pub record Box (n : ℕ) : Type 0 where
  pub side : ℕ -- -} closes none
"""
SPEC_NAMES = "plain, open', short, assumed, levelled, ◌⊕◌, simps, Shape, round, Box, side"

GOOD_SOURCE = """\
// pub fn hidden() {}
/* pub fn veiled() {} */
#![tactic(auto)]
#[derive(Clone, Copy)]
pub struct Point { pub x: i32 }
enum Kind { A }
const OPENS: &[u8] = b"/*";
fn helper() {}
const CLOSES: &[u8] = b"*/";
pub fn first<'a>(s: &'a [u8]) -> u8
    ensures value { { result } ≡ { 34 } }
    ensures upper_bound { result < 35 }
{ b'"' }
#[unsafe(no_mangle)]
pub extern "C" fn exported() {}
impl Point {
    pub fn method(self) -> [i32; 1] ensures { result ≡ self.x } { [self.x] }
}
"""
SOURCE_NAMES = "Point, Kind, OPENS, helper, CLOSES, first, exported, method"

GOOD_SCRIPT = '''\
"""A tool.

def hidden(): is told of here.
"""


class Tool:
    """It works."""

    def work(self):
        """Works."""
'''

ENSURES = "ensures { result ≡ result }"
GOOD_OTHER_SOURCE = "pub fn first(a: &mut [u64]) ensures { a.new ≡ sorted } {}\n"

GOOD_EDIT = "file: src/lib.rt\nold: one\nnew: two\n"


def readme(refusals):
    """A README.md with a table of refusals."""
    rows = [f"| {number} | `{name}` | it is so | 0 |" for number, name in enumerate(refusals)]
    table = ["| No. | Name | Given exactly when | Place |", "|---|---|---|---|", *rows]
    return "\n".join(["# Title", "", *table, ""])


def promises(refusals=REFUSALS, contracts=f"`{SOURCE}: first, method`", exceptions="exported", extra=""):
    """A docs/PROMISES.md that holds for the good tree, with more text at its end."""
    rows = [f"> {number} | {name} | it is so | 0\n- says: `{SPEC}: round`\n" for number, name in enumerate(refusals)]
    lines = [
        f"The words are `{SPEC}: {SPEC_NAMES}`, and `rt ci` proves them.",
        f"The code is `{SOURCE}: {SOURCE_NAMES}` and ``{OTHER_SOURCE}: first``.",
        f"Refused is `{EDIT}`, as `{EDIT}: old` says; see `{SCRIPT}: Tool, work`.",
        "",
        "> An exception is listed",
        "> in docs/ and explained there.",
        f"- code: `{SOURCE}: {exceptions}`",
        "",
        f"> {CONTRACTS}",
        f"- code: {contracts}",
        f"- code: `{OTHER_SOURCE}: first`",
        "",
        "> No. | Name | Given exactly when | Place",
        "- later: request 9",
        "",
        *rows,
        extra,
    ]
    return "\n".join(lines)


# The line of docs/PROMISES.md on which the text at its end stands: each refusal has three lines.
EXTRA_LINE = 16 + 3 * len(REFUSALS)

GOOD_TREE = {
    PROMISES: promises(),
    "README.md": readme(REFUSALS),
    SPEC: GOOD_SPEC,
    SOURCE: GOOD_SOURCE,
    OTHER_SOURCE: GOOD_OTHER_SOURCE,
    EDIT: GOOD_EDIT,
    SCRIPT: GOOD_SCRIPT,
}

# Of the good tree: 21 citations (6, 3 of functions and the 12 refusals') with 23 + 4 + 12 names, and that there is a citation at all;
# 4 public functions, cited and without `requires`; 2 paragraphs, 3 functions that have a contract and are cited for it, 1 exception;
# 2 tests of README.md's table; its 12 rows; 1 edit; 15 quotes with a list.
GOOD_COUNT = 21 + 39 + 1 + 8 + (2 + 6 + 1) + 2 + 12 + 1 + 15


def document(*more):
    """A document 01 that the good docs/PROMISES.md quotes, with more lines at its end."""
    lines = [
        "# Title",
        f"{EXCEPTIONS} **Every public function** carries a `contract` on  its result.",
        *readme(REFUSALS).splitlines()[1:],
        "",
        *more,
    ]
    return "\n".join(lines)


def run_checker(changes):
    """Runs the checker on the good tree with some files changed, or removed by None."""
    with tempfile.TemporaryDirectory() as folder:
        root = Path(folder, "checkout")
        for path, text in {**GOOD_TREE, **changes}.items():
            if text is not None:
                file = root / path
                file.parent.mkdir(parents=True, exist_ok=True)
                file.write_text(text, encoding="utf-8")
        command = [sys.executable, str(CHECKER), str(root)]
        return subprocess.run(command, capture_output=True, encoding="utf-8", check=False)


class CheckerCase(unittest.TestCase):
    """What a test asks of the checker's answer."""

    def assert_passes(self, changes, count=None, open_count=0):
        """The tree is good."""
        result = run_checker(changes)
        *others, last = result.stdout.splitlines() or [""]
        said = [f"open promises: {open_count}"] + ([] if DOCUMENT in changes else [NO_DOCUMENT])
        self.assertEqual(others, said, result)
        self.assertRegex(last, r"^\d+ passed, 0 failed$")
        if count is not None:
            self.assertEqual(last, f"{count} passed, 0 failed")
        self.assertEqual(result.returncode, 0)

    def assert_fault(self, changes, fault):
        """The tree has this fault and no other."""
        result = run_checker(changes)
        *others, last = result.stdout.splitlines() or [""]
        faults = [line for line in others if line != NO_DOCUMENT and not line.startswith("open promises: ")]
        self.assertEqual(faults, [fault], result)
        self.assertRegex(last, r"^\d+ passed, 1 failed$")
        self.assertEqual(result.returncode, 1)

    def assert_extra_passes(self, extra):
        """More text at the end of docs/PROMISES.md is good."""
        self.assert_passes({PROMISES: promises(extra=extra)})

    def assert_extra_fault(self, extra, fault):
        """More text at the end of docs/PROMISES.md has this fault."""
        self.assert_fault({PROMISES: promises(extra=extra)}, f"{PROMISES}:{EXTRA_LINE}: {fault}")


class GoodTrees(CheckerCase):
    """Trees without a fault."""

    def test_good_tree(self):
        self.assert_passes({}, count=GOOD_COUNT)

    def test_open_promises_are_counted(self):
        extra = "- says: `open (base K)` is the mark, open (base 2), **open** (base 6)"
        self.assert_passes({PROMISES: promises(extra=extra)}, count=GOOD_COUNT, open_count=2)

    def test_code_that_is_no_citation(self):
        extra = "`README.md`, `python3 tests/none.py`, `a / b`, \\`, open and half-open (a, b)\nand also open"
        self.assert_passes({PROMISES: promises(extra=extra)}, count=GOOD_COUNT)

    def test_text_after_a_fenced_block(self):
        extra = "```\n`crates/none`, open (base 9)\n```\nopen (base 3)"
        self.assert_passes({PROMISES: promises(extra=extra)}, count=GOOD_COUNT, open_count=1)

    def test_private_function_needs_no_citation(self):
        self.assert_passes({"crates/two/src/more.rt": "fn inner() {}\n"}, count=GOOD_COUNT)


class Citations(CheckerCase):
    """Citations that are not true, or not of the form."""

    def test_missing_file(self):
        path = "crates/one/specs/None.antt"
        self.assert_extra_fault(f"`{path}: plain`", f"{path}: no such file in the repository")

    def test_folder(self):
        self.assert_extra_fault("`crates/one`", "crates/one: no such file in the repository")

    def test_path_out_of_the_repository(self):
        self.assert_extra_fault(f"`{CHECKER}`", f"{CHECKER}: no such file in the repository")

    def test_path_not_written_plainly(self):
        self.assert_extra_fault(f"`./{SPEC}`", f"./{SPEC}: no such file in the repository")

    def test_missing_name(self):
        self.assert_extra_fault(f"`{SPEC}: plain, none`", f"{SPEC} declares no none")

    def test_name_that_is_only_used(self):
        self.assert_extra_fault(f"`{SPEC}: brought`", f"{SPEC} declares no brought")

    def test_name_in_a_line_comment(self):
        self.assert_extra_fault(f"`{SPEC}: hidden`", f"{SPEC} declares no hidden")

    def test_name_in_a_block_comment(self):
        self.assert_extra_fault(f"`{SPEC}: shrouded`", f"{SPEC} declares no shrouded")

    def test_name_in_a_comment_of_code(self):
        self.assert_extra_fault(f"`{SOURCE}: hidden`", f"{SOURCE} declares no hidden")

    def test_name_in_a_block_comment_of_code(self):
        self.assert_extra_fault(f"`{SOURCE}: veiled`", f"{SOURCE} declares no veiled")

    def test_name_in_a_docstring(self):
        self.assert_extra_fault(f"`{SCRIPT}: hidden`", f"{SCRIPT} declares no hidden")

    def test_part_of_a_word(self):
        self.assert_extra_fault(f"`{EDIT}: ol`", f"{EDIT} declares no ol")

    def test_script_that_does_not_parse(self):
        changes = {PROMISES: promises(extra="`tests/bad.py: work`"), "tests/bad.py": "def work(:\n"}
        result = run_checker(changes)
        self.assertIn(f"{PROMISES}:{EXTRA_LINE}: tests/bad.py cannot be read", result.stdout)
        self.assertEqual(result.returncode, 1)

    def test_malformed_citation(self):
        form = "is not of the form 'path' or 'path: name, name'"
        self.assert_extra_fault(f"`{SPEC} : plain`", f"'{SPEC} : plain' {form}")

    def test_code_span_that_does_not_end(self):
        self.assert_extra_fault(f"`{SPEC}:\nplain", "a code span does not end on its line")

    def test_no_citation_at_all(self):
        result = run_checker({PROMISES: "All is well.\n"})
        self.assertIn(f"{PROMISES}: no citation at all", result.stdout.splitlines())
        self.assertEqual(result.returncode, 1)

    def test_no_promises(self):
        self.assert_fault({PROMISES: None}, f"{PROMISES}: no such file")

    def test_wrong_base(self):
        form = "is not 'open (base K)' with K from 2 to 6"
        self.assert_extra_fault("open (base 7)", f"'open (base 7)' {form}")

    def test_open_without_a_base(self):
        form = "is not 'open (base K)' with K from 2 to 6"
        self.assert_extra_fault("- later: open", f"'open' {form}")


class ThingsToCite(CheckerCase):
    """Things that docs/PROMISES.md leaves out."""

    def assert_uncited_function(self, code, name):
        """The function has to be cited, though it has a contract."""
        path = "crates/two/src/more.rt"
        self.assert_fault({path: code}, f"{PROMISES}: the public function is not cited: {path}: {name}")

    def test_public_function(self):
        self.assert_uncited_function(f"pub fn free() {ENSURES} {{}}\n", "free")

    def test_exported_function(self):
        self.assert_uncited_function(f'#[unsafe(no_mangle)]\npub extern "C" fn out() {ENSURES} {{}}\n', "out")

    def test_method(self):
        self.assert_uncited_function(f"impl Point {{\n    pub fn turn(self) {ENSURES} {{}}\n}}\n", "turn")

    def test_method_of_an_impl(self):
        self.assert_uncited_function("pub enum Way { In }\nimpl Turn for Way {\n    ghost turned = { Way };\n    fn turn(self) {}\n}\n", "turn")

    def test_function_cited_for_another_file(self):
        self.assert_uncited_function(f"pub fn first() {ENSURES} {{}}\n", "first")

    def test_edit(self):
        path = "crates/two/must-fail/more.edit"
        self.assert_fault({path: GOOD_EDIT}, f"{PROMISES}: the must-fail edit is not cited: {path}")

    def test_edit_of_the_tests(self):
        path = "tests/edits/two/more.edit"
        self.assert_fault({path: GOOD_EDIT}, f"{PROMISES}: the must-fail edit is not cited: {path}")

    def test_edit_cited_in_a_fenced_block(self):
        path = "crates/two/must-fail/more.edit"
        changes = {path: GOOD_EDIT, PROMISES: promises(extra=f"```\n`{path}`\n```")}
        self.assert_fault(changes, f"{PROMISES}: the must-fail edit is not cited: {path}")

    def test_edit_cited_in_an_html_comment(self):
        path = "crates/two/must-fail/more.edit"
        changes = {path: GOOD_EDIT, PROMISES: promises(extra=f"<!--\n`{path}`\n-->")}
        self.assert_fault(changes, f"{PROMISES}: the must-fail edit is not cited: {path}")


class Contracts(CheckerCase):
    """Public functions without a contract, and paragraphs that do not say so."""

    def assert_function_fault(self, change, fault):
        """The good source has this fault when a text in it is changed to another."""
        old, new = change
        self.assertIn(old, GOOD_SOURCE)
        self.assert_fault({SOURCE: GOOD_SOURCE.replace(old, new)}, f"{SOURCE}: the public function {fault}")

    def test_result_without_ensures(self):
        contract = "ensures { result ≡ self.x }"
        self.assert_function_fault((contract, ""), "has no `ensures`: method")

    def test_ensures_in_a_comment(self):
        contract = "ensures { result ≡ self.x }"
        self.assert_function_fault((contract, f"/* {contract} */"), "has no `ensures`: method")

    def test_ensures_in_the_body(self):
        contract = "ensures { result ≡ self.x }"
        self.assert_function_fault((contract, f"{{ {contract} }}"), "has no `ensures`: method")

    def test_lent_array_without_ensures(self):
        code = "pub fn first(b: &[u64], a: &mut [u64]) {}\n"
        self.assert_fault({OTHER_SOURCE: code}, f"{OTHER_SOURCE}: the public function has no `ensures`: first")

    def test_two_functions_of_one_name(self):
        code = GOOD_OTHER_SOURCE + "impl Point { pub fn first() -> u8 { 1 } }\n"
        self.assert_fault({OTHER_SOURCE: code}, f"{OTHER_SOURCE}: the public function has no `ensures`: first")

    def test_methods_of_traits(self):
        code = GOOD_OTHER_SOURCE + "pub trait Seen { fn first() -> u8; }\n"
        self.assert_fault({OTHER_SOURCE: code}, f"{OTHER_SOURCE}: the public function has no `ensures`: first")
        self.assert_passes({OTHER_SOURCE: code.replace("pub trait", "trait")})

    def test_methods_of_impls(self):
        code = GOOD_OTHER_SOURCE + "pub struct Small(u8);\nimpl<T: Seen> From<T> for Small { fn first(seen: T) -> Small { seen.small() } }\n"
        self.assert_fault({OTHER_SOURCE: code}, f"{OTHER_SOURCE}: the public function has no `ensures`: first")
        self.assert_passes({OTHER_SOURCE: code.replace("pub struct", "struct")})
        self.assert_passes({OTHER_SOURCE: code.replace("{ fn", "{ ghost from_gives = { λ s t. t ≡ s }; fn")})

    def test_requires(self):
        self.assert_function_fault(("-> u8\n", "-> u8 requires { 1 < 2 }\n"), "has a `requires`: first")

    def test_requires_with_a_name(self):
        self.assert_function_fault(("-> u8\n", "-> u8\n    requires one_less {\n        1 < 2\n    }\n"), "has a `requires`: first")

    def test_requires_after_ensures(self):
        self.assert_function_fault(("result < 35 }", "result < 35 }\nrequires { 1 < 2 }"), "has a `requires`: first")

    def test_requires_of_memory(self):
        self.assert_function_fault(("result < 35 }", "result < 35 }\nrequires* one_less { ⌜ 1 < 2 ⌝ }"), "has a `requires`: first")

    def test_function_left_out(self):
        text = promises(contracts=f"`{SOURCE}: first`")
        self.assert_fault({PROMISES: text}, f"{PROMISES}: '{CONTRACTS}' does not cite {SOURCE}: method")

    def test_private_function_cited(self):
        text = promises(contracts=f"`{SOURCE}: first, method, helper`")
        self.assert_fault({PROMISES: text}, f"{PROMISES}: '{CONTRACTS}' cites too much: {SOURCE}: helper")

    def test_function_without_result_cited(self):
        text = promises(contracts=f"`{SOURCE}: first, method, exported`")
        self.assert_fault({PROMISES: text}, f"{PROMISES}: '{CONTRACTS}' cites too much: {SOURCE}: exported")

    def test_exception_left_out(self):
        fault = f"{PROMISES}: '{EXCEPTIONS}' does not cite {SOURCE}: exported, which has no contract"
        self.assert_fault({PROMISES: promises(exceptions="helper")}, fault)

    def test_sentence_quoted_twice(self):
        text = promises(extra=f"> {CONTRACTS}\n- later: request 9")
        self.assert_fault({PROMISES: text}, f"{PROMISES}: 2 paragraphs, not one, quote '{CONTRACTS}'")

    def test_sentence_not_quoted(self):
        result = run_checker({PROMISES: promises().replace(f"> {CONTRACTS}", "> Something else.")})
        self.assertIn(f"{PROMISES}: 0 paragraphs, not one, quote '{CONTRACTS}'", result.stdout.splitlines())
        self.assertEqual(result.returncode, 1)


class Form(CheckerCase):
    """Lines and paragraphs that are not of the form of the page."""

    def test_unknown_label(self):
        fault = "not a line with one of the labels says, proved, code, kept, edit, test, later"
        self.assert_extra_fault(f"- done: `{SPEC}`", fault)

    def test_line_without_a_label(self):
        fault = "not a line with one of the labels says, proved, code, kept, edit, test, later"
        self.assert_extra_fault(f"* `{SPEC}`", fault)

    def test_label_with_nothing_after_it(self):
        fault = "not a line with one of the labels says, proved, code, kept, edit, test, later"
        self.assert_extra_fault("- says: ", fault)

    def test_quote_without_a_list(self):
        self.assert_extra_fault("> All is well.", "not a quote and then a list of what keeps it")

    def test_quote_with_an_empty_line_below(self):
        self.assert_extra_fault("> All is well.\n\n- later: request 9", "not a quote and then a list of what keeps it")

    def test_quote_with_plain_words_below(self):
        self.assert_extra_fault("> All is well.\n- later: request 9\nSurely.", "not a quote and then a list of what keeps it")

    def test_quote_between_lines_of_a_list(self):
        extra = "> All\n- later: request 9\n> is well.\n- later: request 9"
        self.assert_extra_fault(extra, "not a quote and then a list of what keeps it")

    def test_quote_after_plain_words(self):
        self.assert_extra_fault("So:\n> All is well.\n- later: request 9", "not a quote and then a list of what keeps it")

    def test_longest_line(self):
        self.assert_extra_passes("w" * 160)

    def test_long_line(self):
        self.assert_extra_fault("w" * 161, "161 characters, more than 160")

    def test_long_line_in_a_fenced_block(self):
        text = promises(extra=f"```\n{'w' * 161}\n```")
        self.assert_fault({PROMISES: text}, f"{PROMISES}:{EXTRA_LINE + 1}: 161 characters, more than 160")

    def test_long_quote(self):
        self.assert_extra_passes(f"> {'w' * 161}\n- later: request 9")

    def test_long_citation(self):
        path = f"crates/one/{'w' * 140}.in"
        self.assert_passes({path: "name", PROMISES: promises(extra=f"- test: `{path}: name`")})

    def test_long_citation_that_can_be_cut(self):
        path = f"crates/one/{'w' * 120}.in"
        line = f"- test: `{path}: first, second`"
        line += " " + "w" * (160 - len(line))
        changes = {path: "first, second", PROMISES: promises(extra=line)}
        self.assert_fault(changes, f"{PROMISES}:{EXTRA_LINE}: 161 characters, more than 160")


class Document(CheckerCase):
    """Quotes of document 01, where it lies beside the checkout."""

    def assert_quotes(self, said, quotes):
        """The quotes are enough for these lines of document 01."""
        extra = "".join(f"> {quote}\n- later: request 9\n\n" for quote in quotes)
        self.assert_passes({DOCUMENT: document(said), PROMISES: promises(extra=extra)})

    def assert_unquoted(self, said, sentence, extra=""):
        """The sentence of these lines of document 01 is not quoted."""
        fault = f"{PROMISES}: a sentence of document 01 is not quoted: {sentence}"
        self.assert_fault({DOCUMENT: document(said), PROMISES: promises(extra=extra)}, fault)

    def test_good_document(self):
        # A test that there are sentences; 2 sentences, the header, cut after 'No.', 12 rows; 16 lines of quotes.
        self.assert_passes({DOCUMENT: document()}, count=GOOD_COUNT + 1 + 2 + 2 + 12 + 16)

    def test_document_without_a_sentence(self):
        result = run_checker({DOCUMENT: "# Title\n"})
        self.assertIn("document 01 has no sentence", result.stdout.splitlines())
        self.assertEqual(result.returncode, 1)

    def test_sentence_in_parts(self):
        self.assert_quotes("Each is so, and each is not.", ["Each is so,", "and each is not."])

    def test_marks_do_not_count(self):
        self.assert_quotes("- **A** `rt`: 1 |  2.\n2. Then *B*.", ["A rt: 1 2. Then B."])

    def test_line_of_a_code_block(self):
        self.assert_quotes("```text\n0 0 4 3\n```", ["0 0 4 3"])

    def test_headings_are_not_quoted(self):
        self.assert_quotes("## How it is\n\n### Well", [])

    def test_sentence_missing(self):
        self.assert_unquoted("Each is so. Some are not.", "Some are not.", "> Each is so.\n- later: request 9")

    def test_half_of_a_sentence_missing(self):
        self.assert_unquoted("Each is so; some are not.", "some are not.", "> Each is so;\n- later: request 9")

    def test_word_missing(self):
        self.assert_unquoted("Each is so, and not.", "Each is so, and not.", "> Each is so, and\n- later: request 9")

    def test_parts_with_another_quote_between(self):
        extra = f"> Each is so,\n- later: request 9\n\n> {EXCEPTIONS.split()[0]}\n- later: request 9\n\n> and not.\n- later: request 9"
        self.assert_unquoted("Each is so, and not.", "Each is so, and not.", extra)

    def test_list_item_missing(self):
        self.assert_unquoted("- **F** no points: 0, no rectangles.", "F no points: 0, no rectangles.")

    def test_row_missing(self):
        self.assert_unquoted("| 12 | NEW | it is so | 0 |", "12 NEW it is so 0")

    def test_row_with_another_place(self):
        text = promises().replace("> 11 | FAULT-11 | it is so | 0", "> 11 | FAULT-11 | it is so |")
        fault = f"{PROMISES}: a sentence of document 01 is not quoted: 11 FAULT-11 it is so 0"
        self.assert_fault({DOCUMENT: document(), PROMISES: text}, fault)

    def test_sentence_that_is_not_a_quote(self):
        self.assert_unquoted("Each is so.", "Each is so.", "Each is so.")

    def test_quote_of_other_words(self):
        changes = {DOCUMENT: document(), PROMISES: promises(extra="> All is well.\n- later: request 9")}
        self.assert_fault(changes, f"{PROMISES}:{EXTRA_LINE}: not the words of document 01: All is well.")


class Requests(CheckerCase):
    """Quotes of document 02, where it lies beside the checkout."""

    TEXT = "# Requests\n\nTo be done.\n\n1) **All well.** Each is so.\n\n2) **More.** It is not.\n"
    SECTION = "## Request 1: all well\n\n> All well.\n- later: request 9\n\n> Each is so.\n- later: request 9\n\n"

    def section(self, old="", new=""):
        """The good page with a section for the first request, of which something is another."""
        self.assertIn(old, self.SECTION)
        return promises(extra=self.SECTION.replace(old, new))

    def test_good_section(self):
        # The two quotes have lists; a test that there are sentences, 2 sentences, 2 lines of quotes.
        self.assert_passes({REQUESTS: self.TEXT, PROMISES: self.section()}, count=GOOD_COUNT + 2 + 1 + 2 + 2)

    def test_its_quotes_are_not_of_document_01(self):
        self.assert_passes({DOCUMENT: document(), REQUESTS: self.TEXT, PROMISES: self.section()})

    def test_sentence_missing(self):
        fault = f"{PROMISES}: a sentence of request 1 of document 02 is not quoted: Each is so."
        self.assert_fault({REQUESTS: self.TEXT, PROMISES: self.section("> Each is so.\n- later: request 9\n\n")}, fault)

    def test_quote_of_another_request(self):
        changes = {REQUESTS: self.TEXT, PROMISES: self.section("Each is so.\n", "Each is so. It is not.\n")}
        self.assert_fault(changes, f"{PROMISES}:{EXTRA_LINE + 5}: not the words of request 1 of document 02: Each is so. It is not.")

    def test_row_of_the_table_of_refusals(self):
        row = "> 11 | FAULT-11 | it is so | 0\n- later: request 9\n\n"
        self.assert_passes({REQUESTS: self.TEXT, PROMISES: promises(extra=self.SECTION + row)})

    def test_row_that_the_table_does_not_have(self):
        row = "> 11 | FAULT-11 | it is not so | 0\n- later: request 9\n\n"
        fault = f"{PROMISES}:{EXTRA_LINE + 8}: not the words of request 1 of document 02: 11 | FAULT-11 | it is not so | 0"
        self.assert_fault({REQUESTS: self.TEXT, PROMISES: promises(extra=self.SECTION + row)}, fault)

    def test_request_that_is_not_there(self):
        result = run_checker({REQUESTS: self.TEXT, PROMISES: self.section("Request 1", "Request 3")})
        self.assertIn("request 3 of document 02 has no sentence", result.stdout.splitlines())

    def test_no_document_02(self):
        result = run_checker({PROMISES: self.section()})
        said = "document 02 is not beside the checkout, so that no sentence of its request 1 was looked for"
        self.assertIn(said, result.stdout.splitlines())
        self.assertEqual(result.returncode, 0)


class Refusals(CheckerCase):
    """Tables of refusals that are wrong or do not agree."""

    def assert_no_paragraph(self, extra):
        """The last refusal has no paragraph."""
        text = promises(REFUSALS[:11], extra=extra)
        self.assert_fault({PROMISES: text}, f"{PROMISES}: no paragraph for refusal 11 FAULT-11")

    def test_paragraph_missing_in_promises(self):
        self.assert_no_paragraph("")

    def test_refusal_that_is_not_quoted(self):
        self.assert_no_paragraph(f"11 | FAULT-11 | it is so | 0 | `{SPEC}`")

    def test_refusal_with_another_number(self):
        self.assert_no_paragraph(f"> 12 | FAULT-11 | it is so | 0\n- says: `{SPEC}`")

    def test_refusal_with_another_name(self):
        self.assert_no_paragraph(f"> 11 | FAULT-1 | it is so | 0\n- says: `{SPEC}`")

    def test_refusal_named_among_other_words(self):
        self.assert_no_paragraph(f"> Refusal 11 | FAULT-11 | it is so | 0\n- says: `{SPEC}`")

    def test_paragraph_without_a_citation(self):
        text = promises(REFUSALS[:11], extra="> 11 | FAULT-11 | it is so | 0\n- says: surely")
        line = EXTRA_LINE - 3
        self.assert_fault({PROMISES: text}, f"{PROMISES}:{line}: the paragraph of refusal 11 FAULT-11 cites nothing")

    def test_no_readme(self):
        self.assert_fault({"README.md": None}, "README.md: no such file")

    def test_readme_without_the_table(self):
        text = readme(REFUSALS).replace("Given exactly when", "When")
        fault = "README.md: no table with the header | No. | Name | Given exactly when | Place |"
        self.assert_fault({"README.md": text}, fault)

    def test_readme_with_a_row_less(self):
        fault = "README.md: the table of refusals has 11 rows, fewer than 12"
        self.assert_fault({"README.md": readme(REFUSALS[:11])}, fault)

    def test_readme_with_a_bad_row(self):
        text = readme(REFUSALS) + "| x | BAD | it is so | 0 |\n"
        fault = "README.md:17: not a row of a number, a name, a condition and a place"
        self.assert_fault({"README.md": text}, fault)

    def test_readme_with_a_number_twice(self):
        text = readme(REFUSALS) + "| 3 | FAULT-3 | it is so | 0 |\n"
        self.assert_fault({"README.md": text}, "README.md: the table of refusals has a number twice")


if __name__ == "__main__":
    sys.exit(run_tests(__name__))
