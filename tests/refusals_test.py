"""Tests tests/refusals.py on a small made-up tree: a good one, and the good one with a single fault; and what it writes.

The last line is 'N passed, M failed', and the exit status is 0 exactly when M is 0.
"""

import subprocess
import sys
import tempfile
import unittest
from pathlib import Path

from counting import run_tests
from refusals import HEADER, OPERATORS, PROOFS, README, SECOND, SOURCE

CHECKER = Path(__file__).resolve().parent / "refusals.py"
FORWARD_PROOF = "crates/one/proofs/Orders.antt"
STEP_PROOF = "crates/two/proofs/More.antt"

GOOD_README = """\
| No. | Name | Given exactly when | Place |
|---|---|---|---|
| 0 | done | none below | 0 |
| 1 | LENGTH | it is too long | 0 |
| 2 | MANY | there are too many | 0 |
| 3 | TEXT | a line is bad | first such line |

| Function | Order of its checks |
|---|---|
| `forward` | LENGTH, MANY |
| `first_step` | MANY, LENGTH |
| `fracture` | MANY (over 65,536 bytes), TEXT, MANY (over 4,096 lines) |
"""

GOOD_SOURCE = """\
pub enum Reason {
    Length = 1,
    Many = 2,
    Text = 3,
}
pub enum Other {
    Most = 9,
}
"""

GOOD_HEADER = """\
enum {
    PANBUCKLE_DONE = 0,   /* none below */
    PANBUCKLE_LENGTH = 1, /* it is too long */
    PANBUCKLE_MANY = 2,   /* there are too many */
    PANBUCKLE_TEXT = 3    /* a line is bad */
};

enum {
    PANBUCKLE_MOST = 9 /* so many at the most */
};

/* Checked in this order, each over the whole input: LENGTH,
 * MANY. */
PANBUCKLE_ACCESS(__read_only__, 1, 2)
uint32_t panbuckle_forward(void);

/* Checked in this order: MANY, LENGTH (of each). */
uint32_t panbuckle_first_step(void);
"""

GOOD_OPERATORS = """\
### 2 MANY: too much

### 3 TEXT: a bad line

| No. | Name | What it means | What to do | Example |
|---|---|---|---|---|
| 1 | LENGTH | too long | mend it | none |
| 2 | MANY | too many | split it | none |
"""

GOOD_SECOND = """\
NAMES = ("done", "LENGTH", "MANY", "TEXT")
DONE, LENGTH, MANY, TEXT = range(len(NAMES))
FORWARD_ORDER = (LENGTH, MANY)
FIRST_STEP_ORDER = (MANY, LENGTH)
"""

GOOD_TREE = {
    README: GOOD_README,
    SOURCE: GOOD_SOURCE,
    HEADER: GOOD_HEADER,
    OPERATORS: GOOD_OPERATORS,
    SECOND: GOOD_SECOND,
    FORWARD_PROOF: "pub forward-order : (a : ℕ) → map rowNumber a ≡ 1 ∷ 2 ∷ []\npub key-order : (a b : ℕ) → a ≡ b\n",
    STEP_PROOF: "-- a comment\npub first-step-order : map rowNumber ≡ 2 ∷ 1 ∷ []\n",
}

# Of the good tree: 4 names of the source and their rise; the header's enum and lines; 3 refusals for operators; 4 names of the second
# implementation and its list; the program's order, that there are others, and 2 of them in 3 places.
GOOD_COUNT = (3 + 1) + 2 + 3 + (4 + 1) + (1 + 1 + 2 * 3)


def run_checker(tree, *words):
    """Runs the checker on a tree. Gives the lines that it prints, its exit status, and the header that it leaves."""
    with tempfile.TemporaryDirectory() as folder:
        root = Path(folder)
        for path, text in tree.items():
            file = root / path
            file.parent.mkdir(parents=True, exist_ok=True)
            file.write_text(text, encoding="utf-8")
        done = subprocess.run([sys.executable, CHECKER, root, *words], capture_output=True, encoding="utf-8", check=False)
        return done.stdout.splitlines() or [done.stderr], done.returncode, (root / HEADER).read_text(encoding="utf-8")


class CheckerCase(unittest.TestCase):
    """What a test asks of the checker's answer."""

    def changed(self, *changes):
        """The good tree with texts changed: each change is a path, a text there, and another for it."""
        tree = dict(GOOD_TREE)
        for path, old, new in changes:
            self.assertEqual(tree[path].count(old), 1, old)
            tree[path] = tree[path].replace(old, new)
        return tree

    def assert_faults(self, tree, *faults):
        """The tree has these faults and no others."""
        (*found, last), status, _ = run_checker(tree)
        self.assertEqual(found, list(faults))
        self.assertRegex(last, rf"^\d+ passed, {len(faults)} failed$")
        self.assertEqual(status, 1 if faults else 0)

    def assert_unlike(self, change, *unlike):
        """After a change there are these places, each with what it and README have for a thing."""
        faults = [f"{place} has {theirs} for {thing}, and README.md has {ours}" for place, theirs, thing, ours in unlike]
        self.assert_faults(self.changed(change), *faults)


class Numbers(CheckerCase):
    """Names and numbers that do not agree."""

    enum = f"{HEADER} has another enum of answers than `make refusals` writes"

    def test_good_tree(self):
        lines, status, header = run_checker(GOOD_TREE)
        self.assertEqual((lines, status, header), ([f"{GOOD_COUNT} passed, 0 failed"], 0, GOOD_HEADER))

    def test_number_of_the_source(self):
        self.assert_unlike((SOURCE, "Many = 2", "Many = 4"), (SOURCE, "4", "MANY", "2"))

    def test_name_missing_in_the_source(self):
        self.assert_unlike((SOURCE, "    Many = 2,\n", ""), (SOURCE, "nothing", "MANY", "2"))

    def test_name_that_only_the_source_has(self):
        self.assert_unlike((SOURCE, "}\npub enum Other {\n", ""), (SOURCE, "9", "MOST", "nothing"))

    def test_gap(self):
        tree = self.changed((README, "| 3 | TEXT", "| 4 | TEXT"), (SOURCE, "Text = 3", "Text = 4"))
        self.assertIn("README.md: the numbers of the refusals do not rise by one from 0", run_checker(tree)[0])

    def test_no_table(self):
        found = run_checker(self.changed((README, "Given exactly when", "When")))[0]
        self.assertIn(f"{SOURCE} has 2 for MANY, and README.md has nothing", found)

    def test_number_in_the_header(self):
        self.assert_faults(self.changed((HEADER, "MANY = 2", "MANY = 3")), self.enum)

    def test_name_missing_in_the_header(self):
        self.assert_faults(self.changed((HEADER, "    PANBUCKLE_MANY = 2,   /* there are too many */\n", "")), self.enum)

    def test_other_words_in_the_header(self):
        self.assert_faults(self.changed((HEADER, "too many", "too few")), self.enum)

    def test_no_enum_in_the_header(self):
        self.assert_faults(self.changed((HEADER, "    PANBUCKLE_DONE = 0,   /* none below */\n", "")), self.enum)

    def test_longest_line_in_the_header(self):
        self.assert_faults(self.changed((HEADER, "so many at the most", "w" * 121)))

    def test_long_line_in_the_header(self):
        fault = f"{HEADER} has lines of more than 150 characters: [9]"
        self.assert_faults(self.changed((HEADER, "so many at the most", "w" * 122)), fault)

    def test_row_missing_for_operators(self):
        self.assert_unlike((OPERATORS, "| 1 | LENGTH | too long | mend it | none |\n", ""), (OPERATORS, "nothing", "1 LENGTH", "a row"))

    def test_section_missing_for_operators(self):
        self.assert_unlike((OPERATORS, "### 3 TEXT: a bad line\n", ""), (OPERATORS, "nothing", "3 TEXT", "a row"))

    def test_number_of_a_section_for_operators(self):
        self.assert_unlike((OPERATORS, "### 2 MANY", "### 4 MANY"), (OPERATORS, "a row", "4 MANY", "nothing"))

    def test_name_of_a_row_for_operators(self):
        self.assert_unlike((OPERATORS, "| 2 | MANY", "| 2 | MUCH"), (OPERATORS, "a row", "2 MUCH", "nothing"))

    def test_names_of_the_second_implementation(self):
        fault = f"{SECOND} has the names ('done', 'LENGTH', 'MUCH', 'TEXT'), and README.md has ['done', 'LENGTH', 'MANY', 'TEXT']"
        self.assert_faults(self.changed((SECOND, '"MANY"', '"MUCH"')), fault)

    def test_name_missing_in_the_second_implementation(self):
        found = run_checker(self.changed((SECOND, "DONE, LENGTH, MANY, TEXT =", "DONE, LENGTH, MANY, LINES =")))[0]
        self.assertIn(f"{SECOND} has nothing for TEXT, and README.md has 3", found)


class Orders(CheckerCase):
    """Orders of checks that do not agree."""

    def test_swapped_in_readme(self):
        unlike = [(place, "LENGTH, MANY", "forward", "MANY, LENGTH") for place in (HEADER, SECOND, PROOFS)]
        self.assert_unlike((README, "LENGTH, MANY |", "MANY, LENGTH |"), *unlike)

    def test_swapped_in_the_header(self):
        self.assert_unlike((HEADER, "MANY, LENGTH (of each).", "LENGTH, MANY."), (HEADER, "LENGTH, MANY", "first_step", "MANY, LENGTH"))

    def test_swapped_in_the_second_implementation(self):
        self.assert_unlike((SECOND, "(LENGTH, MANY)", "(MANY, LENGTH)"), (SECOND, "MANY, LENGTH", "forward", "LENGTH, MANY"))

    def test_swapped_in_the_theorem(self):
        self.assert_unlike((FORWARD_PROOF, "1 ∷ 2", "2 ∷ 1"), (PROOFS, "MANY, LENGTH", "forward", "LENGTH, MANY"))

    def test_number_that_is_no_refusal(self):
        self.assert_unlike((STEP_PROOF, "2 ∷ 1", "2 ∷ 7"), (PROOFS, "MANY, 7", "first_step", "MANY, LENGTH"))

    def test_no_order_in_the_header(self):
        self.assert_unlike((HEADER, "Checked in this order: ", "Checked: "), (HEADER, "nothing", "first_step", "MANY, LENGTH"))

    def test_no_theorem(self):
        self.assert_unlike((STEP_PROOF, "first-step-order", "first-step-turn"), (PROOFS, "nothing", "first_step", "MANY, LENGTH"))

    def test_function_that_readme_does_not_have(self):
        unlike = [(place, "MANY, LENGTH", "first_step", "nothing") for place in (HEADER, SECOND, PROOFS)]
        self.assert_unlike((README, "| `first_step` | MANY, LENGTH |\n", ""), *unlike)

    def test_program_that_checks_what_forward_does_not(self):
        tree = self.changed((README, "(over 4,096 lines)", "(over 4,096 lines), LENGTH"))
        self.assert_faults(tree, "README.md: the order of fracture does not end with a part of forward's")

    def test_no_table_of_orders(self):
        found = run_checker(self.changed((README, "Order of its checks", "Order")))[0]
        self.assertIn("README.md has no table of the orders of checks", found)


class Writing(CheckerCase):
    """What --write makes of the header."""

    new = [
        (README, "first such line |\n", "first such line |\n| 4 | NEWEST_ONE | it is new | 0 |\n"),
        (SOURCE, "= 3,\n", "= 3,\n    NewestOne = 4,\n"),
    ]

    def test_old_enum(self):
        tree = self.changed((HEADER, "    PANBUCKLE_MANY = 2,   /* there are too many */\n", ""), (HEADER, "= 3 ", "= 2 "))
        lines, status, header = run_checker(tree, "--write")
        self.assertEqual((lines, status, header), ([f"{GOOD_COUNT} passed, 0 failed"], 0, GOOD_HEADER))

    def test_new_refusal(self):
        _, _, header = run_checker(self.changed(*self.new), "--write")
        self.assertIn("    PANBUCKLE_TEXT = 3,      /* a line is bad */\n    PANBUCKLE_NEWEST_ONE = 4 /* it is new */\n};\n", header)

    def test_says_where_a_new_refusal_is_missing(self):
        found, status, _ = run_checker(self.changed(*self.new), "--write")
        self.assertEqual(found[0], f"{OPERATORS} has nothing for 4 NEWEST_ONE, and README.md has a row")
        self.assertEqual(found[1], f"{SECOND} has nothing for NEWEST_ONE, and README.md has 4")
        self.assertEqual(status, 1)

    def test_writes_nothing_where_source_and_readme_differ(self):
        for change in self.new:
            found, status, header = run_checker(self.changed(change), "--write")
            self.assertEqual((header, status), (GOOD_HEADER, 1), found)


if __name__ == "__main__":
    sys.exit(run_tests(__name__))
