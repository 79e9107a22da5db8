"""Tests tests/edits.py and tests/try_edits.py on small made-up trees: an edit in good order in each place, and one fault at a time.

The prover is a stand-in that says of each edit what it is told to.

The last line is 'N passed, M failed', and the exit status is 0 exactly when M is 0.
"""

import os
import subprocess
import sys
import tempfile
import unittest
from pathlib import Path

from counting import run_tests
from edits import LOG, RECORD, faults_of, hashes_today, write_record

TESTS = Path(__file__).resolve().parent
EDIT = "crates/one/must-fail/wrong.edit"
GOOD_EDIT = "# Why.\n# Fails first: proofs/Sum.antt: sum-law (it sums)\nfile: specs/A.antt\nold: one\nnew: two\n"
GOOD_FACT = "./proofs/Sum.antt:3:4: error: `sum-law`: the two types differ"
GOOD = f"refused, as it must be: {GOOD_FACT}"
NOTED = "note: src/lib.rt:3:4: it is not proved that the sum fits its type (at a range `..=n`, `n + 1`) (`add-sum`)"
KEPT_EDIT = "tests/edits/two/worse.edit"
MORE_EDIT = "tests/edits/two/worst.edit"
RUN = "run `make edits`"

# `rt check` fails in a tree with a file `broken`; `rt must-fail` says of each edit what the tree's file `told` has, and counts its calls.
RT = """#!/bin/sh
case $1 in
check) [ -e src ] && [ ! -e "$TREE/broken" ] ;;
must-fail)
    echo "$2" >>"$TREE/calls"
    for edit in crates/"$2"/must-fail/*.edit; do
        echo "rt: must-fail $2/$(basename "$edit"): $(cat "$TREE/told")"
    done
    ;;
esac
"""


def log_of(**told):
    """What `rt ci` writes where it tells this of edits of the first crate."""
    lines = [f"rt: must-fail one/{name}.edit: {said}" for name, said in told.items()]
    return "\n".join(["== one", "logic=proved functions=1", "rt: one proved", *lines, "rt: FAILED: two", "1 passed, 1 failed", ""])


def write(root, path, text):
    """A file of a tree, unless its text is None."""
    if text is not None:
        file = root / path
        file.parent.mkdir(parents=True, exist_ok=True)
        file.write_text(text, encoding="utf-8")


class Tree(unittest.TestCase):
    """A made-up tree: two crates, an edit that `rt ci` has tried, and one in tests/edits/ with a fresh line in the record."""

    def setUp(self):
        folder = tempfile.TemporaryDirectory()
        self.addCleanup(folder.cleanup)
        self.root = Path(folder.name)
        for path, text in (("crates.txt", "one:\ntwo:\n"), ("crates/one/specs/A.antt", "one"), ("crates/two/src/lib.rt", "fn two() {}\n")):
            write(self.root, path, text)
        for path, text in ((EDIT, GOOD_EDIT), (LOG, log_of(wrong=GOOD)), (KEPT_EDIT, GOOD_EDIT), (RECORD, "")):
            write(self.root, path, text)
        write_record(self.root, hashes_today(self.root))

    def check(self, passed, *faults):
        """So many edits have no fault, and these are the faults."""
        self.assertEqual(faults_of(self.root), (passed, list(faults)))

    def record(self):
        """The record's text."""
        return (self.root / RECORD).read_text(encoding="utf-8")


class Judge(Tree):
    """What the judge says of one edit."""

    def judge(self, edit, told, *faults):
        """The edit of which `rt ci` tells this has these faults."""
        write(self.root, EDIT, edit)
        write(self.root, LOG, log_of() if told is None else log_of(wrong=told))
        self.check(1 if faults else 2, *(f"{EDIT}: {fault}" for fault in faults))

    def test_refused_for_its_fact(self):
        self.judge(GOOD_EDIT, GOOD)

    def test_no_edit_at_all(self):
        (self.root / EDIT).unlink()
        self.check(1, "crates/*/must-fail: there is no edit")

    def test_names_no_fact(self):
        self.judge(GOOD_EDIT.replace("Fails first", "Fails"), GOOD, "it has not one line '# Fails first: FILE: NAME (why)'")

    def test_not_tried(self):
        self.judge(GOOD_EDIT, None, "`rt` tells nothing of it: it was not tried")

    def test_no_run_of_the_gate(self):
        (self.root / LOG).unlink()
        self.check(1, f"{EDIT}: `rt` tells nothing of it: it was not tried")

    def test_told_of_another_crate(self):
        write(self.root, LOG, log_of(wrong=GOOD).replace("must-fail one/", "must-fail two/"))
        self.check(1, f"{EDIT}: `rt` tells nothing of it: it was not tried")

    def test_not_refused_at_a_fact(self):
        for told in (
            "BAD EDIT: an 'old:' text is in specs/A.antt 0 times, and not once",
            "NOT REFUSED: the crate is still proved with this edit",
            "NOT TRIED: its check ended with status 3",
            "refused, as it must be",
            "refused, as it must be (only by a limit of the prover): ./proofs/Sum.antt:3:4: error: `sum-law`: it is too long",
            "refused, as it must be (only because a proof file names what the edit took away): ./proofs/Sum.antt:3:4: error: `sum-law`: no",
        ):
            self.judge(GOOD_EDIT, told, f"it is not refused at a fact: {told}")

    def test_no_fact_comes_first(self):
        said = "note: src/lib.rt:3:4: a note"
        self.judge(GOOD_EDIT, f"refused, as it must be: {said}", f"it is refused, and first comes no fact: {said}")

    def test_a_fact_whose_name_is_cut_off(self):
        edit = GOOD_EDIT.replace("proofs/Sum.antt: sum-law", "src/lib.rt: add-sum")
        self.judge(edit, f"refused, as it must be: {NOTED[:-4]}", f"it is refused, and first comes no fact: {NOTED[:-4]}")

    def test_another_fact(self):
        told = GOOD.replace("`sum-law`", "`sum-laws`")
        self.judge(GOOD_EDIT, told, "it fails first at proofs/Sum.antt: `sum-laws`: the two types differ")

    def test_another_file(self):
        for other in ("Product.antt", "More/Sum.antt"):
            told = GOOD.replace("Sum.antt", other)
            self.judge(GOOD_EDIT, told, f"it fails first at proofs/{other}: `sum-law`: the two types differ")

    def test_a_file_of_that_name_elsewhere(self):
        told = GOOD.replace("./proofs", "./specs/proofs")
        self.judge(GOOD_EDIT, told, "it fails first at specs/proofs/Sum.antt: `sum-law`: the two types differ")

    def test_an_error_that_only_follows(self):
        for said in (
            "`sum-law`: `other-law` was not admitted, so this cannot be checked",
            "3 declarations that depend on `other-law`, which was rejected, were not checked: sum-law",
        ):
            told = GOOD.replace("`sum-law`: the two types differ", said)
            self.judge(GOOD_EDIT, told, f"what comes first only follows from another error: proofs/Sum.antt: {said[:80]}")

    def test_refused_in_a_function_without_a_proof_file(self):
        edit = GOOD_EDIT.replace("proofs/Sum.antt: sum-law", "src/lib.rt: add-sum")
        for more in ("", "; the facts known there allow values at which this goal is false", "; the facts (`known`) th"):
            self.judge(edit, f"refused, as it must be: {NOTED}{more}")

    def test_a_function_without_a_proof_file_comes_first(self):
        self.judge(GOOD_EDIT, f"refused, as it must be: {NOTED}", "it fails first at src/lib.rt: `add-sum`")

    def test_a_proof_that_no_longer_fits(self):
        told = GOOD.replace("the two types differ", "record `Start` has no field `before`")
        self.judge(GOOD_EDIT, told, "the edit itself is unfit: `sum-law`: record `Start` has no field `before`")

    def test_edit_that_is_unfit(self):
        told = GOOD.replace("the two types differ", "`two` is not in scope")
        self.judge(GOOD_EDIT, told, "the edit itself is unfit: `sum-law`: `two` is not in scope")

    def test_words_of_a_term_are_not_the_provers(self):
        for term in ("`mir.syntax.binders x ≡ y`", "`mir.syntax.binders x ≡"):
            self.judge(GOOD_EDIT, GOOD.replace("the two types differ", f"no proof of {term}"))

    def crowd(self, code):
        """Three edits more in the first crate, which has this code."""
        write(self.root, "crates/one/src/lib.rt", code)
        for name in ("more", "most", "others"):
            write(self.root, EDIT.replace("wrong", name), GOOD_EDIT)
        write(self.root, LOG, log_of(wrong=GOOD, more=GOOD, most=GOOD, others=GOOD))

    def test_four_edits_of_a_crate_of_code(self):
        self.crowd("pub fn one(x: u8) -> u8 {\n    x\n}\n")
        self.check(5, "crates/one/must-fail: it has 4 edits, and 3 at most")

    def test_four_edits_of_a_crate_without_functions(self):
        self.crowd("// Words of a function.\npub struct One {}\n")
        self.check(5)


class Record(Tree):
    """What is said of the record."""

    def test_fresh(self):
        self.check(2)

    def test_no_record_at_all(self):
        (self.root / RECORD).unlink()
        self.check(1, f"{KEPT_EDIT}: it has no line in {RECORD}: {RUN}")

    def test_missing(self):
        write(self.root, MORE_EDIT, GOOD_EDIT)
        self.check(2, f"{MORE_EDIT}: it has no line in {RECORD}: {RUN}")

    def changed(self, path, text):
        """With this file of its crate the edit is stale."""
        write(self.root, f"crates/two/{path}", text)
        self.check(1, f"{KEPT_EDIT}: its crate has changed since it was last tried: {RUN}")

    def test_changed_code(self):
        self.changed("src/lib.rt", "fn two() { }\n")

    def test_another_definition(self):
        self.changed("specs/New.antt", "")

    def test_another_proof(self):
        self.changed("proofs/two/Answers.antt", "")

    def test_file_of_the_crate_under_another_name(self):
        (self.root / "crates/two/src/lib.rt").rename(self.root / "crates/two/src/main.rt")
        self.check(1, f"{KEPT_EDIT}: its crate has changed since it was last tried: {RUN}")

    def test_what_no_refusal_rests_on(self):
        write(self.root, "crates/two/stdin", "0 0\n")
        write(self.root, "crates/one/specs/A.antt", "another")
        self.check(2)

    def test_stale_edit(self):
        write(self.root, KEPT_EDIT, GOOD_EDIT.replace("two", "three"))
        self.check(1, f"{KEPT_EDIT}: it has changed since it was last tried: {RUN}")

    def test_line_of_no_edit(self):
        write(self.root, RECORD, self.record() + "two/gone 0 0\n")
        self.check(2, f"{RECORD}: two/gone: there is no such edit")

    def test_two_lines_of_one_edit(self):
        write(self.root, RECORD, self.record() * 2)
        self.check(1, f"{KEPT_EDIT}: it has 2 lines in {RECORD}: {RUN}")

    def test_line_without_its_hashes(self):
        write(self.root, RECORD, "two/worse\n")
        self.check(1, f"{KEPT_EDIT}: its line in {RECORD} has not two hashes")


class Trial(Tree):
    """What tests/try_edits.py does with a stand-in for the prover."""

    def setUp(self):
        super().setUp()
        write(self.root, "bin/rt", RT)
        (self.root / "bin/rt").chmod(0o755)
        write(self.root, "told", GOOD)

    def trial(self, *words):
        """Runs the script; gives its exit status and what it writes."""
        env = {**os.environ, "PATH": f"{self.root / 'bin'}:{os.environ['PATH']}", "TREE": str(self.root)}
        command = [sys.executable, TESTS / "try_edits.py", "--root", self.root, *words]
        done = subprocess.run(command, env=env, text=True, capture_output=True, check=False)
        lines = [line for line in done.stdout.splitlines() if not line.startswith("rt: ")]
        return done.returncode, lines

    def calls(self):
        """The crates whose edits were tried."""
        file = self.root / "calls"
        return file.read_text(encoding="utf-8").split() if file.exists() else []

    def test_fresh_is_not_tried_again(self):
        before = self.record()
        said = "1 of 1 edits have a fresh record and are not tried again: tests/try_edits.py --all would"
        self.assertEqual(self.trial("two"), (0, [said, "0 passed, 0 failed"]))
        self.assertEqual((self.calls(), self.record()), ([], before))

    def test_fresh_is_tried_if_asked_for(self):
        before = self.record()
        self.assertEqual(self.trial("--all"), (0, ["1 passed, 0 failed"]))
        self.assertEqual((self.calls(), self.record()), (["two"], before))

    def test_refused_at_its_fact_is_kept(self):
        write(self.root, "crates/two/src/lib.rt", "fn three() {}\n")
        write(self.root, MORE_EDIT, GOOD_EDIT)
        write(self.root, RECORD, self.record() + "two/gone 0 0\n")
        self.assertEqual(self.trial(), (0, ["2 passed, 0 failed"]))
        self.assertEqual([line.split()[0] for line in self.record().splitlines()], ["two/worse", "two/worst"])
        self.check(3)

    def test_what_a_check_left_is_not_hashed(self):
        before = self.record()
        write(self.root, "crates/two/out/two", "")
        self.assertEqual(self.trial("--all"), (0, ["1 passed, 0 failed"]))
        self.assertEqual(self.record(), before)

    def test_refused_at_another_fact_loses_its_line(self):
        write(self.root, "told", GOOD.replace("sum-law", "product-law"))
        fault = "tests/edits/two/worse: it fails first at proofs/Sum.antt: `product-law`: the two types differ"
        self.assertEqual(self.trial("--all"), (1, [fault, "0 passed, 1 failed"]))
        self.assertEqual(self.record(), "")

    def test_other_crates_keep_their_lines(self):
        write(self.root, "tests/edits/one/other.edit", GOOD_EDIT)
        write(self.root, RECORD, self.record() + "one/other old old\n")
        self.assertEqual(self.trial("--all", "two"), (0, ["1 passed, 0 failed"]))
        self.assertIn("one/other old old\n", self.record())

    def test_crate_that_is_not_proved(self):
        write(self.root, "broken", "")
        before = self.record()
        fault = "tests/edits/two: it is not proved as it is, or what it names is not"
        self.assertEqual(self.trial("--all"), (1, [fault, "0 passed, 1 failed"]))
        self.assertEqual((self.calls(), self.record()), ([], before))

    def test_crate_without_edits(self):
        self.assertEqual(self.trial("three"), (1, ["tests/edits/three: there is no edit", "0 passed, 1 failed"]))


if __name__ == "__main__":
    sys.exit(run_tests(__name__))
