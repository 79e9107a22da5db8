"""Tests the comparison with the second implementation: that it notices what differs, that the table is the header's, that two refusals hold
where they should, that points vanish where they should, and that document.py keeps what documents 01 and 02 say follows from their rules.

The last line is 'N passed, M failed', and the exit status is 0 exactly when M is 0.
"""

import re
import sys
import unittest
from collections import Counter
from itertools import islice, product
from pathlib import Path
from random import Random

HERE = Path(__file__).resolve().parent
sys.path.insert(0, str(HERE.parent))

import document
import run
from counting import run_tests
from edges import pairs, vanishing
from families import SEED, grid_groups, repeated_groups, repeating_points
from functions import FIXED, FUNCTIONS, call, lent, read
from gdsii import DATA, GRAMMAR, GRAMMAR_TEXT, TYPES, beginnings, corners_of, is_open, is_slanted, overlap
from plates import A, E, E_LIST, I, forward
from record_families import SEQUENCES, SHORT_START, cut_files, expansions, is_in_order
from shape_families import walk

HEADER = HERE.parent.parent / "include" / "panbuckle.h"
DECLARED = re.compile(r"\bpanbuckle_(\w+)\(([^)]*\bresult\[[^)]*)\)")
PARAMETER = re.compile(r"(\w+)(?:\[[^]]*\])?(?:,|$)")

SQUARE = call("forward", read(A), lent(9), lent(6))
FILL, WIDE = "-1717171717", "17171717171717171717"
RIGHT = f"0; 0 =; 0 0 0 0 0 0 0 0 0 {FILL}*1; 0 0 0 1 1 {FILL}*2; 0 0 0 1 1 4*1"


class Comparison(unittest.TestCase):
    """What is noticed of a call."""

    def check(self, old, new, *words):
        """If the driver prints this in place of what is right, the difference has these words."""
        self.assertEqual(RIGHT.count(old), 1)
        fault = run.difference(SQUARE, RIGHT.replace(old, new))
        for word in words:
            self.assertIn(word, fault)

    def test_the_line_of_a_call(self):
        wanted = f"forward i32 8 0 8 0 0 1 0 0 1 1 1 i32 9 {FILL} 0 i32 6 {FILL} 0 u64 5 {WIDE} 0"
        self.assertEqual(run.line_of(SQUARE), wanted)
        self.assertEqual(run.line_of(call("step", lent(2, (5, 6, 7)), 1)), f"step i32 2 {FILL} 2 5 6 number 1 i32 4 {FILL} 0 u64 3 {WIDE} 0")

    def test_the_line_of_a_call_with_bytes(self):
        one = call("read_gdsii", read(b"\0\xfe"), read(b""), -1, lent(2))
        wanted = f"read_gdsii u8 2 0 2 00fe u8 0 0 0 number -1 i32 8192 {FILL} 0 i32 2 {FILL} 0 u64 3 {WIDE} 0"
        self.assertEqual(run.line_of(one), wanted)
        self.assertEqual(run.difference(one, "12; 0 =; 0 =; 0 0*8192; 0 =; 0 12 0*2"), "")

    def test_what_is_right(self):
        self.assertEqual(run.difference(SQUARE, RIGHT), "")

    def test_a_changed_number(self):
        self.check("0; 0 =", "8; 0 =", "it returned 8 instead of 0")
        self.check("=", "0 0 1 0 0 1 1 2*1", "points[7] is 2 instead of 1, one of 1 such")
        self.check(f"0 {FILL}*1", "0 0*1", f"work[8] is 0 instead of {FILL}")
        self.check(f"1 1 {FILL}*2", f"1 2 {FILL}*2", "rects[3] is 2 instead of 1")
        self.check("1 1 4*1", "1 1 5*1", "result[4] is 5 instead of 4")

    def test_what_is_as_it_was_and_should_not_be(self):
        self.check(f"0 0 1 1 {FILL}*2", "=", f"rects[0] is {FILL} instead of 0, one of 4 such")

    def test_a_changed_length(self):
        self.check(f"{FILL}*2", f"{FILL}*1", "rects has 5 numbers instead of 6")

    def test_a_changed_guard(self):
        self.check("; 0 0 0 0 0", "; 3 0 0 0 0", "3 bytes beside work are changed")

    def test_what_is_missing(self):
        self.check("; 0 0 0 1 1 4*1", "", "there are 3 arrays instead of 4")
        self.check(RIGHT, "", "the driver printed ''")
        self.check(RIGHT, "0; ", "the driver printed '0; '")

    def test_a_driver_that_ends_early(self):
        command = [sys.executable, "-c", "import sys; print(input()); sys.exit('gone')"]
        first, second, third = run.printed(command, [SQUARE] * 3)
        self.assertEqual((first, second), (run.line_of(SQUARE), third))
        self.assertEqual(second, "no line, and ended with status 1. gone")
        self.assertIn(second, run.difference(SQUARE, second))

    def test_what_the_document_states(self):
        plate = forward(E, 8, (0, 0, 3, None, 8), E_LIST)
        faults = list(run.stated_faults(plate, run.outcome_of(plate)))
        self.assertEqual(faults, ["result begins with [0, 0, 2, 2, 8], and [0, 0, 3, None, 8] is stated"])

    def test_what_was_not_compared(self):
        tally = run.Tally()
        tally.groups["forward"] = run.FEWEST_GROUPS["forward"]
        tally.add(SQUARE, RIGHT)
        tally.add_accepted(I)
        gaps = list(tally.gaps())
        self.assertIn("forward: no call is answered with LENGTH, MANY, WORK, RANGE, ROW, COLUMN, ROOM", gaps)
        self.assertIn(f"step: there are 0 arrays, and at least {run.FEWEST_GROUPS['step']} are wanted", gaps)
        self.assertIn(f"edge: there are 1 arrays, and at least {run.FEWEST_EDGES} are wanted", gaps)
        self.assertIn(f"repeated: there are 1 arrays, and at least {run.FEWEST_REPEATED} are wanted", gaps)
        self.assertIn(f"cut_files: there are 0 files, and at least {run.FAMILIES[cut_files]} are wanted", gaps)
        self.assertEqual((len(gaps), tally.faults), (9 + len(run.FAMILIES), []))


class Table(unittest.TestCase):
    """The table of functions."""

    def test_every_function_of_the_header(self):
        found = DECLARED.findall(HEADER.read_text(encoding="utf-8"))
        declared = {name: [word for word in PARAMETER.findall(words) if not word.endswith("_length")] for name, words in found}
        self.assertEqual(declared, {name: [one.name for one in function.parameters] for name, function in FUNCTIONS.items()})

    def test_every_function_has_groups(self):
        self.assertEqual(set(run.FEWEST_GROUPS), set(FUNCTIONS))


class Pairs(unittest.TestCase):
    """The calls of which two refusals hold."""

    REFUSALS = {"forward": document.forward_refusals, "step": document.step_refusals, "backward": document.backward_refusals}

    def test_both_hold_and_none_before_them(self):
        for pair, one in pairs():
            parameters = [parameter for parameter in FUNCTIONS[one.name].parameters if parameter.kind != FIXED]
            held = [number for number, _ in self.REFUSALS[one.name](*map(run.value_of, parameters, one.arguments))]
            self.assertEqual((held[0], pair[1] in held), (pair[0], True), one.name)

    def test_every_pair_but_those_with_drained(self):
        counts = Counter(one.name for _, one in pairs())
        self.assertEqual(counts, {"forward": 7 * 6 // 2, "backward": 5 * 4 // 2, "step": 6 * 5 // 2})


def stepped(points, length):
    """The steps on points, in a working array of so many numbers, until one is refused: its answer, their list, and the array after them."""
    work, count, made = [*document.numbers_of(points), *[0] * (length - 2 * len(points))], len(points), []
    while (answer := document.step(work, count))[0] == document.DONE:
        _, _, count, rect = answer
        made.append(rect)
    return answer[0], made, work


class Vanishing(unittest.TestCase):
    """The points that remain, by document 02's request 2."""

    def check(self, given, left):
        """Of these points, a letter for each, those remain."""
        self.assertEqual("".join(document.remaining(given)), left)

    def test_which_points_remain(self):
        self.check("", "")
        self.check("dcba", "dcba")
        self.check("aa", "")
        self.check("abca", "bc")
        self.check("baaba", "a")
        self.check("abbcaa", "ac")
        self.check("cbabacbbb", "b")
        self.check("bacabca", "a")

    def test_a_triple_stands_once_where_it_is_first_listed(self):
        self.check("abcbdb", "abcd")
        self.check("bbabcd", "bacd")

    def test_the_edges(self):
        for wanted, one in vanishing():
            returned, arrays = run.outcome_of(one)
            self.assertEqual((returned, tuple(arrays[-1][1][:3])), (wanted[0], wanted))

    def test_all_numbers_of_the_points_given_are_zeroed(self):
        for one in [one for (answer, *_), one in vanishing() if one.name == "forward" and answer == document.DONE]:
            _, (_, (_, work), *_) = run.outcome_of(one)
            self.assertEqual(work, [0] * one.arguments[0].length)

    def test_refusals_at_a_point_that_vanishes(self):
        found = Counter()
        for one in [group[0] for group in islice(repeated_groups(), 2000)]:
            answer, (_, _, _, (_, (_, place, *_))) = run.outcome_of(one)
            points = document.points_of(one.arguments[0].numbers)
            found[answer] += answer != document.DONE and points[place] not in document.remaining(points)
        for answer in (document.RANGE, document.ROW, document.COLUMN):
            self.assertGreater(found[answer], 5)


class Repeated(unittest.TestCase):
    """What document 02's request 2 says follows, of some hundred accepted arrays in which points are listed more than once."""

    @classmethod
    def setUpClass(cls):
        chance = Random(SEED)
        given = [document.points_of(repeating_points(chance)) for _ in range(400)]
        cls.accepted = [points for points in given if next(document.refusals_of_points(points), None) is None]

    def test_there_are_enough(self):
        self.assertGreater(len(self.accepted), 300)
        self.assertTrue(all(len(set(points)) < len(points) for points in self.accepted))

    def test_forward_is_the_points_that_remain_stepped(self):
        for points in self.accepted:
            left, length = document.remaining(points), 2 * len(points)
            work, rects = [7] * length, [0] * 4 * len(document.rectangles(points))
            document.forward(document.numbers_of(points), work, rects)
            self.assertEqual((document.DRAINED, list(document.rects_of(rects)), work), stepped(left, length))

    def test_it_answers_as_of_the_points_that_remain(self):
        for points in self.accepted:
            given, left = (document.numbers_of(some) for some in (points, document.remaining(points)))
            of_given, of_left = [0] * 400, [0] * 400
            self.assertEqual(document.forward(given, [7] * len(given), of_given), document.forward(left, [7] * len(left), of_left))
            self.assertEqual(of_given, of_left)

    def test_the_edge_of_the_points_given_is_that_of_those_that_remain(self):
        for points in self.accepted:
            self.assertEqual(document.outline_length(points), document.outline_length(document.remaining(points)))

    def test_each_cell_that_the_points_given_mark_is_in_one_rectangle(self):
        for points in self.accepted[::8]:
            columns, rows = sorted({x for x, _ in points}), sorted({y for _, y in points})
            for a, b in product(columns, rows):
                marked = document.odd(sum(x <= a and y <= b for x, y in points))
                holding = sum(x <= a < x + w and y <= b < y + h for x, y, w, h in document.rectangles(points))
                self.assertEqual(holding, int(marked))

    def test_there_and_back_gives_the_points_that_remain(self):
        for points in self.accepted:
            back = document.corners(tuple(document.rectangles(points)))
            self.assertEqual(back, sorted(document.remaining(points), key=lambda point: point[::-1]))


class Definition(unittest.TestCase):
    """What document 01 says follows from its rules, of every accepted array of a grid of 3 by 4."""

    @classmethod
    def setUpClass(cls):
        given = [one.arguments[0].numbers for group in grid_groups() for one in group if one.name == "forward"]
        cls.accepted = [numbers for numbers in given if next(document.refusals_of_points(document.points_of(numbers)), None) is None]

    def test_there_are_enough(self):
        self.assertEqual(len(self.accepted), 64)

    def test_forward_is_stepped(self):
        for numbers in self.accepted:
            points = document.points_of(numbers)
            self.assertEqual(stepped(points, len(numbers)), (document.DRAINED, document.rectangles(points), [0] * len(numbers)))

    def test_each_marked_cell_is_in_one_rectangle(self):
        for numbers in self.accepted:
            points = document.points_of(numbers)
            for a, b in product(range(-1, 4), repeat=2):
                marked = document.odd(sum(x <= a and y <= b for x, y in points))
                holding = sum(x <= a < x + w and y <= b < y + h for x, y, w, h in document.rectangles(points))
                self.assertEqual(holding, int(marked))

    def test_the_edge_is_the_number_of_unit_sides(self):
        for numbers in self.accepted:
            points = document.points_of(numbers)

            def marked(a, b, points=points):
                return document.odd(sum(x <= a and y <= b for x, y in points))

            cells = list(product(range(-1, 6), repeat=2))
            lower = sum(marked(a, b) != marked(a, b - 1) for a, b in cells)
            left = sum(marked(a, b) != marked(a - 1, b) for a, b in cells)
            self.assertEqual(document.outline_length(points), lower + left)

    def test_there_and_back(self):
        for numbers in self.accepted:
            points = document.points_of(numbers)
            back = document.corners(tuple(document.rectangles(points)))
            self.assertEqual(back, sorted(points, key=lambda point: point[::-1]))


def names_in(part):
    """The records and rules that a part of a rule names."""
    return {part} if isinstance(part, str) else set().union(*map(names_in, part[1]))


class Grammar(unittest.TestCase):
    """The format's order, as it is followed, and as a pattern."""

    def test_every_name_is_a_rule_or_a_record(self):
        named = set().union(*(names_in(part) for parts in GRAMMAR.values() for part in parts))
        self.assertEqual(named, (set(GRAMMAR) - {"stream"}) | set(DATA))
        self.assertLessEqual(set(DATA), set(TYPES))

    def test_the_page_has_it(self):
        self.assertIn(GRAMMAR_TEXT, (HEADER.parent.parent / "docs" / "GDSII.md").read_text(encoding="utf-8"))

    def test_what_it_allows_is_in_order(self):
        for names in expansions(GRAMMAR["element"]):
            self.assertTrue(is_in_order((*SHORT_START, "BGNSTR", "STRNAME", *names, "ENDSTR", "ENDLIB")), names)
        for names in (*SEQUENCES, *((*start, "ENDLIB") for start in expansions(GRAMMAR["stream"][:-2]))):
            self.assertTrue(is_in_order(names), names)

    def test_a_part_begins_with_a_record(self):
        self.assertEqual(beginnings("strans"), {"STRANS"})
        self.assertEqual(beginnings("element"), {"BOUNDARY", "PATH", "SREF", "AREF", "TEXT", "NODE", "BOX"})


def is_inside(a, b, vertices):
    """Whether a ray from a cell to the left meets an odd number of edges."""
    edges = zip(vertices, vertices[1:])
    return document.odd(sum(x <= a and min(y, to_y) <= b < max(y, to_y) for (x, y), (_, to_y) in edges))


class Streams(unittest.TestCase):
    """The stream files, and what document 02's request 3 says follows, of some hundred boundaries by chance."""

    @classmethod
    def setUpClass(cls):
        chance = Random(SEED)
        lists = [walk(chance, 5) for _ in range(1500)]
        cls.lists = [vertices for vertices in lists if not is_open(vertices) and not is_slanted(vertices)]
        cls.cells = list(product(range(-1, 6), repeat=2))

    def test_what_is_stated_of_the_first_files_of_each_family(self):
        for family in run.FAMILIES:
            for group in islice(family(), 50):
                faults = [fault for one in group for fault in run.stated_faults(one, run.outcome_of(one))]
                self.assertEqual(faults, [], family.__name__)

    def test_the_corners_mark_what_the_boundary_marks(self):
        self.assertGreater(len(self.lists), 1000)
        for vertices in self.lists:
            corners = list(corners_of(vertices))
            for a, b in self.cells:
                marked = document.odd(sum(x <= a and y <= b for x, y in corners))
                self.assertEqual(marked, is_inside(a, b, vertices))

    def test_rows_and_columns_have_even_counts_of_corners(self):
        for vertices in self.lists:
            self.assertEqual(list(document.line_refusals(list(corners_of(vertices)))), [])

    def test_two_overlap_exactly_when_they_mark_one_cell(self):
        found = Counter()
        for one, other in zip(self.lists[0::2], self.lists[1::2]):
            both = any(is_inside(a, b, one) and is_inside(a, b, other) for a, b in self.cells)
            self.assertEqual(overlap([one, other]), both)
            found[both] += 1
        self.assertGreater(min(found[True], found[False]), 100)


if __name__ == "__main__":
    sys.exit(run_tests(__name__))
