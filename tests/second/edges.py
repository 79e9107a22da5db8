"""The arrays that are made to stand at an edge: of a length, of the range, of two refusals, of points that vanish, of the library's search for
the stop row.

Each function gives groups: the calls that are made with one array, all of one function.
"""

from dataclasses import dataclass, replace
from itertools import combinations, product
from random import Random

import document
from document import COLUMN, DONE, DRAINED, FLAT, HIGHEST, LENGTH, LOWEST, MANY, MOST_POINTS, MOST_RECTS, RANGE, REPEATED, ROOM, ROW, WORK
from document import Rows, numbers_of, points_of, rects_of, toggled
from families import HIGHEST_I32, LOWEST_I32, SEED, bars, cells, comb, crossing, diamond, rings, stairs
from families import near_zero, odd_corners, placed_rects, shuffled, step_group
from functions import call, lent, read

ROOM_ARRAYS = 120
RING = (0, 0, 4, 0, 0, 4, 4, 4, 1, 1, 3, 1, 1, 3, 3, 3)
RING_LIST = (0, 0, 4, 1, 0, 1, 1, 3, 3, 1, 1, 2, 1, 3, 3, 1)
PLENTY = 400

# ---- Tight room and short work


def tight(needed, each):
    """Lengths about what is needed, for items of so many numbers each: none, an item or a number too few, just enough, and more."""
    lengths = (0, 1, needed - each, needed - 1, needed, needed + 1, needed + 2, needed + 3, needed + 9)
    return sorted({length for length in lengths if length >= 0})


def room_groups():
    """Forward, steps and backward with all lengths about those that are needed."""
    chance = Random(SEED)
    for i in range(ROOM_ARRAYS):
        boxes = crossing(chance, i % 9, 9)
        points = numbers_of(shuffled(chance, odd_corners(boxes, near_zero)))
        works, rooms = tight(len(points), 2), tight(4 * len(document.rectangles(points_of(points))), 4)
        yield [call("forward", read(points), lent(work), lent(room)) for work, room in product(works, rooms)]
        yield [call("step", lent(work, points), len(points) // 2) for work in works]
        yield step_group(lent(3 * len(points) + 1, points + points), len(points) // 2)
        rects = numbers_of(placed_rects(boxes, near_zero))
        needed = 2 * len(document.corners(rects_of(rects)))
        yield [call("backward", read(rects), lent(room)) for room in tight(needed, 2)]


# ---- Two refusals at once


@dataclass(frozen=True)
class Case:
    """What is changed until two refusals hold: the numbers that are read, how many are cut off the working array, and the room."""

    numbers: tuple
    cut: int = 0
    room: int = PLENTY


def with_more(*numbers):
    """A change that adds numbers."""
    return lambda case: replace(case, numbers=(*case.numbers, *numbers))


# Each of these adds one refusal to an accepted array, and no other: a row or column keeps its even count unless that is the point.
POINT_FAULTS = {
    LENGTH: with_more(7),
    MANY: with_more(*numbers_of((x, y) for y in range(10, 10 + MOST_POINTS // 2) for x in (0, 1))),
    WORK: lambda case: replace(case, cut=1),
    RANGE: with_more(20, 20, HIGHEST + 1, 20, 20, 21, HIGHEST + 1, 21),
    REPEATED: with_more(4, 4, 4, 4),
    ROW: with_more(30, 0, 30, 4),
    COLUMN: with_more(0, 30, 4, 30),
    ROOM: lambda case: replace(case, room=0),
}
RECT_FAULTS = {
    LENGTH: with_more(7),
    MANY: with_more(*(9, 9, 1, 1) * MOST_RECTS),
    FLAT: with_more(20, 20, 1, 0),
    RANGE: with_more(HIGHEST - 1, 20, 2, 1),
    ROOM: lambda case: replace(case, room=0),
}


def both(faults, first, second, numbers):
    """An array with two refusals. What the second one offends by stands before what the first does."""
    return faults[first](faults[second](Case(numbers)))


def pairs():
    """For any two refusals of a function that can hold at once, these and a call of which they do; run_test.py has the definition say so.

    All pairs can, but those with a step's DRAINED: a count of 0 is not over 4,096, no array is shorter than 0 numbers, and among no points
    there is none that offends. Where ROOM comes with a fault of the points or rectangles, the document has no result that could need room:
    what is counted is what the rule gives for as long as it goes on, and no room at all is lent.
    """
    for pair in combinations(document.FORWARD_ORDER, 2):
        case = both(POINT_FAULTS, *pair, RING)
        yield pair, call("forward", read(case.numbers), lent(len(case.numbers) // 2 * 2 - case.cut), lent(case.room))
    for pair in combinations(document.BACKWARD_ORDER, 2):
        case = both(RECT_FAULTS, *pair, RING_LIST)
        yield pair, call("backward", read(case.numbers), lent(case.room))
    for pair in combinations([number for number in document.STEP_ORDER if number != DRAINED], 2):
        case = both(POINT_FAULTS, *pair, RING)
        yield pair, call("step", lent(len(case.numbers) - case.cut, case.numbers), len(case.numbers) // 2)


def pair_groups():
    """The calls of which two refusals hold."""
    return ([one] for _, one in pairs())


# ---- Points that vanish

SQUARE = ((0, 0), (1, 0), (0, 1), (1, 1))
TOUCHING = (*SQUARE, (1, 1), (2, 1), (1, 2), (2, 2))


def forward_of(points, cut=0):
    """Forward on points, with a working array that is so many numbers too short for them."""
    return call("forward", read(numbers_of(points)), lent(2 * len(points) - cut), lent(PLENTY))


def step_of(points):
    """A step on points."""
    return call("step", lent(2 * len(points), numbers_of(points)), len(points))


def vanishing():
    """Calls on points of which some are listed more than once, each with its answer, its place and its count; run_test.py has the definition say
    so. What a check says is of the points as they are given, and so are all lengths."""
    yield (DONE, 0, 0), forward_of([(5, 5)] * MOST_POINTS)
    yield (DONE, 0, 1), forward_of([*SQUARE, *[(5, 5)] * (MOST_POINTS - 4)])
    yield (DONE, 0, 1), forward_of([*SQUARE[:3], *[(1, 1)] * (MOST_POINTS - 3)])
    yield (DONE, 0, 0), forward_of([(x, x) for x in (*range(MOST_POINTS // 2), *reversed(range(MOST_POINTS // 2)))])
    for more in (1, 2):
        yield (MANY, 0, 0), forward_of([*SQUARE, *[(5, 5)] * (MOST_POINTS - 4 + more)])
    for cut in (1, 2, 3, 4, 5, 16):
        yield (WORK, 0, 0), forward_of(TOUCHING, cut)
    yield (WORK, 0, 0), forward_of([(5, 5)] * MOST_POINTS, 1)
    for far in ((HIGHEST + 1, 1), (1, LOWEST - 1)):
        yield (RANGE, 4, 0), forward_of([*SQUARE, far, far])
        yield (RANGE, 0, 0), forward_of([far, *SQUARE, far])
    yield (ROW, 2, 0), forward_of([(7, 7), (7, 7), (9, 0), *SQUARE[:3], (9, 0), SQUARE[3], (5, 0), (5, 1), (8, 1)])
    yield (ROW, 0, 0), forward_of([(1, 1), *TOUCHING])
    yield (COLUMN, 1, 0), forward_of([(7, 7), (0, 9), (7, 7), *SQUARE, (0, 9), (0, 1), (5, 1)])
    yield (COLUMN, 0, 0), forward_of([(1, 1), *TOUCHING, (2, 1)])
    yield (REPEATED, 1, 0), step_of([(5, 5)] * MOST_POINTS)
    yield (REPEATED, MOST_POINTS - 1, 0), step_of([(x, x) for x in (*range(MOST_POINTS - 1), 0)])
    yield (REPEATED, 4, 0), step_of(TOUCHING)
    yield (RANGE, 0, 0), step_of([(HIGHEST + 1, 1), *SQUARE, (HIGHEST + 1, 1)])


def vanishing_groups():
    """The calls on points of which some are listed more than once."""
    return ([one] for _, one in vanishing())


# ---- Ends of the range

LOW_ENDS = (LOWEST_I32, LOWEST_I32 + 1, LOWEST - 1, LOWEST, -1, 0)
HIGH_ENDS = (1, HIGHEST - 1, HIGHEST, HIGHEST + 1, 2 * HIGHEST, 2 * HIGHEST + 1, HIGHEST_I32)
COUNTS = (0, 1, 2, 3, 4, 5, MOST_POINTS, MOST_POINTS + 1, 2**31, 2**32, 2**32 + 4, 2**63, 2**63 + 4, 2**64 - 1)


def range_groups():
    """Squares with their sides at the ends of the range and of 32 bits, and steps with counts at the ends of theirs."""
    for a, b in product(LOW_ENDS + HIGH_ENDS, repeat=2):
        for square in ((a, 3, b, 3, a, 5, b, 5), (3, a, 5, a, 3, b, 5, b), (a, a, b, a, a, b, b, b)):
            yield [call("forward", read(square), lent(9), lent(9))]
            yield [call("step", lent(9, square), 4)]
        for rect in ((a, 3, b, 2), (3, a, 2, b), (a, a, b, b), (0, 0, a, b)):
            yield [call("backward", read((5, 5, 1, 1, *rect)), lent(17))]
    for count in COUNTS:
        yield [call("step", lent(length, RING), count) for length in range(len(RING) + 2)]


def length_groups():
    """Arrays of every small length, and of the greatest ones that are taken and just over them."""
    for length in range(len(RING) + 1):
        yield [call("forward", read(RING[:length]), lent(work), lent(PLENTY)) for work in (length - length % 2, length + 1)]
        yield [call("backward", read(RING_LIST[:length]), lent(PLENTY))]
    columns = [(x, y) for y in range(MOST_POINTS // 2 + 1) for x in (0, 1)]
    for length in range(2 * MOST_POINTS - 2, 2 * MOST_POINTS + 5):
        yield [call("forward", read(numbers_of(columns)[:length]), lent(length + 1), lent(4 * MOST_POINTS))]
    for count in (MOST_POINTS - 2, MOST_POINTS, MOST_POINTS + 1, MOST_POINTS + 2):
        yield [call("step", lent(2 * len(columns), numbers_of(columns)), count)]
    squares = numbers_of((2 * (i % 128), 2 * (i // 128), 1, 1) for i in range(MOST_RECTS + 1))
    for length in range(4 * MOST_RECTS - 1, 4 * MOST_RECTS + 5):
        yield [call("backward", read(squares[:length]), lent(8 * MOST_RECTS))]
    yield [call("backward", read(squares[: 4 * MOST_RECTS]), lent(8 * MOST_RECTS + more)) for more in (-2, -1, 1, 3)]


# ---- Steps on many points

# The library's search for the stop row goes over the points with a table of so many rows, and then of twice as many, up to the last.
FIRST_TABLE, LAST_TABLE = 16, 1024
MOST_BESIDE = MOST_POINTS // 2 - 2


def pass_starts():
    """The rows at which a pass of that search begins, after the first one, if each has to give up rows and finds none that stops."""
    row, table = 1, FIRST_TABLE
    while row + table - 1 < MOST_BESIDE:
        row += table - 1
        table = min(2 * table, LAST_TABLE)
        yield row


def beside(chance, odd_row, order):
    """4,096 points: K and L are the lowest row, two points above them the highest, and each row between has two points left of K. The first
    points of all rows stand before the second ones, so that a row is odd for a while; one row stays odd, if given, and one next to it."""
    rows = order(list(range(1, MOST_BESIDE + 1)))
    stops = {odd_row, odd_row + 1 if odd_row < MOST_BESIDE else odd_row - 1} if odd_row else set()
    width = [(x, y) for x in (2, 3) for y in (0, MOST_BESIDE + 1)]
    seconds = shuffled(chance, [(5 if y in stops else 1, y) for y in rows])
    return [*width[:2], *[(0, y) for y in rows], *width[2:], *seconds]


def stop_groups():
    """Steps in which the search for the stop row makes as many passes as it can, and ends in each of them."""
    chance = Random(SEED)
    odd_rows = [None, *[start + more for start in pass_starts() for more in (-1, 0, 1)], MOST_BESIDE]
    falling, by_chance = (lambda rows: rows[::-1]), (lambda rows: shuffled(chance, rows))
    for odd_row, order in [*product(odd_rows, (list,)), *product(odd_rows[::4], (falling, by_chance))]:
        yield step_group(lent(2 * MOST_POINTS + 1, numbers_of(beside(chance, odd_row, order))), MOST_POINTS, 1)


def after_steps(points, steps):
    """The points that are left after so many steps of the rule, in order."""
    rows = Rows(points)
    for _ in range(steps):
        for x, y in toggled(rows.rectangle()):
            rows.toggle(x, y)
    return [(x, y) for y in rows.heights for x in rows.row[y]]


def step_groups():
    """Two steps on up to 4,096 points of each kind, at the start and after some hundred steps, in an order by chance."""
    chance = Random(SEED)
    for shape in (bars, diamond, stairs, rings, comb, cells):
        points = odd_corners(shape(chance, MOST_POINTS // 4, 7), near_zero)
        for steps in (0, 50, 600):
            numbers = numbers_of(shuffled(chance, after_steps(points, steps)))
            yield step_group(lent(len(numbers) + 3, numbers), len(numbers) // 2, 2)
