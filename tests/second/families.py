"""The arrays that are drawn by chance, from a fixed seed, and those that are all there are of a kind.

Each function gives groups: the calls that are made with one array, all of one function.
"""

from itertools import chain, combinations, product
from random import Random

import document
from document import HIGHEST, LOWEST, MOST_RECTS, numbers_of, points_of, rects_of
from functions import call, lent, read

SEED = "panbuckle"
SMALL_FORWARD, SMALL_STEP, SMALL_BACKWARD = 14_500, 2_900, 5_800
LOWEST_I32, HIGHEST_I32 = -(2**31), 2**31 - 1
BAD_NUMBERS = (LOWEST_I32, HIGHEST_I32, LOWEST - 1, HIGHEST + 1, LOWEST, HIGHEST, 0, -1)

# ---- Boxes on the lines of a grid: left, bottom, width, height

LONGEST_SIDE = 40
# The four boxes about a point: whether each is left of it, and whether it is below.
QUARTERS = ((0, 0), (1, 0), (0, 1), (1, 1))


def crossing(chance, count, grid):
    """Boxes at random, which cross, nest and touch."""
    span = chance.randint(1, min(grid, LONGEST_SIDE))
    return [(chance.randrange(grid), chance.randrange(grid), chance.randint(1, span), chance.randint(1, span)) for _ in range(count)]


def cells(chance, count, grid):
    """A box in each cell of a coarse grid."""
    return [(8 * (i % 5), 8 * (i // 5), chance.randint(1, min(grid, 7)), chance.randint(1, min(grid, 7))) for i in range(count)]


def checkerboard(_chance, count, _grid):
    """Unit squares that touch at their corners."""
    return [(2 * (i % 5) + i // 5 % 2, i // 5, 1, 1) for i in range(count)]


def comb(chance, count, grid):
    """A spine with teeth on it."""
    return [(0, 0, 2 * count + 1, 1), *[(2 * i, 1, 1, chance.randint(1, grid)) for i in range(1, count)]]


def bars(_chance, count, _grid):
    """Bars that stand and bars that lie, in turn, which cross."""
    return [(i + 1, 0, 1, count + 2) if i % 2 == 0 else (0, i, count + 2, 1) for i in range(count)]


def rings(_chance, count, _grid):
    """Squares in one another."""
    return [(i, i, 2 * (count - i) - 1, 2 * (count - i) - 1) for i in range(count)]


def stairs(_chance, count, _grid):
    """Bars that stand lower the further right they are."""
    return [(2 * i, count - i, 1, count + 1) for i in range(count)]


def diamond(_chance, count, _grid):
    """Boxes about one middle, from high and narrow to low and wide."""
    return [(count - i, i, 2 * i + 1, 2 * (count - i) + 1) for i in range(count)]


def pads(chance, count, _grid):
    """Boxes about points of a coarse grid, two to four about each, which have it for a corner."""
    found, i = [], 0
    while len(found) < count:
        x, y = 9 * (i % 4) + 4, 9 * (i // 4) + 4
        for left, below in chance.sample(QUARTERS, chance.randint(2, 4)):
            w, h = chance.randint(1, 4), chance.randint(1, 4)
            found.append((x - left * w, y - below * h, w, h))
        i += 1
    return found


SHAPES = (crossing, crossing, crossing, crossing, cells, checkerboard, comb, bars, rings, stairs, diamond)

# ---- Coordinates of the lines

# A number with no factor in common with how many coordinates there are, so that lines stay apart.
SCATTER = 736_338_719


def near_zero(line):
    """Coordinates on both sides of 0."""
    return line - 7


def low_end(line):
    """Coordinates from the lowest on."""
    return LOWEST + line


def whole_range(line):
    """Coordinates far apart, from the lowest to the highest, which is that of line 40."""
    return LOWEST + 50_000_000 * line


def high_end(line):
    """Coordinates up to the highest, which is that of line 30, and out of range after it."""
    return HIGHEST - 30 + line


def anywhere(line):
    """Coordinates in no order."""
    return LOWEST + SCATTER * (line + 1) % (HIGHEST - LOWEST + 1)


SCALES = (near_zero, low_end, whole_range, high_end)
# Those that keep boxes of some dozen lines in range.
IN_RANGE = (near_zero, low_end, whole_range, anywhere)

# ---- Arrays


def placed_rects(boxes, scale):
    """The rectangles of boxes, whose sides are lines."""
    return [(scale(x), scale(y), scale(x + w) - scale(x), scale(y + h) - scale(y)) for x, y, w, h in boxes]


def all_corners(boxes, scale):
    """The corners of boxes, box after box: where boxes meet at a corner, it is listed as often as they do."""
    return [(scale(a), scale(b)) for x, y, w, h in boxes for a, b in ((x, y), (x + w, y), (x, y + h), (x + w, y + h))]


def odd_corners(boxes, scale):
    """The points that are a corner of an odd number of boxes, in the order in which they come."""
    found = {}
    for point in all_corners(boxes, scale):
        if found.pop(point, None) is None:
            found[point] = True
    return list(found)


def shuffled(chance, items):
    """The items in an order by chance."""
    return chance.sample(items, len(items))


def damaged(chance, numbers):
    """An array with one fault: a number is another one's, the next, or bad; a point is repeated; a number or a point is missing."""
    if len(numbers) < 2:
        return numbers
    i, j = chance.randrange(len(numbers)), chance.randrange(len(numbers) // 2)
    what = chance.randrange(6)
    if what < 3:
        new = (numbers[2 * j + i % 2], min(numbers[i] + 1, HIGHEST_I32), chance.choice(BAD_NUMBERS))[what]
        return [*numbers[:i], new, *numbers[i + 1 :]]
    return ([*numbers, *numbers[2 * j : 2 * j + 2]], numbers[:-1], numbers[:-2])[what - 3]


def often_damaged(chance, numbers):
    """The array in five of eight cases, with one fault in two, with three in one."""
    for _ in range((0, 0, 0, 0, 0, 1, 1, 3)[chance.randrange(8)]):
        numbers = damaged(chance, numbers)
    return numbers


def small_points(chance):
    """The numbers of an array of some points: corners of boxes, or, now and then, points by chance."""
    scale = chance.choice((*SCALES, anywhere))
    count, grid = chance.randrange(14), chance.randint(3, 12)
    if chance.randrange(14) == 0:
        points = [(scale(chance.randrange(grid)), scale(chance.randrange(grid))) for _ in range(count)]
    else:
        points = odd_corners(chance.choice(SHAPES)(chance, count, grid), scale)
    return often_damaged(chance, numbers_of(shuffled(chance, points)))


def small_rects(chance):
    """The numbers of an array of some rectangles."""
    boxes = chance.choice(SHAPES)(chance, chance.randrange(14), chance.randint(3, 12))
    rects = placed_rects(boxes, chance.choice(SCALES))
    if rects and chance.randrange(4) == 0:
        rects.append(chance.choice(rects))
    return often_damaged(chance, numbers_of(shuffled(chance, rects)))


def lent_any(chance, length, numbers=()):
    """An array that is lent: full of one number after those it begins with, or, now and then, of varied ones."""
    if chance.randrange(8) > 0:
        return lent(length, numbers)
    start = chance.randrange(LOWEST_I32, HIGHEST_I32)
    varied = [(start + SCATTER * i) % 2**32 + LOWEST_I32 for i in range(length - len(numbers))]
    return lent(length, (*numbers, *varied))


# ---- Calls with one array


def rooms(chance, needed, refused):
    """Lengths of an array for a result: more than it needs, and, where it can come, just enough and one number too few."""
    return [needed + chance.randrange(20), *([needed, needed - 1] if needed > 0 and not refused else [])]


def forward_group(chance, numbers):
    """Forward on one array. The working array has a number too few, enough, or some more."""
    points, work = points_of(numbers), max(0, len(numbers) + chance.randrange(12) - 1)
    needed, refused = 4 * len(document.rectangles(points)), next(document.refusals_of_points(points), None)
    return [call("forward", read(numbers), lent_any(chance, work), lent_any(chance, room)) for room in rooms(chance, needed, refused)]


def backward_group(chance, numbers):
    """Backward on one array."""
    needed = 2 * len(document.corners(rects_of(numbers)))
    refused = next(document.backward_refusals(numbers, [0] * needed), None)
    return [call("backward", read(numbers), lent_any(chance, room)) for room in rooms(chance, needed, refused)]


def step_group(work, count, most=None):
    """Steps on one working array, from a count on, until one is refused; or at most so many. The definition goes ahead."""
    group, now = [], list(work.whole())
    while most is None or len(group) < most:
        group.append(call("step", lent(len(now), now), count))
        answer, _, count, _ = document.step(now, count)
        if answer != document.DONE:
            break
    return group


def steps_of(chance, numbers, most=None):
    """Steps on the points of an array. Now and then the working array is short by a number."""
    work = max(0, len(numbers) + chance.randrange(12) - 1)
    return step_group(lent_any(chance, work, numbers[:work]), len(numbers) // 2, most)


# ---- Small arrays


def small_groups():
    """Small arrays by chance, for each function."""
    chance = Random(SEED)
    for _ in range(SMALL_FORWARD):
        yield forward_group(chance, small_points(chance))
    for _ in range(SMALL_STEP):
        yield steps_of(chance, small_points(chance))
    for _ in range(SMALL_BACKWARD):
        yield backward_group(chance, small_rects(chance))


def grid_groups():
    """Every array of points of a grid of 3 by 4, in an order by chance: forward, the steps until none is left, and back."""
    chance = Random(SEED)
    grid = [(x, y) for x in range(3) for y in range(4)]
    for points in chain.from_iterable(combinations(grid, n) for n in range(len(grid) + 1)):
        numbers = numbers_of(shuffled(chance, points))
        made = document.rectangles(points_of(numbers))
        yield [call("forward", read(numbers), lent(len(numbers) + 1), lent(4 * len(made) + 1))]
        yield step_group(lent(len(numbers) + 1, numbers), len(points))
        if next(document.refusals_of_points(points), None) is None:
            yield [call("backward", read(numbers_of(made)), lent(len(numbers) + 1))]


# ---- Accepted arrays, of which the edge is compared

OUTLINES = 13_000


def outline_groups():
    """Corners of boxes by chance, in range, with just the room that they need."""
    chance = Random(SEED)
    for _ in range(OUTLINES):
        boxes = chance.choice(SHAPES)(chance, chance.randint(2, 12), chance.randint(3, 12))
        points = tuple(shuffled(chance, odd_corners(boxes, chance.choice(IN_RANGE))))
        yield [call("forward", read(numbers_of(points)), lent(2 * len(points)), lent(4 * len(document.rectangles(points))))]


# ---- Arrays with points that are listed more than once

REPEATED_FORWARD, REPEATED_STEP = 21_500, 600
MEETING = (*SHAPES, checkerboard, checkerboard, pads, pads, pads)
BEYOND = (LOWEST_I32, LOWEST - 1, HIGHEST + 1, HIGHEST_I32)
# One in so many arrays has a fault, and one in so many is also given too short a working array, and too little room.
SELDOM = 16


def listed_again(chance, points):
    """A point twice or four times more, which so remains or vanishes as before, and leaves rows and columns their even counts: one of these points,
    or one where two of their lines cross."""
    (x, _), (_, y) = chance.choice(points), chance.choice(points)
    return [chance.choice([(x, y), chance.choice(points)])] * chance.choice((2, 2, 4))


def one_more(chance, points):
    """One of the points once more, so that its row has an odd count."""
    return [chance.choice(points)]


def two_more(chance, points):
    """Two points of a row once more, so that their columns have odd counts."""
    _, row = chance.choice(points)
    return chance.sample(sorted({(x, y) for x, y in points if y == row}), 2)


def beyond(chance, points):
    """A point out of range, twice, which vanishes."""
    return [(chance.choice(BEYOND), chance.choice(points)[1])] * 2


def repeating_points(chance):
    """The numbers of an array in which points are listed more than once: all corners of boxes, and points that are listed again."""
    boxes = chance.choice(MEETING)(chance, chance.randint(2, 7), chance.randint(3, 8))
    points = all_corners(boxes, chance.choice(IN_RANGE))
    for _ in range(chance.randint(int(len(set(points)) == len(points)), 2)):
        points += listed_again(chance, points)
    if chance.randrange(SELDOM) == 0:
        points += chance.choice((one_more, two_more, beyond))(chance, points)
    return numbers_of(shuffled(chance, points))


def tight_group(chance, numbers):
    """Forward on one array with just the working array and the room that it needs; and, now and then, with a number too few of either."""
    work, room = len(numbers), 4 * len(document.rectangles(points_of(numbers)))
    short = [(work - 1, room), (work, max(0, room - 1))] if chance.randrange(SELDOM) == 0 else []
    return [call("forward", read(numbers), lent_any(chance, w), lent(r)) for w, r in [(work, room), *short]]


def repeated_groups():
    """Arrays by chance in which points are listed more than once: forward, and steps, which refuse them."""
    chance = Random(SEED)
    for _ in range(REPEATED_FORWARD):
        yield tight_group(chance, repeating_points(chance))
    for _ in range(REPEATED_STEP):
        yield steps_of(chance, repeating_points(chance))


def listing_groups():
    """Every array that lists each point of a grid of 2 by 3 up to three times, in an order by chance."""
    chance = Random(SEED)
    grid = [(x, y) for x in range(2) for y in range(3)]
    for times in product(range(4), repeat=len(grid)):
        numbers = numbers_of(shuffled(chance, [point for point, count in zip(grid, times) for _ in range(count)]))
        yield [call("forward", read(numbers), lent(len(numbers) + 1), lent(9))]


# ---- Large arrays

LARGE_SHAPES = (
    (cells, 1024, 7),
    (cells, 1024, 5),
    (comb, 1023, 30),
    (crossing, 1020, 60),
    (crossing, 1024, 2000),
    (stairs, 300, 0),
    (bars, 140, 0),
    (rings, 400, 0),
    (rings, 1024, 0),
    (diamond, 70, 0),
    (checkerboard, 1500, 0),
    (cells, 1025, 7),
)
LARGE_MEETING = ((checkerboard, 1024, 0), (pads, 1020, 0), (crossing, 1024, 12))
MIDDLING = 50


def large_groups():
    """Arrays of up to 4,096 points and of 16,384 rectangles, and some over these."""
    chance = Random(SEED)
    for shape, count, grid in LARGE_SHAPES:
        numbers = numbers_of(shuffled(chance, odd_corners(shape(chance, count, grid), near_zero)))
        yield forward_group(chance, numbers)
        yield steps_of(chance, numbers, 2)
    for shape, count, grid in LARGE_MEETING:
        numbers = numbers_of(shuffled(chance, all_corners(shape(chance, count, grid), near_zero)))
        yield tight_group(chance, numbers)
        yield steps_of(chance, numbers, 1)
    for i in range(MIDDLING):
        boxes = SHAPES[i % len(SHAPES)](chance, chance.randint(30, 90), 40)
        yield forward_group(chance, often_damaged(chance, numbers_of(shuffled(chance, odd_corners(boxes, near_zero)))))
        yield backward_group(chance, often_damaged(chance, numbers_of(placed_rects(boxes, near_zero))))
    for count, grid in ((MOST_RECTS, 60), (MOST_RECTS, 5000), (MOST_RECTS + 1, 60), (3000, 60)):
        yield backward_group(chance, numbers_of(placed_rects(crossing(chance, count, grid), near_zero)))
