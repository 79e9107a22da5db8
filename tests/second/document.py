"""Document 01's forward, step and backward, and what document 02 changes of them, written from their words; nothing here is taken from the
library.

Arrays are sequences of numbers. A lent one is a list, and is changed as the document's memory paragraph says. Each function returns its
answer. The refusals of a call are all rows of the table whose condition holds of it, each judged by itself, in the function's order: the
first of them is the answer.
"""

from bisect import bisect_left, insort
from collections import Counter
from functools import lru_cache
from itertools import accumulate, islice, pairwise

LOWEST, HIGHEST = -1_000_000_000, 1_000_000_000
MOST_POINTS = 4096
MOST_RECTS = 16384

NAMES = (
    *("done", "LENGTH", "MANY", "WORK", "RANGE", "REPEATED", "ROW", "COLUMN", "ROOM", "FLAT", "DRAINED", "TEXT"),
    *("TRUNCATED", "RECORD", "OPEN", "SLANTED", "ABSENT", "OVERLAP"),
)
DONE, LENGTH, MANY, WORK, RANGE, REPEATED, ROW, COLUMN, ROOM, FLAT, DRAINED, TEXT, *STREAM_NUMBERS = range(len(NAMES))
TRUNCATED, RECORD, OPEN, SLANTED, ABSENT, OVERLAP = STREAM_NUMBERS
FORWARD_ORDER = (LENGTH, MANY, WORK, RANGE, ROW, COLUMN, ROOM)
BACKWARD_ORDER = (LENGTH, MANY, FLAT, RANGE, ROOM)
STEP_ORDER = (MANY, WORK, DRAINED, RANGE, REPEATED, ROW, COLUMN)
# Of the first four the first that is met in the stream.
READ_GDSII_ORDER = (TRUNCATED, RECORD, OPEN, SLANTED, ABSENT, MANY, RANGE, OVERLAP, ROOM)


# ---- Words


def points_of(numbers):
    """The whole points of an array: x then y, point after point."""
    return tuple(zip(numbers[0::2], numbers[1::2]))


def rects_of(numbers):
    """The whole rectangles of an array: X, Y, W, H, rectangle after rectangle."""
    return tuple(zip(numbers[0::4], numbers[1::4], numbers[2::4], numbers[3::4]))


def numbers_of(items):
    """The numbers of points or rectangles, one after the other."""
    return [number for item in items for number in item]


def in_range(x, y):
    """Whether both coordinates are from -1,000,000,000 to 1,000,000,000."""
    return LOWEST <= x <= HIGHEST and LOWEST <= y <= HIGHEST


def odd(count):
    """Whether a count is odd."""
    return count % 2 == 1


# ---- The points that remain: document 02, request 2


def remaining(points):
    """The points that are listed an odd number of times, each once, where it is first listed."""
    return tuple(point for point, times in Counter(points).items() if odd(times))


# ---- The forward rule


class Rows:
    """The points that are left: the y of their rows, lowest first, and the x of each row's points, leftmost first."""

    def __init__(self, points):
        self.row = {}
        for x, y in points:
            self.row.setdefault(y, []).append(x)
        for row in self.row.values():
            row.sort()
        self.heights = sorted(self.row)

    def toggle(self, x, y):
        """Toggling a present point removes it; an absent one is added."""
        if y not in self.row:
            self.row[y] = []
            insort(self.heights, y)
        row = self.row[y]
        i = bisect_left(row, x)
        if row[i : i + 1] == [x]:
            del row[i]
        else:
            row.insert(i, x)
        if not row:
            del self.row[y]
            self.heights.remove(y)

    def stops(self, y, x_k, x_l):
        """Whether a row has a point with xK <= x < xL, or an odd number of points with x < xK."""
        left_of_k, left_of_l = bisect_left(self.row[y], x_k), bisect_left(self.row[y], x_l)
        return left_of_l > left_of_k or odd(left_of_k)

    def rectangle(self):
        """The rectangle of the next step, from K, L and the stop row M; None where no points are left, or where there is no L or no M."""
        if not self.heights or len(self.row[self.heights[0]]) < 2:
            return None
        y_k = self.heights[0]
        x_k, x_l = self.row[y_k][:2]
        for m in islice(self.heights, 1, None):
            if self.stops(m, x_k, x_l):
                return x_k, y_k, x_l - x_k, m - y_k
        return None


def toggled(rect):
    """The four points that a step toggles, in their order: K, L, (xK, M), (xL, M)."""
    x, y, w, h = rect
    return (x, y), (x + w, y), (x, y + h), (x + w, y + h)


@lru_cache(maxsize=8)
def rectangles(points):
    """Forward's list: the rule begins with the points that remain. Of points that are not accepted it is what the rule gives for as long as there
    are an L and an M."""
    rows, made = Rows(remaining(points)), []
    while (rect := rows.rectangle()) is not None:
        made.append(rect)
        for x, y in toggled(rect):
            rows.toggle(x, y)
    return made


def toggle_by_place(work, count, point):
    """Toggles a point among the first `count` of a working array. Gives the new count."""
    held = points_of(work[: 2 * count])
    if point not in held:
        work[2 * count : 2 * count + 2] = point
        return count + 1
    place, last = held.index(point), count - 1
    work[2 * place : 2 * place + 2] = held[last]
    work[2 * last : 2 * last + 2] = (0, 0)
    return last


# ---- The edge: document 02, request 1


@lru_cache(maxsize=8)
def outline_length(points):
    """The number of unit sides with a marked cell on exactly one side. The columns and rows of the points cut the plane into blocks, whose cells
    are marked together; beyond the first and the last of them no cell is marked. Block by block, the unit sides of a block's lower and left side
    count if it is marked and its neighbour is not, or the other way round."""
    columns, rows = sorted({x for x, _ in points}), sorted({y for _, y in points})
    widths, heights = [b - a for a, b in pairwise(columns)], [*(b - a for a, b in pairwise(rows)), 0]
    given = Counter(points)
    at_or_below, below, length = [0] * len(columns), [False] * len(columns), 0
    for y, height in zip(rows, heights):
        at_or_left = accumulate(given[x, y] for x in columns)
        at_or_below = [count + more for count, more in zip(at_or_below, at_or_left)]
        marked = [odd(count) for count in at_or_below]
        length += sum(width for width, one, other in zip(widths, below, marked) if one != other)
        length += height * sum(one != other for one, other in zip([False, *marked], marked))
        below = marked
    return length


# ---- The backward rule


@lru_cache(maxsize=8)
def corners(rects):
    """Every point that is a corner of an odd number of rectangles, in order of y, then x."""
    counts = Counter()
    for x, y, w, h in rects:
        counts.update({(y, x), (y, x + w), (y + h, x), (y + h, x + w)})
    return [(x, y) for (y, x), count in sorted(counts.items()) if odd(count)]


# ---- The refusals


def first_place(offends):
    """The first place at which something offends."""
    return next((place for place, bad in enumerate(offends) if bad), None)


def repetitions(points):
    """For each point whether it is equal to an earlier one."""
    earlier = set()
    for point in points:
        yield point in earlier
        earlier.add(point)


def on_odd_lines(coordinates):
    """For each point, of which one coordinate is given, whether an odd number of points have the same."""
    odd_lines = {coordinate for coordinate, count in Counter(coordinates).items() if odd(count)}
    return (coordinate in odd_lines for coordinate in coordinates)


def placed(number, place):
    """A refusal at a place, or none where there is no such place."""
    return [] if place is None else [(number, place)]


def range_refusals(points):
    """RANGE, where a point is out of range."""
    yield from placed(RANGE, first_place(not in_range(x, y) for x, y in points))


def line_refusals(points):
    """ROW and COLUMN, where a row or a column has an odd count."""
    yield from placed(ROW, first_place(on_odd_lines([y for _, y in points])))
    yield from placed(COLUMN, first_place(on_odd_lines([x for x, _ in points])))


def refusals_of_points(points):
    """The rows of the table that speak of forward's points themselves, as they are given."""
    yield from range_refusals(points)
    yield from line_refusals(points)


def refusals_of_held(points):
    """The rows of the table that speak of the points that a step finds in its working array: none of these may be repeated."""
    yield from range_refusals(points)
    yield from placed(REPEATED, first_place(repetitions(points)))
    yield from line_refusals(points)


def forward_refusals(points, work, rects):
    """The refusals of a forward call, with their places."""
    given = points_of(points)
    if len(points) % 2 != 0:
        yield LENGTH, 0
    if len(given) > MOST_POINTS:
        yield MANY, 0
    if len(work) < 2 * len(given):
        yield WORK, 0
    yield from refusals_of_points(given)
    needed = len(rectangles(given))
    if needed > len(rects) // 4:
        yield ROOM, needed


def step_refusals(work, count):
    """The refusals of a step, with their places."""
    if count > MOST_POINTS:
        yield MANY, 0
    if len(work) < 2 * count:
        yield WORK, 0
    if count == 0:
        yield DRAINED, 0
    yield from refusals_of_held(points_of(work[: 2 * count]))


def backward_refusals(rects, points):
    """The refusals of a backward call, with their places."""
    given = rects_of(rects)
    if len(rects) % 4 != 0:
        yield LENGTH, 0
    if len(given) > MOST_RECTS:
        yield MANY, 0
    yield from placed(FLAT, first_place(w < 1 or h < 1 for _, _, w, h in given))
    yield from placed(RANGE, first_place(not (in_range(x, y) and in_range(x + w, y + h)) for x, y, w, h in given))
    needed = len(corners(given))
    if needed > len(points) // 2:
        yield ROOM, needed


# ---- What comes back


def forward(points, work, rects):
    """Forward: answer, place, count of rectangles, area and edge. The working array has two zeros per point given, whether it remains or not."""
    answer, place = next(forward_refusals(points, work, rects), (DONE, 0))
    if answer in (DONE, ROOM):
        work[: len(points)] = [0] * len(points)
    if answer != DONE:
        return answer, place, 0, 0, 0
    given = points_of(points)
    made = rectangles(given)
    rects[: 4 * len(made)] = numbers_of(made)
    return DONE, 0, len(made), sum(w * h for _, _, w, h in made), outline_length(remaining(given))


def step(work, count):
    """One step: answer, place, and the new count with the rectangle, or 0 with None."""
    answer, place = next(step_refusals(work, count), (DONE, 0))
    if answer != DONE:
        return answer, place, 0, None
    rect = Rows(points_of(work[: 2 * count])).rectangle()
    for point in toggled(rect):
        count = toggle_by_place(work, count, point)
    return DONE, 0, count, rect


def backward(rects, points):
    """Backward: answer, place and count of points."""
    answer, place = next(backward_refusals(rects, points), (DONE, 0))
    if answer != DONE:
        return answer, place, 0
    found = corners(rects_of(rects))
    points[: 2 * len(found)] = numbers_of(found)
    return DONE, 0, len(found)
