"""The arrays that the comparison runs on: families of points that forward accepts, arrays of 4,096 points that a step refuses, and mostly
forward too, and families of rectangles, for the stack that backward uses on them.

Every array is made from its name and size alone. The points of a family stand in no order; ORDERS has others, in which a sort may go
deeper.
"""

import random

# The most points that forward takes.
MOST = 4096


def box(x, y, w, h):
    """The corners of a rectangle."""
    return [(x, y), (x + w, y), (x, y + h), (x + w, y + h)]


def odd_ones(points):
    """The points that are given an odd number of times."""
    left = set()
    for point in points:
        left ^= {point}
    return sorted(left)


def outline(cells):
    """The points that mark a set of cells."""
    return odd_ones(point for a, b in cells for point in box(a, b, 1, 1))


def stretched(points, rng):
    """The same shape with its rows and columns at uneven distances."""

    def spread(numbers):
        place, places = -1000, {}
        for number in sorted(set(numbers)):
            place += rng.randint(1, 40)
            places[number] = place
        return places

    xs, ys = spread(x for x, _ in points), spread(y for _, y in points)
    return [(xs[x], ys[y]) for x, y in points]


def largest(n, shape, rng):
    """The largest of growing shapes with at most n points."""
    size, last = 3, []
    while True:
        points = outline(shape(size))
        if len(points) > n:
            return stretched(last, rng)
        size, last = size + 1, points


def rects(n, rng):
    """Rectangles at random, none touching another, each in a square of its own."""
    count, side = n // 4, 1
    while side * side < 2 * count:
        side += 1
    squares = rng.sample([(i, j) for i in range(side) for j in range(side)], count)
    boxes = [box(100 * i + rng.randint(0, 30), 100 * j + rng.randint(0, 30), rng.randint(5, 65), rng.randint(5, 65)) for i, j in squares]
    return sum(boxes, [])


def comb(n, _):
    """A comb: one outline, with all tips of its teeth on one row."""
    teeth = n // 4
    points = [(0, 0), (20 * teeth - 10, 0)]
    for i in range(teeth):
        points += [(20 * i, 500), (20 * i + 10, 500)]
        points += [(20 * i - 10, 50), (20 * i, 50)] if i else []
    return points


def stair(n, _):
    """A staircase: one outline."""
    steps = n // 2 - 1
    points = [(0, 0), (10 * steps, 0)]
    for i in range(steps):
        points += [(10 * i, 10 * (steps - i)), (10 * (i + 1), 10 * (steps - i))]
    return odd_ones(points)


def rings(n, rng):
    """A field of square rings."""
    count = n // 8
    side = int(count**0.5 + 0.999999)
    points = []
    for t in range(count):
        x, y = 100 * (t % side), 100 * (t // side)
        w, d = rng.randint(20, 80), rng.randint(2, 9)
        points += box(x, y, w, w) + box(x + d, y + d, w - 2 * d, w - 2 * d)
    return points


def manhattan(n, rng):
    """The outline of a maze's way, one right-angled polygon."""

    def maze(size):
        cells, path = {(0, 0)}, [(0, 0)]
        while path:
            x, y = path[-1]
            ways = [(dx, dy) for dx, dy in ((2, 0), (-2, 0), (0, 2), (0, -2)) if 0 <= x + dx < 2 * size and 0 <= y + dy < 2 * size and (x + dx, y + dy) not in cells]
            if not ways:
                path.pop()
                continue
            dx, dy = rng.choice(ways)
            cells |= {(x + dx // 2, y + dy // 2), (x + dx, y + dy)}
            path.append((x + dx, y + dy))
        return cells

    return largest(n, maze, rng)


def noise(n, rng):
    """Cells at random, one in two."""
    return largest(n, lambda size: {(i, j) for i in range(size) for j in range(size) if rng.random() < 0.5}, rng)


def tall_bars(n, _):
    """Bars side by side, every lower end below every upper end, all on rows of their own."""
    bars = n // 4
    return sum((box(20 * i, i, 10, 2 * bars) for i in range(bars)), [])


def crossing_bars(n, _):
    """As many upright bars as level ones, each crossing all of the others: about n * n / 32 rectangles."""
    bars = n // 8
    upright = [box(20 * i + 5, 0, 10, 20 * bars) for i in range(bars)]
    level = [box(-5, 20 * i + 5, 20 * bars + 10, 10) for i in range(bars)]
    return sum(upright + level, [])


def diamond(n, _):
    """Rows that widen and narrow again: n * n / 16 rectangles, the most that were found."""
    half = n // 4
    widens = [[(-10 * (i + 1), 10 * i), (10 * (i + 1), 10 * i)] for i in range(half)]
    narrows = [[(-10 * (half - i), 10 * (half + i)), (10 * (half - i), 10 * (half + i))] for i in range(half)]
    return sum(widens + narrows, [])


def about(x, y, count, rng):
    """Rectangles about a point, so many of the four that can have it for a corner."""
    sides = [(rng.randint(1, 4), rng.randint(1, 4)) for _ in range(count)]
    quarters = rng.sample([(0, 0), (1, 0), (0, 1), (1, 1)], count)
    return [box(x - left * w, y - below * h, w, h) for (left, below), (w, h) in zip(quarters, sides)]


def touching_pads(n, rng):
    """A chessboard of pads, and beside it points about which two, three or four pads meet. Each pad lists its four corners, so that a corner is
    listed as often as pads meet there, on the board twice."""
    meetings = 3 * max(1, n // 128)
    count, side = n // 4 - 3 * meetings, 1
    while side * side < 2 * count:
        side += 1
    board = [(i, j) for j in range(side) for i in range(side) if (i + j) % 2 == 0]
    pads = [box(i, j, 1, 1) for i, j in board[:count]]
    for i in range(meetings):
        pads += about(side + 10 * (i % 9 + 1), 10 * (i // 9), 2 + i % 3, rng)
    return stretched(sum(pads, []), rng)


FAMILIES = {
    family.__name__: family
    for family in (rects, comb, stair, rings, manhattan, noise, tall_bars, crossing_bars, diamond, touching_pads)
}


def family(name, n):
    """An array of the family with about n points, and not more."""
    rng = random.Random(f"{name} {n}")
    points = FAMILIES[name](n, rng)
    rng.shuffle(points)
    return points


def repeated_last(rng):
    """The last point equal to the first, in the place of another one, whose row it leaves odd."""
    points = family("rects", MOST)
    rng.shuffle(points)
    return points[:-1] + points[:1]


def all_twice(_):
    """Every point twice, the second time in another order."""
    points = family("rects", MOST // 2)
    return [*points, *reversed(points)]


def odd_line_last(name, line):
    """A family with one point moved out of its column (line 0) or off its row (line 1), and all that this makes odd at the end."""
    points = family(name, MOST)
    moved = points[0]
    away = list(moved)
    away[line] = max(point[line] for point in points) + 1
    odd = [point for point in points[1:] if point[line] == moved[line]]
    even = [point for point in points[1:] if point[line] != moved[line]]
    return [*even, *odd, tuple(away)]


def one_row(_):
    """All points on one row."""
    return [(x, 0) for x in range(MOST)]


def one_point(_):
    """All points the same."""
    return [(0, 0)] * MOST


def equal_but_last(_):
    """One point again and again, and last one that comes before it: no split parts equal points, so that the heap takes over at full depth."""
    return [(1, 1)] * (MOST - 1) + [(0, 0)]


def bad_order(count):
    """Numbers in an order in which the middle of three is, at each split, nearly the least of all, as long as the sort splits."""
    places, numbers = list(range(count)), [0] * count
    for number in range(count):
        n = len(places)
        at = sorted({n // 4, n // 2, n - 1 - n // 4})[0] if n > 2 else 0
        numbers[places.pop(at)] = number
    return numbers


def splits_badly(_):
    """Points on a line, in a bad order."""
    return [(x, x) for x in bad_order(MOST)]


# The arrays by name, and forward's answer and a step's to each: REPEATED, which comes from a step alone, ROW or COLUMN. Where all points cancel,
# forward accepts them, with an empty list.
REFUSED = {
    "repeated_last": (repeated_last, 6, 5),
    "odd_row_last": (lambda _: odd_line_last("stair", 1), 6, 6),
    "odd_column_last": (lambda _: odd_line_last("stair", 0), 7, 7),
    "odd_column_last_of_bars": (lambda _: odd_line_last("tall_bars", 0), 7, 7),
    "one_row": (one_row, 7, 7),
    "one_point": (one_point, 0, 5),
    "all_twice": (all_twice, 0, 5),
    "equal_but_last": (equal_but_last, 6, 5),
    "splits_badly": (splits_badly, 6, 6),
}


def refused(name):
    """An array of 4,096 points that a step refuses."""
    return REFUSED[name][0](random.Random(name))


# The orders of a family's points beside its own, by row and by column.
ORDERS = {
    "rising": lambda points: sorted(points, key=lambda point: (point[1], point[0])),
    "falling": lambda points: sorted(points, key=lambda point: (-point[1], -point[0])),
    "rising_by_column": sorted,
    "falling_by_column": lambda points: sorted(points, reverse=True),
}


def in_a_row(numbers):
    """A square for each number, the greater the further up."""
    return [(3 * number, 3 * number, 2, 2) for number in numbers]


def any_rectangle(rng):
    """A rectangle at random."""
    return rng.randint(-9999, 9999), rng.randint(-9999, 9999), rng.randint(1, 99), rng.randint(1, 99)


# Families of rectangles: each makes a number of them.
RECTANGLES = {
    "any": lambda count, rng: [any_rectangle(rng) for _ in range(count)],
    "equal": lambda count, _: [(0, 0, 1, 1)] * count,
    "seven_in_turn": lambda count, _: in_a_row(i % 7 for i in range(count)),
    "rising": lambda count, _: in_a_row(range(count)),
    "falling": lambda count, _: in_a_row(reversed(range(count))),
    "up_and_down": lambda count, _: in_a_row(min(i, count - i) for i in range(count)),
    "split_badly": lambda count, _: in_a_row(bad_order(count)),
}


def rectangles(name, count):
    """So many rectangles of the family."""
    return RECTANGLES[name](count, random.Random(f"{name} {count}"))
