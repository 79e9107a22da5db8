"""The stream files that are compared, for what stands in them: two faults at once, names, layers and shapes, and files by chance, from a fixed
seed. record_families.py has those for the form and the order of records.

Each family is a function that gives groups: the calls that are made with one file. Where the family knows what must come of it, that is
stated with the call, and gdsii.py must say the same.
"""

from itertools import chain, groupby, permutations, product
from random import Random

from document import ABSENT, HIGHEST, LOWEST, MANY, MOST_POINTS, OPEN, OVERLAP, RANGE, READ_GDSII_ORDER, RECORD, ROOM, SLANTED, TRUNCATED
from families import HIGHEST_I32, LOWEST_I32, SCALES, SEED
from gdsii import DATA, MOST_DATA, STRING, TYPES, corners_of
from record_families import EVERYTHING
from streams import ASKED, END, LAYER, OTHER, PLENTY, SQUARE, START, asked_for, boundary, box, handed, library, node, padded, path, place_of
from streams import raw, reading, record, reference, refused, sampled, structure, text, vertex_list

# ---- Two faults at once


def pad(x, y, side=3):
    """The vertices of a square."""
    return [(x, y), (x + side, y), (x + side, y + side), (x, y + side), (x, y)]


def teeth(corners, x=0, y=0):
    """The vertices of a comb that has so many corners, an even number from six on."""
    above = [(x + (i + 1) // 2, y + 1 + i // 2 % 2) for i in range(corners - 2)]
    return [(above[-1][0], y), (x, y), *above, (above[-1][0], y)]


OPEN_LIST, SLANTED_LIST = [(0, 0), (0, 1), (1, 1), (1, 0)], [(0, 0), (5, 5), (0, 5), (0, 0)]
GOOD = boundary(pad(0, 0))
UNKNOWN = [raw(60, 0)]
CUT = [*boundary([])[:3], record("XY", vertex_list(pad(0, 0)))[:14]]
# Elements with a fault that is met at a record, and which record of theirs that is.
MET = {RECORD: (path([(0, 0), (9, 0)]), 0), OPEN: (boundary(OPEN_LIST), 3), SLANTED: (boundary(SLANTED_LIST), 3), TRUNCATED: (CUT, 3)}
# Boundaries with a fault that shows when all are read.
LATER = {MANY: [teeth(MOST_POINTS + 2, 0, 1000)], RANGE: [pad(HIGHEST - 1, 20)], OVERLAP: [pad(100, 100), pad(102, 102)], ROOM: [pad(0, 50)]}


def assembled(elements):
    """A file with a structure of these elements. After a record that is cut nothing comes."""
    begun = [*START, record("BGNSTR"), record("STRNAME", ASKED), *chain.from_iterable(elements)]
    return begun if elements[-1] == CUT else [*begun, record("ENDSTR"), *END]


def met_at(elements, number):
    """What is stated of a file in which this fault is met first."""
    element, offset = MET[number]
    before = elements[: elements.index(element)]
    return refused(number, place_of(assembled(elements), len(START) + 2 + sum(map(len, before)) + offset))


def room_for(*numbers):
    """The room for corners: none, where ROOM is wanted."""
    return 0 if ROOM in numbers else PLENTY


def fault_files():
    """Any two faults in one file, in both orders, so far as there can be something after the first."""
    for first, second in permutations(MET, 2):
        if first != TRUNCATED:
            elements = [GOOD, MET[first][0], MET[second][0]]
            yield [reading(assembled(elements), met_at(elements, first))]
    for number, later in product(MET, LATER):
        some = [boundary(vertices) for vertices in LATER[later]]
        for elements in ([*some, MET[number][0]], [MET[number][0], *([] if number == TRUNCATED else some)]):
            yield [reading(assembled(elements), met_at(elements, number), room=room_for(later))]
    for pair in permutations(LATER, 2):
        lists = [pad(0, 0), *LATER[pair[0]], *LATER[pair[1]]]
        answer = min(pair, key=READ_GDSII_ORDER.index)
        place = 1 + sum(len(one) - 1 for one in lists[: lists.index(LATER[RANGE][0])]) if answer == RANGE else 0
        yield [reading(assembled(list(map(boundary, lists))), refused(answer, place), room=room_for(*pair))]
    yield from absent_files()
    yield from one_record_files()


def absent_files():
    """Where the structure is absent, a boundary or a path is no fault; a record that is bad or cut still is."""
    for element in (MET[RECORD][0], MET[OPEN][0], MET[SLANTED][0], *(boundary(lists[0]) for lists in LATER.values())):
        yield [reading(assembled([GOOD, element]), refused(ABSENT, 0), b"NONE", room=0)]
    for answer, element, offset in ((RECORD, UNKNOWN, 0), (TRUNCATED, CUT, 3)):
        stream = assembled([GOOD, element])
        yield [reading(stream, refused(answer, place_of(stream, len(START) + 2 + len(GOOD) + offset)), b"NONE", room=0)]


def one_record_files():
    """XY records with two faults: of the form first, then OPEN, then SLANTED."""
    open_and_slanted = vertex_list([(0, 0), (5, 5), (0, 5)])
    for data, answer in ((open_and_slanted, OPEN), (open_and_slanted[:-4], RECORD), (vertex_list(SLANTED_LIST), SLANTED)):
        for byte in (3, 2):
            stream = assembled([[*GOOD[:3], raw(TYPES.index("XY"), byte, data), GOOD[4]]])
            yield [reading(stream, refused(answer if byte == 3 else RECORD, place_of(stream, len(START) + 5)))]


# ---- Names and structures

NAMES = (
    *(b"", b"\0", b"\0\0", b"A", b"A\0", b"A\0\0\0", b"AB", b"AB\0", b"AB\0\0", b"BA", b"ab", b"A ", b" A", b"A\0B", b"A\0B\0", b"\0A"),
    *(b"ABC", b"ABCD", b"PADS", b"PADS$1", b"\xff\xfe", b"N" * 32, b"N" * 33, b"N" * 44 + b"\0" * 6),
)
# Elements that are a fault in the structure that is read, and which record of theirs is; and such as are one in any structure.
ONLY_WHERE_READ = (
    *((RECORD, 0, element) for element in (path([(0, 0), (9, 0)]), path([(0, 0)], 7), reference(b"CELL", (0, 0)))),
    (RECORD, 0, sampled(("AREF", "SNAME", "COLROW", "XY", "ENDEL"))),
    (OPEN, 3, boundary(OPEN_LIST)),
    (OPEN, 3, boundary([])),
    (SLANTED, 3, boundary(SLANTED_LIST)),
)
EVERYWHERE = (
    (RECORD, 0, UNKNOWN),
    (RECORD, 0, sampled(("ENDLIB",))),
    (RECORD, 1, [record("BOUNDARY"), raw(TYPES.index("LAYER"), 2, bytes(4))]),
)


def name_files():
    """Names with and without padding: the structure's, and the one that is asked for."""
    for given, asked in product(NAMES, repeat=2):
        same = given.rstrip(b"\0") == asked.rstrip(b"\0")
        yield [reading(library(structure(padded(given), GOOD)), handed(pad(0, 0)[:4]) if same else refused(ABSENT, 0), asked)]


def structure_files():
    """Several structures: the first of the name is read."""
    for names in product((b"AB", b"BA", b"AB\0\0"), repeat=3):
        lists = [pad(10 * i, 0) for i in range(len(names))]
        stream = library(*(structure(name, boundary(vertices)) for name, vertices in zip(names, lists)))
        for asked in (b"AB", b"BA", b"B"):
            found = [vertices[:4] for name, vertices in zip(names, lists) if name.rstrip(b"\0") == asked]
            yield [reading(stream, handed(found[0]) if found else refused(ABSENT, 0), asked)]
    yield [reading(library(), refused(ABSENT, 0))]
    yield [reading(library(structure(ASKED)), handed([]))]
    yield from faulty_structure_files()


def faulty_structure_files():
    """Four structures, two of them of the name that is asked for, and a fault in one: where the second is read, and where none is."""
    for fault, at, asked in product((*ONLY_WHERE_READ, *EVERYWHERE), range(4), (ASKED, b"NONE")):
        answer, offset, element = fault
        parts = [[GOOD, element] if i == at else [GOOD] for i in range(4)]
        stream = library(*(structure(name, *some) for name, some in zip((OTHER, ASKED, ASKED, OTHER), parts)))
        stated = handed(pad(0, 0)[:4]) if asked == ASKED else refused(ABSENT, 0)
        if fault in EVERYWHERE or (at == 1 and asked == ASKED):
            stated = refused(answer, place_of(stream, len(START) + (3 + len(GOOD)) * at + 2 + len(GOOD) + offset))
        yield [reading(stream, stated, asked)]


# ---- Layers

LAYERS = (-32_768, -32_767, -256, -1, 0, 1, 255, 256, 32_767)
ASKED_LAYERS = (*LAYERS, LOWEST_I32, -65_537, -65_536, -65_535, -32_769, 32_768, 65_535, 65_536, 65_537, 2**16 - 32_768, HIGHEST_I32)
MIXED = 400


def layer_files():
    """A layer in the file, and another or the same that is asked for: one of the two has a sign and two bytes, the other four."""
    for given, asked in product(LAYERS, ASKED_LAYERS):
        stream = asked_for(boundary(pad(0, 0), given), boundary(pad(5, 5), 77))
        yield [reading(stream, handed(pad(0, 0)[:4] if given == asked else []), layer=asked)]
    chance = Random(SEED)
    for _ in range(MIXED):
        elements, found = [], []
        for i in range(chance.randint(1, 6)):
            make, layer, vertices = chance.choice((boundary, boundary, box, node, worded)), chance.choice((1, 1, 2)), pad(5 * i, 0)
            elements.append(make(vertices, layer))
            found += vertices[:4] if make is boundary and layer == LAYER else []
        yield [reading(asked_for(*elements), handed(found))]


def worded(vertices, layer):
    """A text with the vertices of a shape."""
    return text(vertices, b"NO SHAPE", layer)


# ---- Shapes

# Closed paths that turn at each of their vertices.
RINGS = (
    SQUARE,
    ((0, 0), (0, 2), (2, 2), (2, 4), (4, 4), (4, 0)),
    ((0, 0), (0, 4), (4, 4), (4, 0), (3, 0), (3, 3), (1, 3), (1, 0)),
    # Around a hole, with a seam.
    ((0, 0), (4, 0), (4, 4), (0, 4), (0, 1), (1, 1), (1, 3), (3, 3), (3, 1), (0, 1)),
    # Two squares that meet at a corner.
    ((0, 0), (2, 0), (2, 2), (4, 2), (4, 4), (2, 4), (2, 2), (0, 2)),
    # It crosses itself, and goes around some cells twice.
    ((0, 0), (4, 0), (4, 3), (1, 3), (1, 1), (3, 1), (3, 4), (0, 4)),
    # Twice around a square.
    (*SQUARE, *SQUARE),
)
A, B, C, D = SQUARE
# Lists, and the corners of those that are closed and have no slanted edge.
LISTS = (
    ((), OPEN),
    ((A,), ()),
    ((A, A), ()),
    ((A, A, A, A, A), ()),
    ((A, B), OPEN),
    ((A, C), OPEN),
    ((A, B, A), ()),
    ((A, A, B, B, A, A), ()),
    ((A, B, A, B, A), ()),
    ((A, D, A, B, A), (A, A)),
    ((A, B, C, B, A), (B, B)),
    ((A, C, A), SLANTED),
    ((A, C, B), OPEN),
    ((A, B, C, A), SLANTED),
    ((A, B, C, D), OPEN),
    ((A, B, C, D, A), (A, B, C, D)),
    ((D, C, B, A, D), (D, C, B, A)),
    ((A, A, B, C, C, C, D, A, A), (A, B, C, D)),
    (((2, 0), A, B, C, D, (2, 0)), (A, B, C, D)),
    (((2, 0), (2, 0), A, B, C, D, (3, 0), (2, 0)), (A, B, C, D)),
    ((A, (0, 1), (0, 2), B, C, D, A), (A, B, C, D)),
    ((A, (0, 5), B, C, D, A), (A, B, C, D)),
    ((A, B, C, D, (-2, 0), A), (A, B, C, D)),
    ((A, B, C, D, A, B, C, D, A), (A, B, C, D, A, B, C, D)),
    ((A, B, C, D, A, B, A), (B, C, D, A)),
    ((A, B, C, D, A, D, A), (A, B, C, D)),
    ((A, (HIGHEST_I32, 0), (LOWEST_I32, 0), A), ()),
    ((A, (0, LOWEST_I32), (0, HIGHEST_I32), B, C, D, A), (A, B, C, D)),
    (((LOWEST_I32, 0), (HIGHEST_I32, 0), (HIGHEST_I32, 1), (LOWEST_I32, 0)), SLANTED),
)
DECORATED = 1500
FARTHEST = 2 * HIGHEST
ENDS = (0, HIGHEST - 40, LOWEST + 40)


def within(number):
    """A number of 32 bits: itself, or the nearest."""
    return max(LOWEST_I32, min(HIGHEST_I32, number))


def beyond(x, y, step_x, step_y, far):
    """The point that is so far from another in a direction, or as far as there are numbers."""
    return within(x + far * step_x), within(y + far * step_y)


def decorated_edge(chance, start, end):
    """The vertices along an edge but its end, each with whether it is a corner. On the edge and beyond it there is none, so that a tip may be out of
    range; at the foot of a spike that stands on the edge there are two."""
    step_x, step_y = ((b > a) - (b < a) for a, b in zip(start, end))
    far, foot = chance.choice((1, 2, 60, FARTHEST)), (end[0] - step_x, end[1] - step_y)
    more = (
        (),
        ((foot, False),),
        ((beyond(*end, step_x, step_y, far), False),),
        ((end, False), (beyond(*end, step_x, step_y, far), False)),
        ((foot, True), (beyond(*foot, step_y, -step_x, far), False), (foot, True)),
    )
    return (start, True), *chance.choice(more[: 4 if foot == start else 5])


def decorated(chance, ring):
    """The list of a ring with such vertices, from any of them on, with equal neighbours; and its corners."""
    path_of = [one for start, end in zip(ring, (*ring[1:], ring[0])) for one in decorated_edge(chance, start, end)]
    at = chance.randrange(len(path_of))
    turned = merged([*path_of[at:], *path_of[:at]])
    closed = [vertex for vertex, _ in turned] + [turned[0][0]]
    return [vertex for vertex in closed for _ in range(chance.choice((1, 1, 1, 2, 3)))], [vertex for vertex, is_corner in turned if is_corner]


def merged(flagged):
    """Equal neighbours as one vertex, also over the seam, where it is the first: it is a corner if one of them is."""
    runs = [[vertex, any(flag for _, flag in run)] for vertex, run in groupby(flagged, key=lambda one: one[0])]
    if len(runs) > 1 and runs[0][0] == runs[-1][0]:
        _, flag = runs.pop()
        runs[0][1] |= flag
    return runs


def moved(points, x, y):
    """Points, moved."""
    return [(a + x, b + y) for a, b in points]


def shape_files():
    """Lists of all kinds with their corners, and paths with vertices that are no corners."""
    for vertices, found in LISTS:
        if isinstance(found, int):
            stream = asked_for(GOOD, boundary(vertices))
            yield [reading(stream, refused(found, place_of(stream, len(START) + 2 + len(GOOD) + 3)))]
            yield [reading(asked_for(boundary(vertices, 2), GOOD), handed(pad(0, 0)[:4]))]
        else:
            yield [reading(asked_for(boundary(vertices)), handed(found), room=room) for room in (PLENTY, 2 * len(found))]
    chance = Random(SEED)
    for _ in range(DECORATED):
        end, elements, found = chance.choice(ENDS), [], []
        for i in range(chance.choice((1, 1, 1, 2, 3))):
            vertices, corners = decorated(chance, moved(chance.choice(RINGS), end + 6 * i, chance.choice(ENDS)))
            elements.append(boundary(vertices))
            found += corners
        yield [reading(asked_for(*elements), handed(found))]


def room_files():
    """Rooms of every length about what is needed."""
    for count in range(4):
        lists = [moved(RINGS[i], 6 * i, 0) for i in range(count)]
        found = [corner for one in lists for corner in one]
        stream = asked_for(*(boundary([*one, one[0]]) for one in lists))
        for room in range(2 * len(found) + 4):
            yield [reading(stream, handed(found) if room // 2 >= len(found) else refused(ROOM, len(found)), room=room)]


# ---- Two boundaries

# How a stretch can lie to that from 2 to 5: each of the thirteen ways.
STRETCHES = ((0, 1), (0, 2), (0, 3), (0, 5), (0, 7), (2, 3), (2, 5), (2, 7), (3, 4), (3, 5), (3, 7), (5, 7), (6, 7))
RING, SHIFTED = RINGS[3], RINGS[5]
# Boundaries, and whether two of them mark one cell.
TOGETHER = (
    ((SQUARE, SQUARE), True),
    ((SQUARE, SQUARE, SQUARE), True),
    ((SQUARE, SQUARE[::-1]), True),
    (((A, B), (A, B)), False),
    ((SQUARE, (A, B)), False),
    ((SQUARE, ((1, 1), (1, 2), (3, 2), (3, 1))), True),
    ((RING, ((1, 1), (1, 3), (3, 3), (3, 1))), False),
    ((RING, ((1, 1), (1, 2), (2, 2), (2, 1))), False),
    ((RING, ((1, 1), (1, 4), (2, 4), (2, 1))), True),
    ((RING, ((0, 0), (0, 1), (1, 1), (1, 0))), True),
    ((SHIFTED, ((1, 1), (1, 3), (3, 3), (3, 1))), False),
    ((SHIFTED, ((1, 1), (1, 4), (2, 4), (2, 1))), True),
    (((*SQUARE, *SQUARE), SQUARE), False),
    (((*SQUARE, *SQUARE), (*SQUARE, *SQUARE)), False),
    (((*SQUARE, *SQUARE, *SQUARE), SQUARE), True),
    (((*SQUARE, (2, 0), (2, -9), (2, 0)), SQUARE), True),
    ((SQUARE, moved(SQUARE, 4, 0), moved(SQUARE, 0, 3), moved(SQUARE, 4, 3)), False),
    ((SQUARE, moved(SQUARE, 4, 0), moved(SQUARE, 0, 3), moved(SQUARE, 3, 2)), True),
    ((SQUARE, moved(SQUARE, 8, 0), moved(SQUARE, 7, 2)), True),
)


def oblong(columns, rows):
    """A rectangle between two columns and two rows."""
    return (columns[0], rows[0]), (columns[1], rows[0]), (columns[1], rows[1]), (columns[0], rows[1])


def together(rings, overlaps, room=PLENTY):
    """A file with some boundaries, of which two mark one cell, or no two do."""
    found = [corner for ring in rings for corner in corners_of([*ring, ring[0]])]
    return [reading(asked_for(*(boundary([*ring, ring[0]]) for ring in rings)), refused(OVERLAP, 0) if overlaps else handed(found), room=room)]


def overlap_files():
    """Two rectangles in every way in which they can lie, near zero and far apart; and other boundaries, in every order."""
    chance = Random(SEED)
    for columns, rows in product(STRETCHES, repeat=2):
        scale = chance.choice(SCALES)
        first, second = (oblong(*(tuple(map(scale, some)) for some in one)) for one in (((2, 5), (2, 5)), (columns, rows)))
        overlaps = all(start < 5 and end > 2 for start, end in (columns, rows))
        yield together(chance.sample([first, second], 2), overlaps)
    for rings, overlaps in TOGETHER:
        yield from (together(some, overlaps) for some in set(permutations(map(tuple, rings))))
    yield from wide_files()


def wide_files():
    """Boundaries of as many cells as can be: a sum of their areas has more than 64 bits."""
    whole, middle = oblong((LOWEST, HIGHEST), (LOWEST, HIGHEST)), (LOWEST, 0, HIGHEST)
    yield together([whole], False)
    yield from (together([whole] * count, True, 2 * MOST_POINTS) for count in (2, 3, 4, 5, 6, 9, 10, MOST_POINTS // 4))
    quarters = [oblong(columns, rows) for columns, rows in product(((middle[0], middle[1]), (middle[1], middle[2])), repeat=2)]
    yield together(quarters, False)
    yield together([*quarters, oblong((0, 1), (0, 1))], True)
    yield together([*quarters[:3], oblong((-1, HIGHEST), (-1, HIGHEST))], True)
    yield together([whole, oblong((HIGHEST - 1, HIGHEST), (HIGHEST - 1, HIGHEST))], True)
    yield together([whole, oblong((LOWEST, LOWEST + 1), (LOWEST, LOWEST + 1))], True)


# ---- Many corners


def pads(count):
    """Squares that do not touch, so many in a row."""
    return [pad(5 * (i % 64), 5 * (i // 64)) for i in range(count)]


def far_at(lists, at):
    """Squares of which one is out of range, at its second corner."""
    return [pad(HIGHEST - 1, 0) if i == at else one for i, one in enumerate(lists)]


def many_files():
    """As many corners as are taken, and two more; among them some that are out of range, and boundaries that overlap."""
    room, most = 2 * MOST_POINTS, MOST_POINTS // 4
    for corners in (MOST_POINTS - 2, MOST_POINTS, MOST_POINTS + 2, 8_190):
        vertices = teeth(corners)
        stated = handed(vertices[:-1]) if corners <= MOST_POINTS else refused(MANY, 0)
        yield [reading(asked_for(boundary(vertices)), stated, room=room)]
        yield [reading(asked_for(boundary(vertices)), refused(ROOM, corners) if corners <= MOST_POINTS else stated, room=2 * corners - 1)]
    for count in (most - 1, most, most + 1):
        lists = pads(count)
        stated = handed([corner for one in lists for corner in one[:-1]]) if count <= most else refused(MANY, 0)
        yield [reading(asked_for(*map(boundary, lists)), stated, room=room + 5)]
        for at in (0, count // 2, count - 1):
            stated = refused(RANGE, 4 * at + 1) if count <= most else refused(MANY, 0)
            yield [reading(asked_for(*map(boundary, far_at(lists, at))), stated, room=room)]
        for at in (0, count // 2):
            stated = refused(OVERLAP, 0) if count <= most else refused(MANY, 0)
            yield [reading(asked_for(*map(boundary, [*lists[:-1], lists[at]])), stated, room=room)]
    tiles = [pad(3 * (i % 32), 3 * (i // 32)) for i in range(most)]
    yield [reading(asked_for(*map(boundary, tiles)), handed([corner for one in tiles for corner in one[:-1]]), room=room)]
    yield [reading(asked_for(*map(boundary, [pad(0, 0)] * 3000)), refused(MANY, 0))]
    flat = [[(x, 0), (x, 9), (x, 0)] for x in range(3000)]
    yield [reading(asked_for(*map(boundary, flat)), handed([]), room=0)]


def long_files():
    """Records as long as can be."""
    words = b"W" * (MOST_DATA - 1)
    for before in (["LIBNAME"], ["SRFNAME", "LIBNAME"], ["LIBNAME", "REFLIBS"], ["LIBNAME", "FORMAT", "MASK", "ENDMASKS"]):
        start = [record("HEADER"), record("BGNLIB"), *sampled(before), record("UNITS")]
        long = [record(name, words) if DATA[name][0] == STRING else record(name) for name in before]
        for some in (start, [*start[:2], *long, start[-1]]):
            yield [reading([*some, *structure(ASKED, GOOD), *END], handed(pad(0, 0)[:4]))]
    yield [reading(library(structure(words, GOOD)), handed(pad(0, 0)[:4]), words)]
    yield [reading(library(structure(words, GOOD)), refused(ABSENT, 0), words[:-1])]
    vertices = [(7, 7)] * (MOST_DATA // 8 - 4) + pad(7, 7)[1:]
    yield [reading(asked_for(boundary(vertices)), handed(pad(7, 7)[:4]))]


# ---- By chance

WALKS, DAMAGED = 4500, 1500


def walk(chance, size):
    """A list by chance: along rows and columns of a small grid, and mostly back to where it began."""
    x, y = start = chance.randrange(size), chance.randrange(size)
    vertices, along_row = [start], False
    for _ in range(chance.randrange(11)):
        along_row ^= chance.randrange(5) > 0
        x, y = (chance.randrange(size), y) if along_row else (x, chance.randrange(size))
        vertices.append((x, y))
    ending = chance.randrange(40)
    return vertices + ([] if ending == 0 else [start] if ending == 1 else [(x, start[1]), start])


def stray(chance, size):
    """An element that is no boundary of the layer."""
    vertices = walk(chance, size)
    make = chance.choice((box, node, worded, boundary, boundary))
    return make(vertices, 2 if make is boundary else chance.choice((1, 2)))


def walked(chance):
    """A file with some boundaries by chance, all on one grid or each on its own."""
    size, apart, elements = chance.randint(2, 6), chance.choice((0, 0, 9)), []
    for i in range(chance.choice((1, 2, 2, 3, 4))):
        elements.append(boundary(moved(walk(chance, size), apart * i, 0), LAYER, chance.randrange(3)))
        if chance.randrange(4) == 0:
            elements.append(stray(chance, size))
    parts = [structure(ASKED, *elements)]
    if chance.randrange(6) == 0:
        parts.insert(chance.randrange(2), structure(chance.choice((OTHER, ASKED)), stray(chance, size), *elements[:1]))
    return library(*parts)


def walk_files():
    """Boundaries that are walks by chance."""
    chance = Random(SEED)
    for _ in range(WALKS):
        yield [reading(walked(chance), room=chance.choice((PLENTY, PLENTY, PLENTY, chance.randrange(40))))]


def damaged(chance, stream):
    """The bytes of a file with one fault: a record is missing, is there twice, or has changed places; or a byte is missing, too many or changed."""
    what, at, of = chance.randrange(6), chance.randrange(len(stream)), chance.randrange(len(stream))
    if what < 3:
        some = ([], [stream[at]] * 2, [stream[of]])[what]
        return b"".join([*stream[:at], *some, *stream[at + 1 :]])
    whole = b"".join(stream)
    at = chance.randrange(len(whole))
    some = (b"", whole[at : at + 1] * 2, bytes([chance.choice((0, 1, 2, 4, 9, 16, 60, 255, chance.randrange(256)))]))[what - 3]
    return whole[:at] + some + whole[at + 1 :]


def damaged_files():
    """Files by chance with one fault."""
    chance = Random(SEED)
    for i in range(DAMAGED):
        yield [reading(damaged(chance, EVERYTHING if i % 10 == 0 else walked(chance)))]


# The fewest files that each family gives.
SHAPE_FAMILIES = {
    fault_files: 65,
    name_files: 500,
    structure_files: 150,
    layer_files: 550,
    shape_files: 1500,
    room_files: 70,
    overlap_files: 250,
    many_files: 28,
    long_files: 10,
    walk_files: 4500,
    damaged_files: 1500,
}
