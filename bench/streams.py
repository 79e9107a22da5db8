"""The GDSII streams that reading is timed on, written by the public format alone.

Every stream is made from its name and size: one structure, or one block of elements, is put into bytes once and repeated. So a stream of
100 MB takes less than a second. WANTED and LAYER are the structure and the layer to be read. Reading accepts each stream: the boundaries there
are right-angled, in the range and do not overlap, and have at most 4,096 corners; CORNERS has how many.
"""

import struct

WANTED, LAYER = b"WANTED", 7
OTHER_LAYERS = (1, 2, 3, 8, 9, 63)

# Records: their types, and the types of their data.
HEADER, BGNLIB, LIBNAME, UNITS, ENDLIB = 0x0002, 0x0102, 0x0206, 0x0305, 0x0400
BGNSTR, STRNAME, ENDSTR, ENDEL = 0x0502, 0x0606, 0x0700, 0x1100
BOUNDARY, TEXT, BOX = 0x0800, 0x0C00, 0x2D00
LAYER_OF, DATATYPE, TEXTTYPE, BOXTYPE, XY, STRING = 0x0D02, 0x0E02, 0x1602, 0x2E02, 0x1003, 0x1906

# A thousandth of a user unit and a nanometre, as eight-byte reals.
NANOMETRES = bytes.fromhex("3e4189374bc6a7f0" "3944b82fa09b5a54")
DATES = struct.pack(">12h", *([2025, 1, 1, 0, 0, 0] * 2))

# How many elements a structure beside the asked one has, and how many of the other layers are repeated.
IN_A_STRUCTURE, IN_A_BLOCK = 1000, 120
# How many boundaries are asked for: in the structure at the end, and on the layer among others.
AT_THE_END, AMONG_OTHERS = 100, 400
MEGABYTE = 1_000_000


def record(kind, body=b""):
    """A record: its length, its type and its data, which are made even by a NUL."""
    body += b"\0" * (len(body) % 2)
    return struct.pack(">HH", 4 + len(body), kind) + body


def number(kind, value):
    """A record of one number of 16 bits."""
    return record(kind, struct.pack(">h", value))


def vertices(points):
    """A record of points."""
    return record(XY, struct.pack(f">{2 * len(points)}i", *(place for point in points for place in point)))


def boundary(layer, corners):
    """A boundary; its last vertex is its first."""
    return record(BOUNDARY) + number(LAYER_OF, layer) + number(DATATYPE, 0) + vertices([*corners, corners[0]]) + record(ENDEL)


def box(layer, corners):
    """A box, which is no boundary."""
    return record(BOX) + number(LAYER_OF, layer) + number(BOXTYPE, 0) + vertices([*corners, corners[0]]) + record(ENDEL)


def text(layer, point, words):
    """A text."""
    return record(TEXT) + number(LAYER_OF, layer) + number(TEXTTYPE, 0) + vertices([point]) + record(STRING, words) + record(ENDEL)


def structure(name, *elements):
    """A structure, in parts."""
    return [record(BGNSTR, DATES) + record(STRNAME, name), *elements, record(ENDSTR)]


def library(*parts):
    """A whole stream, in parts."""
    return [number(HEADER, 600) + record(BGNLIB, DATES) + record(LIBNAME, b"BENCH") + record(UNITS, NANOMETRES), *parts, record(ENDLIB)]


# ---- Shapes


def square(x, y, side):
    """The corners of a square, one after the other round it."""
    return [(x, y), (x + side, y), (x + side, y + side), (x, y + side)]


def ell(x, y, side):
    """The corners of a square that lacks a quarter."""
    half = side // 2
    return [(x, y), (x + side, y), (x + side, y + half), (x + half, y + half), (x + half, y + side), (x, y + side)]


def comb(corners):
    """A comb, with all tips of its teeth on one row."""
    teeth = corners // 4
    round_it = [(0, 0), (20 * teeth - 10, 0)]
    for i in reversed(range(teeth)):
        round_it += [(20 * i + 10, 500), (20 * i, 500)] + ([(20 * i, 50), (20 * i - 10, 50)] if i else [])
    return round_it


def woven(corners):
    """A way that goes from side to side and up and down, wider each time, and crosses itself: its list has nearly the square of a quarter
    of the corners in rectangles."""
    turns = corners // 2
    across = [10 * (k + 1) * (1 if k % 2 == 0 else -1) for k in range(turns)]
    along = [10 * k if k % 2 == 0 else 10 * (2 * turns - k) for k in range(turns)]
    return [point for k in range(turns) for point in ((across[k], along[k]), (across[(k + 1) % turns], along[k]))]


# ---- Streams of some megabytes


def other_structures(size):
    """Small boundaries in other structures, a thousand in each, and last the asked structure, which has a hundred."""
    block = b"".join(boundary(LAYER, square(40 * i, 0, 20)) for i in range(IN_A_STRUCTURE))
    count = size // len(block)
    others = (part for i in range(count) for part in structure(b"OTHER%07d" % i, block))
    return library(*others, *structure(WANTED, *(boundary(LAYER, ell(100 * i, 0, 60)) for i in range(AT_THE_END))))


def other_layers(size):
    """One structure: boundaries, boxes and texts on other layers, and between them 400 boundaries of the asked layer."""
    elements = (boundary, box, boundary, lambda layer, corners: text(layer, corners[0], b"NET%04d" % layer))
    block = b"".join(elements[i % 4](OTHER_LAYERS[i % len(OTHER_LAYERS)], square(40 * i, 40 * (i % 50), 20)) for i in range(IN_A_BLOCK))
    each = max(1, size // (AMONG_OTHERS * len(block)))
    spread = (part for i in range(AMONG_OTHERS) for part in (boundary(LAYER, ell(100 * i, 0, 60)), block * each))
    return library(*structure(WANTED, *spread))


# ---- Streams for the areas


def squares(count):
    """So many squares, each a boundary, none touching another."""
    side = int(count**0.5 + 0.999999)
    return library(*structure(WANTED, *(boundary(LAYER, square(100 * (i % side), 100 * (i // side), 60)) for i in range(count))))


def one_comb(corners):
    """One boundary, a comb."""
    return library(*structure(WANTED, boundary(LAYER, comb(corners))))


def one_woven(corners):
    """One boundary, which crosses itself."""
    return library(*structure(WANTED, boundary(LAYER, woven(corners))))


def rounds(corners):
    """One boundary, which goes round a square again and again: where so many points are equal, the sort goes deepest."""
    return library(*structure(WANTED, boundary(LAYER, square(0, 0, 60) * (corners // 4))))


STREAMS = {stream.__name__: stream for stream in (other_structures, other_layers)}
AREAS = {stream.__name__: (stream, size) for stream, size in ((squares, 1024), (one_comb, 4096), (one_woven, 4096))}
# Those on which the stack is measured.
DEEP = {**AREAS, "rounds": (rounds, 4096)}
# How many corners reading gives of each that is timed.
CORNERS = {"other_structures": 6 * AT_THE_END, "other_layers": 6 * AMONG_OTHERS, "squares": 4096, "one_comb": 4096, "one_woven": 4096}


def write_stream(path, parts):
    """Writes a stream, given in parts."""
    with open(path, "wb") as file:
        file.writelines(parts)
