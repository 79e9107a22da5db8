"""Document 02's request 3: corners from a stream file, by document 01's notes on GDSII and the public format of Calma; nothing here is taken
from the library.

The order of the records is a grammar, the one of the public versions that was decided on (docs/GDSII.md), and is followed rule by rule. Which
cells a boundary marks is the even-odd rule on its edges, row of cells by row; its corners play no part in that.
"""

import struct
from bisect import bisect_left
from functools import cache
from itertools import chain, groupby, pairwise
from typing import NamedTuple

from document import ABSENT, DONE, MANY, MOST_POINTS, OPEN, OVERLAP, RANGE, RECORD, ROOM, SLANTED, TRUNCATED
from document import first_place, in_range, numbers_of, placed

# ---- The format: its records

TYPES = (
    *("HEADER", "BGNLIB", "LIBNAME", "UNITS", "ENDLIB", "BGNSTR", "STRNAME", "ENDSTR", "BOUNDARY", "PATH", "SREF", "AREF", "TEXT", "LAYER"),
    *("DATATYPE", "WIDTH", "XY", "ENDEL", "SNAME", "COLROW", "TEXTNODE", "NODE", "TEXTTYPE", "PRESENTATION", "SPACING", "STRING", "STRANS"),
    *("MAG", "ANGLE", "UINTEGER", "USTRING", "REFLIBS", "FONTS", "PATHTYPE", "GENERATIONS", "ATTRTABLE", "STYPTABLE", "STRTYPE", "ELFLAGS"),
    *("ELKEY", "LINKTYPE", "LINKKEYS", "NODETYPE", "PROPATTR", "PROPVALUE", "BOX", "BOXTYPE", "PLEX", "BGNEXTN", "ENDEXTN", "TAPENUM"),
    *("TAPECODE", "STRCLASS", "RESERVED", "FORMAT", "MASK", "ENDMASKS", "LIBDIRSIZE", "SRFNAME", "LIBSECUR"),
)

NO_DATA, BITS, TWO_BYTES, FOUR_BYTES, REAL, STRING = 0, 1, 2, 3, 5, 6
HEAD, VERTEX = 4, 8
MOST_DATA = 65_535 - HEAD


def bytes_of_data(count):
    """Just so many bytes of data."""
    return range(count, count + 1)


def multiples(size, least=0):
    """Any number of bytes of data from the least on that is a multiple."""
    return range(least, MOST_DATA + 1, size)


# What the data of a record is, and how long it can be. A record that no row names is one that the grammar has no place for.
DATA = {
    **dict.fromkeys(("ENDLIB", "ENDSTR", "ENDEL", "ENDMASKS"), (NO_DATA, bytes_of_data(0))),
    **dict.fromkeys(("BOUNDARY", "PATH", "SREF", "AREF", "TEXT", "NODE", "BOX"), (NO_DATA, bytes_of_data(0))),
    **dict.fromkeys(("ELFLAGS", "PRESENTATION", "STRANS", "STRCLASS"), (BITS, bytes_of_data(2))),
    **dict.fromkeys(("HEADER", "LIBDIRSIZE", "GENERATIONS", "FORMAT", "LAYER", "PATHTYPE", "PROPATTR"), (TWO_BYTES, bytes_of_data(2))),
    **dict.fromkeys(("DATATYPE", "TEXTTYPE", "NODETYPE", "BOXTYPE"), (TWO_BYTES, bytes_of_data(2))),
    **dict.fromkeys(("BGNLIB", "BGNSTR"), (TWO_BYTES, bytes_of_data(24))),
    "COLROW": (TWO_BYTES, bytes_of_data(4)),
    "LIBSECUR": (TWO_BYTES, multiples(6, 6)),
    **dict.fromkeys(("WIDTH", "PLEX", "BGNEXTN", "ENDEXTN"), (FOUR_BYTES, bytes_of_data(4))),
    "XY": (FOUR_BYTES, multiples(VERTEX)),
    **dict.fromkeys(("MAG", "ANGLE"), (REAL, bytes_of_data(8))),
    "UNITS": (REAL, bytes_of_data(16)),
    **dict.fromkeys(("LIBNAME", "SRFNAME", "REFLIBS", "FONTS", "ATTRTABLE", "MASK"), (STRING, multiples(2))),
    **dict.fromkeys(("STRNAME", "SNAME", "STRING", "PROPVALUE"), (STRING, multiples(2))),
}

# ---- The format: its order

# What stands in square brackets may be left out, what stands in braces may come any number of times, and one of what stands between bars
# comes. A word in capitals is a record, any other one a rule.
GRAMMAR_TEXT = """
stream    = HEADER BGNLIB [ LIBDIRSIZE ] [ SRFNAME ] [ LIBSECUR ] LIBNAME [ REFLIBS ] [ FONTS ] [ ATTRTABLE ] [ GENERATIONS ]
            [ format ] UNITS { structure } ENDLIB
format    = FORMAT [ MASK { MASK } ENDMASKS ]
structure = BGNSTR STRNAME [ STRCLASS ] { element } ENDSTR
element   = ( boundary | path | sref | aref | text | node | box ) { PROPATTR PROPVALUE } ENDEL
boundary  = BOUNDARY [ ELFLAGS ] [ PLEX ] LAYER DATATYPE XY
path      = PATH [ ELFLAGS ] [ PLEX ] LAYER DATATYPE [ PATHTYPE ] [ WIDTH ] [ BGNEXTN ] [ ENDEXTN ] XY
sref      = SREF [ ELFLAGS ] [ PLEX ] SNAME [ strans ] XY
aref      = AREF [ ELFLAGS ] [ PLEX ] SNAME [ strans ] COLROW XY
text      = TEXT [ ELFLAGS ] [ PLEX ] LAYER TEXTTYPE [ PRESENTATION ] [ PATHTYPE ] [ WIDTH ] [ strans ] XY STRING
node      = NODE [ ELFLAGS ] [ PLEX ] LAYER NODETYPE XY
box       = BOX [ ELFLAGS ] [ PLEX ] LAYER BOXTYPE XY
strans    = STRANS [ MAG ] [ ANGLE ]
"""
CLOSES = {"[": "]", "{": "}", "(": ")"}


def parts_of(words, end=None):
    """The parts of a rule: a name, or a bracket with the parts in it. The words are an iterator."""
    parts = []
    for word in words:
        if word == end:
            break
        if word != "|":
            parts.append((word, parts_of(words, CLOSES[word])) if word in CLOSES else word)
    return tuple(parts)


def rules_of(text):
    """The rules of a grammar by name, each as its parts."""
    rules, lines = {}, text.replace("\n   ", " ").strip().splitlines()
    for name, _, words in (line.partition(" = ") for line in lines):
        rules[name.strip()] = parts_of(iter(words.split()))
    return rules


GRAMMAR = rules_of(GRAMMAR_TEXT)


@cache
def beginnings(part):
    """The records with which a part can begin."""
    if isinstance(part, str):
        return beginnings(GRAMMAR[part][0]) if part in GRAMMAR else {part}
    bracket, inner = part
    return set().union(*map(beginnings, inner)) if bracket == "(" else beginnings(inner[0])


ELEMENTS = beginnings("element")
REFUSED = {"PATH", "SREF", "AREF"}


# ---- A stream


class Refused(Exception):
    """A refusal with its number and its place."""


class Record(NamedTuple):
    """A record: its name, its data, and the byte where it starts."""

    name: str
    data: bytes
    place: int


def record_at(stream, place):
    """The record that starts at a place, of whatever name; TRUNCATED comes before RECORD."""
    head = stream[place : place + HEAD]
    length = int.from_bytes(head[:2], "big")
    if len(head) < HEAD or place + length > len(stream):
        raise Refused(TRUNCATED, place)
    name = TYPES[head[2]] if head[2] < len(TYPES) else None
    if length % 2 != 0 or length < HEAD or name not in DATA:
        raise Refused(RECORD, place)
    byte, lengths = DATA[name]
    if head[3] != byte or length - HEAD not in lengths:
        raise Refused(RECORD, place)
    return Record(name, stream[place + HEAD : place + length], place)


class Reader:
    """Follows the grammar along a stream, from its first byte."""

    def __init__(self, stream):
        self.stream, self.place = stream, 0
        self.next = None

    def comes(self, names):
        """Whether the record that comes next has one of these names."""
        self.next = self.next or record_at(self.stream, self.place)
        return self.next.name in names

    def take(self, name):
        """The next record, which must have this name."""
        if not self.comes({name}):
            raise Refused(RECORD, self.place)
        taken, self.next = self.next, None
        self.place += HEAD + len(taken.data)
        return taken

    def one_of(self, parts):
        """The records of the one part that comes."""
        for part in parts:
            if self.comes(beginnings(part)):
                return self.records([part])
        raise Refused(RECORD, self.place)

    def records(self, parts):
        """The records of parts of a rule. Each is handed on before the next one is looked at."""
        for part in parts:
            if part in GRAMMAR:
                yield from self.records(GRAMMAR[part])
            elif isinstance(part, str):
                yield self.take(part)
            elif part[0] == "(":
                yield from self.one_of(part[1])
            else:
                while self.comes(beginnings(part)):
                    yield from self.records(part[1])
                    if part[0] == "[":
                        break


# ---- Boundaries


def vertices_in(data):
    """The vertices of XY data."""
    return list(struct.iter_unpack(">ii", data))


def is_open(vertices):
    """Whether a list is empty or not closed."""
    return not vertices or vertices[0] != vertices[-1]


def is_slanted(vertices):
    """Whether an edge is neither horizontal nor vertical."""
    return any(x != to_x and y != to_y for (x, y), (to_x, to_y) in pairwise(vertices))


def corners_of(vertices):
    """The corners of a closed list in file order: equal neighbours count as one vertex, and the closing vertex as the first."""
    *ring, _ = [vertex for vertex, _ in groupby(vertices)]
    for before, (x, y), after in zip(ring[-1:] + ring[:-1], ring, ring[1:] + ring[:1]):
        if (before[1] == y) != (after[1] == y):
            yield x, y


def stretches(vertices, rows):
    """What a boundary marks by the even-odd rule: the cells between its first and its second edge on their row, its third and its fourth, and so
    on. Cells between two of the rows given are alike; for each such strip a stretch is from a column up to another."""
    crossed = {}
    for (x, y), (_, to_y) in pairwise(vertices):
        for strip in range(bisect_left(rows, min(y, to_y)), bisect_left(rows, max(y, to_y))):
            crossed.setdefault(strip, []).append(x)
    for strip, columns in crossed.items():
        columns.sort()
        yield from ((strip, left, right) for left, right in zip(columns[0::2], columns[1::2]) if left < right)


def overlap(boundaries):
    """Whether two boundaries mark one cell. No two stretches of one boundary have a cell in common."""
    rows = sorted({y for vertices in boundaries for _, y in vertices})
    marked = sorted(chain.from_iterable(stretches(vertices, rows) for vertices in boundaries))
    return any(strip == of and right > left for (strip, _, right), (of, left, _) in pairwise(marked))


# ---- The reading


def is_named(record, name):
    """Whether a name is that of a structure, without padding."""
    return record.data.rstrip(b"\0") == name.rstrip(b"\0")


def judge_list(record):
    """The vertices of a boundary that is read; OPEN comes before SLANTED."""
    vertices = vertices_in(record.data)
    if is_open(vertices):
        raise Refused(OPEN, record.place)
    if is_slanted(vertices):
        raise Refused(SLANTED, record.place)
    return vertices


def boundaries_in(stream, name, layer):
    """The boundaries of a layer in the first structure of a name, in file order, or None where there is no such structure."""
    boundaries, reading, element, on_layer = None, False, None, False
    for record in Reader(stream).records(["stream"]):
        if record.name == "STRNAME" and boundaries is None and is_named(record, name):
            boundaries, reading = [], True
        elif record.name == "ENDSTR":
            reading = False
        elif record.name in ELEMENTS:
            element = record.name
            if reading and element in REFUSED:
                raise Refused(RECORD, record.place)
        elif record.name == "LAYER":
            on_layer = int.from_bytes(record.data, "big", signed=True) == layer
        elif record.name == "XY" and reading and on_layer and element == "BOUNDARY":
            boundaries.append(judge_list(record))
    return boundaries


def refusals_of_read(boundaries, found, room):
    """The refusals that come after those of single records: of the boundaries that are read, their corners, and the room for these."""
    if boundaries is None:
        yield ABSENT, 0
    if len(found) > MOST_POINTS:
        yield MANY, 0
    yield from placed(RANGE, first_place(not in_range(x, y) for x, y in found))
    if overlap(boundaries or []):
        yield OVERLAP, 0
    if len(found) > room:
        yield ROOM, len(found)


def read_gdsii(stream, name, layer, corners):
    """The corners of a structure's boundaries of one layer: answer, place and count of corners."""
    try:
        boundaries = boundaries_in(bytes(stream), bytes(name), layer)
    except Refused as refused:
        return *refused.args, 0
    found = [corner for vertices in boundaries or [] for corner in corners_of(vertices)]
    answer, place = next(refusals_of_read(boundaries, found, len(corners) // 2), (DONE, 0))
    if answer != DONE:
        return answer, place, 0
    corners[: 2 * len(found)] = numbers_of(found)
    return DONE, 0, len(found)
