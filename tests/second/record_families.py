"""The stream files that are compared, for the form and the order of their records. shape_families.py has the others.

Each family is a function that gives groups: the calls that are made with one file, each with what must come of it, and gdsii.py must say the
same.
"""

import re
from itertools import chain, cycle, product

from document import ABSENT, DONE, OPEN, RECORD, TRUNCATED
from gdsii import DATA, GRAMMAR, MOST_DATA, TYPES
from streams import ASKED, END, OTHER, SQUARE, START, asked_for, boundary, handed, library, place_of, raw, reading, record, refused, sampled
from streams import structure, text

ALL_TYPES = range(256)

# ---- The order of the records

OPTIONS, TRANSFORMED = "(ELFLAGS )?(PLEX )?", "(STRANS (MAG )?(ANGLE )?)?"
# The format's order once more, as a pattern.
IN_ORDER = re.compile(
    "HEADER BGNLIB (LIBDIRSIZE )?(SRFNAME )?(LIBSECUR )?LIBNAME (REFLIBS )?(FONTS )?(ATTRTABLE )?(GENERATIONS )?"
    "(FORMAT ((MASK )+ENDMASKS )?)?UNITS (BGNSTR STRNAME (STRCLASS )?(("
    f"BOUNDARY {OPTIONS}LAYER DATATYPE XY |"
    f"PATH {OPTIONS}LAYER DATATYPE (PATHTYPE )?(WIDTH )?(BGNEXTN )?(ENDEXTN )?XY |"
    f"SREF {OPTIONS}SNAME {TRANSFORMED}XY |"
    f"AREF {OPTIONS}SNAME {TRANSFORMED}COLROW XY |"
    f"TEXT {OPTIONS}LAYER TEXTTYPE (PRESENTATION )?(PATHTYPE )?(WIDTH )?{TRANSFORMED}XY STRING |"
    f"NODE {OPTIONS}LAYER NODETYPE XY |"
    f"BOX {OPTIONS}LAYER BOXTYPE XY "
    ")(PROPATTR PROPVALUE )*ENDEL )*ENDSTR )*ENDLIB "
)
FULL_START = (
    *("HEADER", "BGNLIB", "LIBDIRSIZE", "SRFNAME", "LIBSECUR", "LIBNAME", "REFLIBS", "FONTS", "ATTRTABLE", "GENERATIONS", "FORMAT"),
    *("MASK", "ENDMASKS", "UNITS"),
)
SHORT_START = ("HEADER", "BGNLIB", "LIBNAME", "UNITS")
FULL_ELEMENTS = (
    ("BOUNDARY", "ELFLAGS", "PLEX", "LAYER", "DATATYPE", "XY"),
    ("PATH", "ELFLAGS", "PLEX", "LAYER", "DATATYPE", "PATHTYPE", "WIDTH", "BGNEXTN", "ENDEXTN", "XY"),
    ("SREF", "ELFLAGS", "PLEX", "SNAME", "STRANS", "MAG", "ANGLE", "XY"),
    ("AREF", "ELFLAGS", "PLEX", "SNAME", "STRANS", "MAG", "ANGLE", "COLROW", "XY"),
    ("TEXT", "ELFLAGS", "PLEX", "LAYER", "TEXTTYPE", "PRESENTATION", "PATHTYPE", "WIDTH", "STRANS", "MAG", "ANGLE", "XY", "STRING"),
    ("NODE", "ELFLAGS", "PLEX", "LAYER", "NODETYPE", "XY"),
    ("BOX", "ELFLAGS", "PLEX", "LAYER", "BOXTYPE", "XY"),
)
# Files in order that have every record in every place: one with all that can stand at the start, and one for each element.
SEQUENCES = (
    (*FULL_START, "BGNSTR", "STRNAME", "STRCLASS", "ENDSTR", "ENDLIB"),
    *((*SHORT_START, "BGNSTR", "STRNAME", *element, "PROPATTR", "PROPVALUE", "ENDEL", "ENDSTR", "ENDLIB") for element in FULL_ELEMENTS),
)
# The records of each sequence that come after the start which all have.
FIRST_OWN = (0, *[len(SHORT_START) + 2] * len(FULL_ELEMENTS))


def is_in_order(names):
    """Whether a file with records of these names is in order."""
    return IN_ORDER.fullmatch("".join(f"{name} " for name in names)) is not None


def endings(name):
    """Ways in which a file can go on after a record."""
    return {sequence[at + 1 :] for sequence in SEQUENCES for at, one in enumerate(sequence) if one == name}


ENDINGS = {name: sorted(endings(name)) for name in DATA}


def followed(sequence, length, name):
    """The first records of a sequence, a record of this name, and an ending with which all of them are in order, if there is one."""
    begun = (*sequence[:length], name)
    files = [begun + ending for ending in ENDINGS[name]]
    return next(filter(is_in_order, files), (*begun, *sequence[length:]))


def order_files():
    """After every legal start every record that the order has, with the right data, and in turn one that it has not. Other structures than that
    asked for are read for their form alone."""
    nowhere = cycle(kind for kind in ALL_TYPES if kind >= len(TYPES) or TYPES[kind] not in DATA)
    for sequence, first in zip(SEQUENCES, FIRST_OWN):
        for length in range(first, len(sequence)):
            begun = sampled(sequence[:length])
            place = place_of(begun, length)
            for name in DATA:
                names = followed(sequence, length, name)
                yield [reading(sampled(names), refused(ABSENT, 0) if is_in_order(names) else refused(RECORD, place))]
            yield [reading([*begun, raw(next(nowhere), 0), *sampled(sequence[length:])], refused(RECORD, place))]


# ---- The form of each record

# Lengths of data: all short ones, and some longer ones.
LENGTHS = (*range(27), 30, 32, 48, 62)
BYTES = range(8)


def around(name):
    """The records before and after one of a name, in a file in order."""
    for sequence in SEQUENCES:
        if name in sequence:
            at = sequence.index(name)
            return sampled(sequence[:at]), sampled(sequence[at + 1 :])
    return sampled(SEQUENCES[0][:-2]), sampled(SEQUENCES[0][-2:])


def formed(kind, byte, length):
    """A file with a record of a type, a data-type byte and a length of data, where the type can stand."""
    name = TYPES[kind] if kind < len(TYPES) else None
    before, after = around(name)
    right = name in DATA and DATA[name][0] == byte and length % 2 == 0 and length in DATA[name][1]
    stated = refused(ABSENT, 0) if right else refused(RECORD, place_of(before, len(before)))
    return [reading([*before, raw(kind, byte, bytes(length)), *after], stated)]


def form_files():
    """Every type with every data-type byte, and the known ones with lengths of data about the right ones."""
    for kind in ALL_TYPES:
        name = TYPES[kind] if kind < len(TYPES) else None
        right, lengths = DATA.get(name, (None, range(1)))
        yield from (formed(kind, right, length) for length in (LENGTHS if name in DATA else ()))
        yield from (formed(kind, byte, lengths[min(1, len(lengths) - 1)]) for byte in BYTES if byte != right)


def option_files():
    """Every choice of the records that may be left out or repeated, in the structure that is asked for; a path or reference is refused there."""
    square = boundary([*SQUARE, SQUARE[0]])
    for names in expansions(GRAMMAR["stream"][:-2]):
        yield [reading([*sampled(names), *structure(ASKED, square), *END], handed(SQUARE))]
    for names in expansions(GRAMMAR["element"]):
        stream = asked_for(sampled(names), square)
        is_refused = names[0] in ("PATH", "SREF", "AREF")
        yield [reading(stream, refused(RECORD, place_of(stream, len(START) + 2)) if is_refused else handed(SQUARE))]
        yield [reading(library(structure(OTHER, sampled(names)), structure(ASKED, square)), handed(SQUARE))]


def expansions(parts):
    """All lists of records that parts of a rule allow, with what may be repeated up to two times."""
    return [tuple(chain.from_iterable(choice)) for choice in product(*map(choices, parts))]


def choices(part):
    """All lists of records that a part of a rule allows."""
    if part in GRAMMAR:
        return expansions(GRAMMAR[part])
    if isinstance(part, str):
        return [(part,)]
    bracket, inner = part
    if bracket == "(":
        return list(chain.from_iterable(map(choices, inner)))
    once = expansions(inner)
    return [(), *once, *([one + one for one in once] if bracket == "{" else [])]


# ---- Lengths, and files that are cut

SMALL = asked_for(boundary([*SQUARE, SQUARE[0]]), text([(9, 9)], b"PAD 1"), boundary([(5, 5)], 2))
EVERYTHING = [
    *sampled(FULL_START),
    *structure(OTHER, *(sampled((*names, "PROPATTR", "PROPVALUE", "ENDEL")) for names in FULL_ELEMENTS)),
    *structure(ASKED, boundary([*SQUARE, SQUARE[0]])),
    *END,
]


def cut_files():
    """Files that are cut at every byte: the record in which they end is told, or their end if it is between two records."""
    for stream in (SMALL, EVERYTHING):
        whole, place = b"".join(stream), 0
        for one in stream:
            yield from ([reading(whole[:at], refused(TRUNCATED, place))] for at in range(place, place + len(one)))
            place += len(one)
        yield [reading(whole, handed(SQUARE))]
    yield from cut_and_bad_files()


def cut_and_bad_files():
    """A bad record that is also cut is cut; if it is whole it is bad."""
    before = [*START, record("BGNSTR"), record("STRNAME", ASKED)]
    bad = (
        *(raw(TYPES.index("BOUNDARY"), 0, b"", length) for length in (0, 1, 2, 3, 5)),
        *(raw(kind, 0) for kind in (TYPES.index("PATH"), TYPES.index("SREF"), TYPES.index("ENDLIB"), TYPES.index("TEXTNODE"), 60, 255)),
        raw(TYPES.index("ENDSTR"), 0, b"\0\0"),
        raw(TYPES.index("STRCLASS"), 1, b"\0\0\0\0"),
        raw(TYPES.index("STRCLASS"), 2, b"\0\0"),
        raw(TYPES.index("STRCLASS"), 1, b"\0\0\0"),
    )
    place = place_of(before, len(before))
    for one in bad:
        promised = int.from_bytes(one[:2], "big")
        for length in range(len(one) + 1):
            answer = RECORD if length >= max(4, promised) else TRUNCATED
            yield [reading([*before, one[:length]], refused(answer, place))]
        yield [reading([*before, one, bytes(8)], refused(RECORD, place))]


def length_files():
    """At every record of a file every wrong length: under four, odd, and more than there are bytes."""
    for at, one in enumerate(SMALL):
        place, rest = place_of(SMALL, at), len(b"".join(SMALL[at:]))
        for length in (0, 1, 2, 3, 5, len(one) - 1, len(one) + 1, rest + 1, rest + 2, 65_534, 65_535):
            changed = length.to_bytes(2, "big") + one[2:]
            stated = refused(RECORD if length <= rest else TRUNCATED, place)
            yield [reading([*SMALL[:at], changed, *SMALL[at + 1 :]], stated)]


def vertex_files():
    """XY data of every short length in each element, and as long as can be; equal vertices have no corner."""
    for element, length in product(FULL_ELEMENTS, range(0, 81)):
        names = sampled((*element, "ENDEL"))
        at = element.index("XY")
        names[at] = raw(TYPES.index("XY"), 3, bytes(length))
        stream = library(structure(OTHER, names))
        place = place_of(stream, len(START) + 2 + at)
        yield [reading(stream, refused(RECORD, place) if length % 8 else refused(ABSENT, 0))]
    for length in (*range(0, 81), MOST_DATA - 4, MOST_DATA - 3, MOST_DATA - 1, MOST_DATA):
        stream = asked_for(boundary([]))
        at = len(START) + 5
        stream[at] = raw(TYPES.index("XY"), 3, bytes(length))
        answer = RECORD if length % 8 else OPEN if length == 0 else DONE
        yield [reading(stream, refused(answer, place_of(stream, at) if answer else 0))]


def after_files():
    """Whatever stands after ENDLIB: it is not looked at."""
    whole = b"".join(SMALL)
    for more in (b"\0", b"\0\0", bytes(3), bytes(4), bytes(2048), b"\xff" * 7, whole, whole[:50], b"".join(END), raw(9, 0), raw(255, 7)):
        yield [reading(whole + more, handed(SQUARE))]
        yield [reading(whole + more, refused(ABSENT, 0), name=b"NONE")]


# The fewest files that each family gives.
RECORD_FAMILIES = {
    order_files: 5000,
    form_files: 3400,
    option_files: 2000,
    cut_files: 1200,
    length_files: 250,
    vertex_files: 600,
    after_files: 20,
}
