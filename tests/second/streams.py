"""Stream files, made record by record from the public format of Calma, and the calls that read them.

A record is its bytes, and a file a list of records, so that a record's file place is the length of those before it.
"""

import struct

from document import DONE, numbers_of
from functions import call, lent, read
from gdsii import BITS, DATA, FOUR_BYTES, HEAD, NO_DATA, REAL, STRING, TWO_BYTES, TYPES

LIBRARY, ASKED, OTHER = b"PLATES", b"PADS", b"FRAME\0"
LAYER = 1
SQUARE = ((0, 0), (0, 3), (4, 3), (4, 0))
PLENTY = 400

# ---- Data


def two_bytes(*numbers):
    """Numbers of two bytes with a sign."""
    return struct.pack(f">{len(numbers)}h", *numbers)


def four_bytes(*numbers):
    """Numbers of four bytes with a sign."""
    return struct.pack(f">{len(numbers)}i", *numbers)


def vertex_list(vertices):
    """The data of an XY record."""
    return four_bytes(*(number for vertex in vertices for number in vertex))


def padded(text):
    """Bytes with a zero after them, if they are not of an even number."""
    return text + b"\0" * (len(text) % 2)


# Twelve numbers: the year, month, day, hour, minute and second of the last change, and of the last look.
DATES = two_bytes(*(1987, 2, 4, 10, 30, 0) * 2)
# A thousandth of a user unit, and a thousand-millionth of a metre.
THOUSANDTH, NANOMETRE = bytes.fromhex("3E4189374BC6A7F0"), bytes.fromhex("3944B82FA09B5A54")
SAMPLE_DATA = {
    "HEADER": two_bytes(600),
    "BGNLIB": DATES,
    "LIBNAME": LIBRARY,
    "UNITS": THOUSANDTH + NANOMETRE,
    "BGNSTR": DATES,
    "STRNAME": OTHER,
    "SNAME": b"CELL",
    "LAYER": two_bytes(LAYER),
    "WIDTH": four_bytes(-20),
    "XY": vertex_list([(0, 0)]),
    "COLROW": two_bytes(2, 3),
    "ANGLE": bytes.fromhex("425A000000000000"),
    "MAG": bytes.fromhex("4120000000000000"),
    "PROPATTR": two_bytes(1),
    "LIBSECUR": two_bytes(1, 2, 7),
}
# What a record that is not in the table above begins with, by its kind of data.
SAMPLE_BYTES = {NO_DATA: b"", BITS: b"\x80\x01", TWO_BYTES: b"\0\7", FOUR_BYTES: b"\0\0\0\7", REAL: b"\x41\x10", STRING: b"WORDS."}

# ---- Records


def raw(kind, byte, data=b"", length=None):
    """A record of any form. The length is that of the record, unless another one is given."""
    return struct.pack(">HBB", HEAD + len(data) if length is None else length, kind, byte) + data


def record(name, data=None):
    """A record of the right form, with its data or with a sample of it."""
    byte, lengths = DATA[name]
    if data is None:
        data = SAMPLE_DATA.get(name, SAMPLE_BYTES[byte])
        assert len(data) in lengths, name
    return raw(TYPES.index(name), byte, data)


def sampled(names):
    """Records of the right form, with samples of data."""
    return [record(name) for name in names]


def place_of(stream, index):
    """The file place of a record."""
    return sum(map(len, stream[:index]))


# ---- Files


def boundary(vertices, layer=LAYER, datatype=0):
    """A boundary."""
    body = [record("LAYER", two_bytes(layer)), record("DATATYPE", two_bytes(datatype)), record("XY", vertex_list(vertices))]
    return [record("BOUNDARY"), *body, record("ENDEL")]


def box(vertices, layer=LAYER):
    """A box, which is no boundary."""
    body = [record("LAYER", two_bytes(layer)), record("BOXTYPE"), record("XY", vertex_list(vertices))]
    return [record("BOX"), *body, record("ENDEL")]


def node(vertices, layer=LAYER):
    """A node, which is none either."""
    body = [record("LAYER", two_bytes(layer)), record("NODETYPE"), record("XY", vertex_list(vertices))]
    return [record("NODE"), *body, record("ENDEL")]


def text(vertices, words, layer=LAYER):
    """A text."""
    body = [record("LAYER", two_bytes(layer)), record("TEXTTYPE"), record("XY", vertex_list(vertices)), record("STRING", padded(words))]
    return [record("TEXT"), *body, record("ENDEL")]


def path(vertices, layer=LAYER):
    """A path with a width."""
    body = [record("LAYER", two_bytes(layer)), record("DATATYPE"), record("WIDTH", four_bytes(20)), record("XY", vertex_list(vertices))]
    return [record("PATH"), *body, record("ENDEL")]


def reference(name, vertex):
    """A reference to a structure."""
    return [record("SREF"), record("SNAME", padded(name)), record("XY", vertex_list([vertex])), record("ENDEL")]


def structure(name, *elements):
    """A structure. The name is of an even number of bytes."""
    return [record("BGNSTR"), record("STRNAME", name), *(one for element in elements for one in element), record("ENDSTR")]


START = sampled(("HEADER", "BGNLIB", "LIBNAME", "UNITS"))
END = sampled(("ENDLIB",))


def library(*structures):
    """A file."""
    return [*START, *(one for parts in structures for one in parts), *END]


def asked_for(*elements):
    """A file with the structure that is asked for."""
    return library(structure(ASKED, *elements))


# ---- Calls


def reading(stream, stated=None, name=ASKED, layer=LAYER, room=PLENTY):
    """A call that reads a file, with what is stated of its answer, place, count and corners."""
    stream = stream if isinstance(stream, bytes) else b"".join(stream)
    if stated is None:
        return call("read_gdsii", read(stream), read(name), layer, lent(room))
    result, found = stated
    return call("read_gdsii", read(stream), read(name), layer, lent(room), stated={"result": result, "corners": numbers_of(found)})


def refused(answer, place):
    """What is stated of a refusal."""
    return (answer, place, 0), ()


def handed(found):
    """What is stated of corners that are handed on."""
    return (DONE, 0, len(found)), found
