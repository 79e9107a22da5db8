"""The functions of the C face that are compared: what each is given, and what documents 01 and 02 and the header say comes of it.

To add a function:

1. write what it does, by the documents' words, in document.py or a file of its own, and the order of its refusals in document.py;
2. add an entry to FUNCTIONS here: its parameters in the order of the header, a definition that has these parameters, and its answers;
3. add a case to `call` in driver.c, under the same name;
4. write a generator of groups of calls, as families.py, edges.py and shape_families.py have them, and list it in run.py, with the fewest
   groups wanted.

A definition gets a tuple, or bytes, for an array that is only read, and a list for one that is lent, which it changes; it returns the number that
the function returns. Another type of numbers is a row and two cases in driver.c, and an entry of FILLS here if such an array is lent.
"""

from dataclasses import dataclass
from typing import NamedTuple, Optional

import document
import gdsii

# What is lent is full of this, by its type: no coordinate, side or count is so large, or so low.
FILLS = {"i32": -1_717_171_717, "u64": 17_171_717_171_717_171_717}

READ, LENT, NUMBER, FIXED = "read", "lent", "number", "fixed"


@dataclass(frozen=True)
class Parameter:
    """A parameter: an array that is only read, one that is lent, a number by itself, or an array of a fixed size that is written."""

    name: str
    kind: str
    type: str
    size: int = 0


@dataclass(frozen=True)
class Function:
    """A function: its parameters, its definition on lists, and the answers that it can give."""

    parameters: tuple
    definition: object
    answers: tuple


class Array(NamedTuple):
    """An array before a call: the numbers that it begins with, and the number that fills the rest of its length."""

    length: int
    fill: int
    numbers: tuple

    def whole(self):
        """All numbers of the array, as a list of its own."""
        numbers = [self.fill] * self.length
        numbers[: len(self.numbers)] = self.numbers
        return numbers


class Call(NamedTuple):
    """A call: the function's name, an argument for each parameter, and how document 01 says that arrays begin afterwards, where it does."""

    name: str
    arguments: tuple
    stated: Optional[dict] = None


def read(numbers):
    """An array that is only read: of bytes, or of i32."""
    return Array(len(numbers), 0, numbers if isinstance(numbers, bytes) else tuple(numbers))


def lent(length, numbers=()):
    """An array of i32 that is lent: it begins with these numbers, so far as it has room for them."""
    return Array(length, FILLS["i32"], tuple(numbers[:length]))


def call(name, *arguments, stated=None):
    """A call with these arguments, and with the arrays of a fixed size in their places."""
    given = iter(arguments)
    whole = [Array(p.size, FILLS[p.type], ()) if p.kind == FIXED else next(given) for p in FUNCTIONS[name].parameters]
    return Call(name, tuple(whole), stated)


# ---- The C face


def called_forward(points, work, rects, result):
    """What panbuckle_forward does."""
    result[:] = document.forward(points, work, rects)
    return result[0]


def called_step(work, count, rect, result):
    """What panbuckle_step does."""
    *result[:], made = document.step(work, count)
    if made is not None:
        rect[:] = made
    return result[0]


def called_backward(rects, points, result):
    """What panbuckle_backward does."""
    result[:] = document.backward(rects, points)
    return result[0]


ZEROS = (0,) * 2 * document.MOST_POINTS


def called_read_gdsii(stream, name, layer, scratch, corners, result):
    """What panbuckle_read_gdsii does."""
    result[:] = gdsii.read_gdsii(stream, name, layer, corners)
    scratch[:] = ZEROS
    return result[0]


FUNCTIONS = {
    "forward": Function(
        (
            Parameter("points", READ, "i32"),
            Parameter("work", LENT, "i32"),
            Parameter("rects", LENT, "i32"),
            Parameter("result", FIXED, "u64", 5),
        ),
        called_forward,
        (document.DONE, *document.FORWARD_ORDER),
    ),
    "step": Function(
        (
            Parameter("work", LENT, "i32"),
            Parameter("count", NUMBER, "usize"),
            Parameter("rect", FIXED, "i32", 4),
            Parameter("result", FIXED, "u64", 3),
        ),
        called_step,
        (document.DONE, *document.STEP_ORDER),
    ),
    "backward": Function(
        (
            Parameter("rects", READ, "i32"),
            Parameter("points", LENT, "i32"),
            Parameter("result", FIXED, "u64", 3),
        ),
        called_backward,
        (document.DONE, *document.BACKWARD_ORDER),
    ),
    "read_gdsii": Function(
        (
            Parameter("bytes", READ, "u8"),
            Parameter("name", READ, "u8"),
            Parameter("layer", NUMBER, "i32"),
            Parameter("scratch", FIXED, "i32", len(ZEROS)),
            Parameter("corners", LENT, "i32"),
            Parameter("result", FIXED, "u64", 3),
        ),
        called_read_gdsii,
        (document.DONE, *document.READ_GDSII_ORDER),
    ),
}
