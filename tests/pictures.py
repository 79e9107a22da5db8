"""Runs the program picture over the examples and the pairs, and holds what it draws to what fracture prints of the same input.

Each picture is read as XML. The rectangles must be those of the list, in its order and with its numbers, and the points those of the input,
each where a plain computation puts it, and hollow exactly where it is listed an even number of times; a refusal must be said, and the point
that it names marked. Pictures that stand in examples/ must be what the program draws. `rt ci` before has built both programs.

Each fault is printed on a line. The last line is 'N passed, M failed', and the exit status is 0 exactly when M is 0.
"""

import subprocess
import sys
import xml.etree.ElementTree as xml
from collections import Counter
from pathlib import Path

from counting import report
from pairs import input_of

ROOT = Path(__file__).resolve().parent.parent
SVG = "{http://www.w3.org/2000/svg}"
SIDE = 100_000
MOST_DRAWN = 800_000
# What takes long under an emulator is left to the shorter ones.
MOST_LINES = 600
FEWEST_INPUTS = 80


def output_of(program, data):
    """What a program of bin/ writes to its two outputs for an input."""
    done = subprocess.run([ROOT / "bin" / program], input=data, capture_output=True, check=True)
    return done.stdout.decode("ascii"), done.stderr.decode("ascii")


class View:
    """The points' frame as it is shown: the longer side has 100,000 units, and y grows upwards."""

    def __init__(self, points):
        xs, ys = [x for x, _ in points] or [0], [y for _, y in points] or [0]
        self.left, self.bottom = min(xs), min(ys)
        self.span = max(1, max(xs) - self.left, max(ys) - self.bottom)
        self.width, self.height = self.scaled(max(xs) - self.left), self.scaled(max(ys) - self.bottom)

    def scaled(self, distance):
        return distance * SIDE // self.span

    def place(self, x, y):
        """Where a point is shown."""
        return self.scaled(x - self.left), self.height - self.scaled(y - self.bottom)

    def box(self, x, y, w, h):
        """Where a rectangle is shown: its left and upper end, its width and its height."""
        (left, lower), (right, upper) = self.place(x, y), self.place(x + w, y + h)
        return left, upper, max(1, right - left), max(1, lower - upper)


def numbers(element, *names):
    """Attributes of an element, as numbers."""
    return tuple(int(element.get(name)) for name in names)


def group(picture, name):
    """The elements of a group."""
    return list(next(g for g in picture.findall(f"{SVG}g") if g.get("class") == name))


def said(picture, name):
    """The texts of a class, without the spaces at their ends."""
    return [text.text.strip() for text in picture.findall(f"{SVG}text") if text.get("class") == name]


def list_fault(picture, view, rects):
    """What is wrong with the rectangles and their numbers, or None."""
    drawn = group(picture, "list")
    boxes, labels = drawn[0::2], drawn[1::2]
    if [numbers(box, "x", "y", "width", "height") for box in boxes] != [view.box(*rect) for rect in rects]:
        return "the rectangles are not the list's"
    if [label.text for label in labels] != [str(i) for i in range(len(rects))]:
        return "the numbers are not those of the list's order"
    for label, box in zip(labels, boxes):
        (x, y, size), (left, top, w, h) = numbers(label, "x", "y", "font-size"), numbers(box, "x", "y", "width", "height")
        if (x, y) != (left + w // 2, top + h // 2) or size > h or size * 2 > w:
            return f"the number {label.text} does not stand within its rectangle"
    return None


def points_fault(picture, view, points):
    """What is wrong with the points, or None."""
    dots, times = group(picture, "points"), Counter(points)
    if [numbers(dot, "cx", "cy") for dot in dots] != [view.place(*point) for point in points]:
        return "the points are not the input's"
    if [dot.get("class") for dot in dots] != ["gone" if times[point] % 2 == 0 else None for point in points]:
        return "the hollow points are not those listed an even number of times"
    return None


def mark_fault(picture, view, place):
    """What is wrong with the mark of the point that is refused, if any is, or None."""
    rings = [numbers(ring, "cx", "cy") for ring in picture.findall(f"{SVG}circle") if ring.get("class") == "bad"]
    wanted = [] if place is None else [view.place(*place)]
    return None if rings == wanted else f"marked is {rings} instead of {wanted}"


def fault_of(data):
    """What is wrong with the picture of an input, or None."""
    answer, sentence = output_of("fracture", data)
    drawn, _ = output_of("picture", data)
    picture = xml.fromstring(drawn)
    lines = answer.splitlines()
    refused = lines[0].startswith("refused")
    number, at = (int(lines[0].split()[1]), int(lines[0].split()[3])) if refused else (0, 0)
    points = [] if number in (2, 11) else [tuple(map(int, line.split())) for line in data.decode("ascii").splitlines()]
    view = View(points)
    faults = [
        None if len(drawn) <= MOST_DRAWN else "the picture is too long",
        None if picture.get("viewBox").split()[3] == str(view.height + 10_000) else "the picture's height is wrong",
        points_fault(picture, view, points),
        list_fault(picture, view, [tuple(map(int, line.split())) for line in lines[1:]]),
        mark_fault(picture, view, points[at] if 4 <= number <= 7 else None),
        None if said(picture, "said") == lines[:1] else f"it says {said(picture, 'said')} instead of {lines[0]!r}",
        None if said(picture, "why") == ([sentence.strip()] if refused else []) else f"it does not say {sentence!r}",
    ]
    return next((fault for fault in faults if fault), None)


def main():
    """Draws all inputs, prints the faults and the counts, and gives the exit status."""
    sources = sorted(source for pattern in ("examples/*.in", "tests/pairs/*.in", "tests/pairs/*.json") for source in ROOT.glob(pattern))
    inputs = [(source, input_of(source)) for source in sources]
    chosen = [(source, data) for source, data in inputs if data.count(b"\n") <= MOST_LINES]
    outcomes = [(source, fault_of(data)) for source, data in chosen]
    for kept in sorted(ROOT.glob("examples/*.svg")):
        same = kept.read_text(encoding="ascii") == output_of("picture", kept.with_suffix(".in").read_bytes())[0]
        outcomes.append((kept, None if same else "the program draws another"))
    faults = [f"{source.relative_to(ROOT)}: {fault}" for source, fault in outcomes if fault]
    if len(chosen) < FEWEST_INPUTS:
        faults.append(f"there are only {len(chosen)} inputs, and at least {FEWEST_INPUTS} are wanted")
    return report(len(outcomes) + 1 - len(faults), faults)


if __name__ == "__main__":
    sys.exit(main())
