"""Has other programs write stream files, and compares what the second implementation reads in them with what they say of them themselves. It
is no part of the gate, and leaves out a program that is not there: Debian has both, in its packages klayout and python3-gdspy.

- KLayout writes boxes by chance, as they are and merged into polygons with holes, among texts and paths on other layers and cells. The
  rectangles that our forward makes of the corners must cover just what KLayout says that the boxes cover; and boxes of which KLayout says
  that they overlap must be refused as OVERLAP.
- gdspy writes such polygons, and reads them again: the corners must be those of the polygons that it reads.

Each fault is printed on a line. The last line is 'N passed, M failed', and the exit status is 0 exactly when M is 0.
"""

import shutil
import subprocess
import sys
import tempfile
from pathlib import Path
from random import Random

HERE = Path(__file__).resolve().parent
sys.path[:0] = [str(HERE), str(HERE / "second")]

import document
from counting import report
from families import SEED
from gdsii import corners_of, read_gdsii

try:
    import pya
except ImportError:
    pya = None
try:
    import gdspy
except ImportError:
    gdspy = None

FILES = 300
LAYER = 7
NAME = "PADS"


def corners_in(file):
    """The answer that a file gets, and its corners."""
    points = [0] * 2 * document.MOST_POINTS
    answer, _, count = read_gdsii(file.read_bytes(), NAME.encode("ascii"), LAYER, points)
    return answer, points[: 2 * count]


def boxes_by_chance(chance):
    """Left, bottom, right and top of some boxes, small ones or as far apart as can be."""
    scale, boxes = chance.choice((1, 7, 10_000_000)), []
    for _ in range(chance.randint(1, 12)):
        x, y = chance.randrange(-80, 80), chance.randrange(-80, 80)
        boxes.append([scale * number for number in (x, y, x + chance.randint(1, 20), y + chance.randint(1, 20))])
    return boxes


# ---- KLayout


def klayout_file(chance, region, file):
    """Writes a region as the boundaries of a layer, with other things beside them."""
    layout = pya.Layout()
    cell, other = layout.create_cell(NAME), layout.create_cell("FRAME")
    cell.shapes(layout.layer(LAYER, chance.randrange(3))).insert(region)
    cell.shapes(layout.layer(LAYER + 1, 0)).insert(pya.Polygon([pya.Point(0, 0), pya.Point(50, 70), pya.Point(90, 0)]))
    cell.shapes(layout.layer(LAYER, 0)).insert(pya.Text("PAD", pya.Trans(5, 5)))
    other.shapes(layout.layer(LAYER, 0)).insert(pya.Path([pya.Point(0, 0), pya.Point(500, 0)], 20))
    other.insert(pya.CellInstArray(cell.cell_index(), pya.Trans(1000, 0)))
    layout.write(str(file))


def klayout_fault(chance, file):
    """What is wrong with a file of KLayout's, or None."""
    boxes = [pya.Box(*sides) for sides in boxes_by_chance(chance)]
    region = pya.Region(boxes)
    merged = region.merged()
    overlaps = sum(box.area() for box in boxes) > merged.area()
    for shapes, wanted in ((region, document.OVERLAP if overlaps else document.DONE), (merged, document.DONE)):
        klayout_file(chance, shapes, file)
        answer, points = corners_in(file)
        if answer != wanted:
            return f"KLayout: the answer for {boxes} is {answer}, and not {wanted}"
        rects = document.rectangles(document.points_of(points))
        lit = pya.Region([pya.Box(x, y, x + w, y + h) for x, y, w, h in rects])
        if answer == document.DONE and not (lit ^ merged).is_empty():
            return f"KLayout: the rectangles of {boxes} cover something else"
    return None


# ---- gdspy


def gdspy_file(chance, file):
    """Writes boxes by chance as polygons of a layer, with other things beside them."""
    boxes = [gdspy.Rectangle(sides[:2], sides[2:]) for sides in boxes_by_chance(chance)]
    cell, other = gdspy.Cell(NAME, exclude_from_current=True), gdspy.Cell("FRAME", exclude_from_current=True)
    cell.add(gdspy.boolean(boxes, None, "or", precision=0.5, max_points=0, layer=LAYER, datatype=chance.randrange(3)))
    cell.add(gdspy.Label("PAD", (5, 5), layer=LAYER))
    other.add([gdspy.FlexPath([(0, 0), (500, 0)], 20, gdsii_path=True, layer=LAYER), gdspy.CellReference(cell, (9, 9))])
    library = gdspy.GdsLibrary(unit=1e-9, precision=1e-9)
    library.add([cell, other])
    library.write_gds(str(file))


def gdspy_fault(chance, file):
    """What is wrong with a file of gdspy's, or None."""
    gdspy_file(chance, file)
    cell = gdspy.GdsLibrary(infile=str(file)).cell_dict[NAME]
    polygons = [[tuple(map(round, vertex)) for vertex in polygon] for polygon in cell.get_polygons()]
    wanted = document.numbers_of(corner for polygon in polygons for corner in corners_of([*polygon, polygon[0]]))
    got = corners_in(file)
    return None if got == (document.DONE, wanted) else f"gdspy: {got} is read, and not {wanted}"


# ---- All of it


def compared(peer_fault):
    """For each file of one program what is wrong, or None."""
    chance = Random(SEED)
    with tempfile.TemporaryDirectory() as folder:
        return [peer_fault(chance, Path(folder) / "peer.gds") for _ in range(FILES)]


def main():
    """Compares with the programs that are there, prints the faults and the counts, and gives the exit status. KLayout runs this file itself."""
    if pya is None and shutil.which("klayout"):
        return subprocess.run(["klayout", "-zz", "-r", __file__], check=False).returncode
    outcomes = [*(compared(klayout_fault) if pya else []), *(compared(gdspy_fault) if gdspy else [])]
    for name, package, module in (("KLayout", "klayout", pya), ("gdspy", "python3-gdspy", gdspy)):
        if module is None:
            print(f"{name} is not there, so that nothing is compared with it: apt-get install {package}")
    faults = [fault for fault in outcomes if fault]
    return report(len(outcomes) - len(faults), faults)


if __name__ == "__main__":
    sys.exit(main())
