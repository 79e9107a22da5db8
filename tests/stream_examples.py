"""Holds the stream files of examples/ to what makes them, and the program of examples/c that reads them to what the pages show.

- Each .gds file there is made here, record by record; --write writes them anew.
- Each block marked 'run' of docs/OPERATORS.md and docs/GDSII.md is a command line after a dollar, and what the program of that name writes,
  standard output before standard error; so is pads.out, for the layer and structure below. The second implementation must give the same
  numbers. Each refusal of read_gdsii that no other function gives has such a block.
- What the program says where it cannot read its words or its file.

The archive is there already: tests/c_face.py has made it. Each fault is printed on a line. The last line is 'N passed, M failed', and the
exit status is 0 exactly when M is 0.
"""

import argparse
import re
import subprocess
import sys
import tempfile
from pathlib import Path

from c_face import built
from counting import report
from machine import ROOT, emulator

sys.path.insert(0, str(Path(__file__).resolve().parent / "second"))

import document
from gdsii import read_gdsii
from streams import asked_for, boundary, box, library, path, reference, structure, text

EXAMPLES = ROOT / "examples"
PROGRAM = EXAMPLES / "c" / "gds_to_list.c"
PAGES = (ROOT / "docs" / "OPERATORS.md", ROOT / "docs" / "GDSII.md")
BLOCK = re.compile(r"^```run\n\$ (.*)\n((?:.*\n)*?)```$", re.MULTILINE)
OWN = {"TRUNCATED", "RECORD", "OPEN", "SLANTED", "ABSENT", "OVERLAP"}
MOST_RECTS = 3200

# ---- The files


def rectangle(x, y, width, height):
    """The vertices of a rectangle, anticlockwise, the first one again at the end."""
    return [(x, y), (x + width, y), (x + width, y + height), (x, y + height), (x, y)]


L_SHAPE = [(0, 0), (60, 0), (60, 20), (20, 20), (20, 60), (0, 60), (0, 0)]
# A ring is one boundary with a seam, along which the path goes in to the hole and back.
RING = [(80, 0), (140, 0), (140, 60), (80, 60), (80, 20), (100, 20), (100, 40), (120, 40), (120, 20), (80, 20), (80, 0)]
SQUARE, AT_ITS_CORNER, AT_ITS_SIDE = rectangle(0, 80, 20, 20), rectangle(20, 100, 20, 20), rectangle(40, 100, 30, 20)
PADS = [boundary(vertices) for vertices in (L_SHAPE, RING, SQUARE, AT_ITS_CORNER)] + [boundary(AT_ITS_SIDE, datatype=5)]
BESIDE = [box(rectangle(0, 0, 20, 20)), text([(30, 30)], b"L"), boundary(rectangle(-10, -10, 200, 200), layer=2)]
FRAME = structure(b"FRAME\0", path([(-10, -10), (190, -10), (190, 190)]), reference(b"PADS", (0, 0)))
FILES = {
    "pads.gds": b"".join(library(structure(b"PADS", *PADS, *BESIDE), FRAME)),
    "pads-truncated.gds": b"".join(library(structure(b"PADS", *PADS, *BESIDE), FRAME))[:530],
    "pads-path.gds": b"".join(asked_for(PADS[0], path([(0, 70), (60, 70)]))),
    "pads-open.gds": b"".join(asked_for(PADS[0], boundary(RING[:-1]))),
    "pads-slanted.gds": b"".join(asked_for(PADS[0], boundary([(80, 0), (140, 0), (140, 40), (120, 60), (80, 60), (80, 0)]))),
    "pads-overlap.gds": b"".join(asked_for(PADS[0], boundary(rectangle(50, 10, 40, 40)))),
}


def file_faults():
    """For each stream file of examples/ what is wrong with it, or None."""
    found = {file.name: file.read_bytes() for file in EXAMPLES.glob("*.gds")}
    for name in sorted({*FILES, *found}):
        yield None if found.get(name) == FILES.get(name) else f"examples/{name} is not what tests/stream_examples.py --write writes"


# ---- What they give


def printed_of(name, layer, stream):
    """What the second implementation would print of a file, on standard output."""
    points = [0] * 2 * document.MOST_POINTS
    answer, place, count = read_gdsii(stream, name.encode("ascii"), layer, points)
    if answer != document.DONE:
        return f"refused {answer} place {place}\n"
    work, rects = [0] * 2 * count, [0] * 4 * MOST_RECTS
    answer, place, made, area, edge = document.forward(points[: 2 * count], work, rects)
    if answer != document.DONE:
        return f"refused {answer} place {place}\n"
    lines = [f"rects {made} area {area} edge {edge}", *(" ".join(map(str, rect)) for rect in document.rects_of(rects[: 4 * made]))]
    return "\n".join([*lines, ""])


def shown():
    """The command lines that are shown, each with what must be written."""
    yield "gds_to_list examples/pads.gds PADS 1", (EXAMPLES / "pads.out").read_text(encoding="ascii")
    for page in PAGES:
        yield from BLOCK.findall(page.read_text(encoding="utf-8"))


def run_program(program, words):
    """The exit status of the program, and what it writes, first to standard output."""
    done = subprocess.run([*emulator(), str(program), *words], cwd=ROOT, capture_output=True, text=True, check=False)
    return done.returncode, done.stdout + done.stderr


def shown_fault(program, line, written):
    """What is wrong with a command line that is shown, or None."""
    called, file, name, layer = line.split()
    if called != PROGRAM.stem:
        return f"{line}: there is no such program"
    first = printed_of(name, int(layer), FILES[Path(file).name])
    if not written.startswith(first):
        return f"{line}: the second implementation gives {first!r}, and shown is {written!r}"
    got, wanted = run_program(program, [file, name, layer]), (1 if first.startswith("refused") else 0, written)
    return None if got == wanted else f"{line}: it gives {got} instead of {wanted}"


# Words that the program cannot use, and a part of what it says with status 2.
UNUSABLE = {
    (): "usage: gds_to_list FILE STRUCTURE LAYER",
    ("examples/pads.gds", "PADS"): "usage: gds_to_list FILE STRUCTURE LAYER",
    ("examples/pads.gds", "PADS", "one"): "LAYER is not a whole number of 32 bits: one\n",
    ("examples/pads.gds", "PADS", "2147483648"): "LAYER is not a whole number of 32 bits: 2147483648\n",
    ("examples/pads.gds", "PADS", ""): "LAYER is not a whole number of 32 bits\n",
    ("examples/none.gds", "PADS", "1"): "examples/none.gds: No such file or directory",
    ("examples", "PADS", "1"): "examples: Is a directory",
}


def program_faults(program):
    """For each way in which the program is called what is wrong, or None."""
    commands = list(shown())
    yield from (shown_fault(program, line, written) for line, written in commands)
    refused = {document.NAMES[int(written.split()[1])] for _, written in commands if written.startswith("refused")}
    yield None if OWN <= refused else f"there is no example of {sorted(OWN - refused)}"
    for words, said in UNUSABLE.items():
        status, written = run_program(program, words)
        yield None if status == 2 and said in written else f"{PROGRAM.stem} {words}: it gives {status, written}"


def main():
    """Checks the files and the program, prints the faults and the counts, and gives the exit status."""
    parser = argparse.ArgumentParser(description="Holds the stream files of examples/ to what makes them, and to what they give.")
    parser.add_argument("--write", action="store_true", help="first write the files anew")
    if parser.parse_args().write:
        for name, data in FILES.items():
            (EXAMPLES / name).write_bytes(data)
        (EXAMPLES / "pads.out").write_text(printed_of("PADS", 1, FILES["pads.gds"]), encoding="ascii")
    with tempfile.TemporaryDirectory() as folder:
        program = built(PROGRAM, folder)
        ran = list(program_faults(program)) if program else [f"{PROGRAM.name} could not be built"]
    outcomes = [*file_faults(), *ran]
    faults = [fault for fault in outcomes if fault]
    return report(len(outcomes) - len(faults), faults)


if __name__ == "__main__":
    sys.exit(main())
