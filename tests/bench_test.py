"""Checks that the comparison of bench/ builds and runs: on small arrays of every family Boost.Polygon covers the same area, each array that
a step is to refuse has its answer and forward's, the most stack that is measured is what the header says, rounded up, and each stream is read
with all its corners. How long anything takes is not judged.

Each fault is printed on a line. The last line is 'N passed, M failed', and the exit status is 0 exactly when M is 0.
"""

import os
import re
import subprocess
import sys
import tempfile
from pathlib import Path

from c_face import made
from counting import report

ROOT = Path(__file__).resolve().parent.parent
sys.path.insert(0, str(ROOT / "bench"))

from bench import Bench, built, ensure_tools, most_stack, reading_stack  # noqa: E402
from families import FAMILIES, MOST, REFUSED, family, refused  # noqa: E402
from streams import AREAS, CORNERS, LAYER, MEGABYTE, STREAMS, WANTED  # noqa: E402

FEW = 64
# The fewest points and rectangles that take the sorts to their depth.
DEEP = 2048
FEW_RECTANGLES = (1, 28, 40, 337, 385)
HEADER = ROOT / "include" / "panbuckle.h"
STACK = re.compile(r"at most ([\d.]+) KiB of stack forward, in a step\s+\*?\s*and for a stream file, and ([\d.]+) KiB backward")
KIB = 1024


def outcomes(bench):
    """For each array what is wrong, or None."""
    for name in FAMILIES:
        points = family(name, FEW)
        ((_, count, rects, *_),) = bench.rows("forward", bench.file(name, points))
        yield None if int(count) == len(points) <= FEW and int(rects) > 0 else f"{name}: {count} points and {rects} rectangles"
    for name, (_, *wanted) in REFUSED.items():
        ((_, count, by_forward, _, _, by_step, *_),) = bench.rows("refused", bench.file(name, refused(name)))
        answers = [int(by_forward), int(by_step)]
        yield None if (int(count), answers) == (MOST, wanted) else f"{name}: answers {answers}, not {wanted}, to {count} points"
    ((_, count, points, *_),) = bench.rows("backward", "16")
    yield None if (count, points) == ("16", "56") else f"backward: {points} points of {count} rectangles, and not 56"
    yield from stack_faults(most_stack(bench, (FEW, DEEP), FEW_RECTANGLES))


def stack_faults(measured):
    """For each function what is wrong with what the header says of its stack, or None: it is what was measured and less than a KiB more."""
    forward, backward = STACK.search(HEADER.read_text(encoding="utf-8")).groups()
    for name, used in measured.items():
        said = backward if name == "backward" else forward
        over = float(said) * KIB - used
        yield None if 0 <= over < KIB else f"stack: {name} uses {used} bytes, and the header says {said} KiB"


def stream_outcomes(bench):
    """For each stream what is wrong, or None."""
    read = {name: bench.rows("read", WANTED.decode(), LAYER, bench.stream(name, stream(MEGABYTE)))[0][3] for name, stream in STREAMS.items()}
    read |= {name: bench.rows("areas", WANTED.decode(), LAYER, bench.stream(name, stream(size)))[0][1] for name, (stream, size) in AREAS.items()}
    for name, corners in read.items():
        yield None if int(corners) == CORNERS[name] else f"{name}: {corners} corners are read, and not {CORNERS[name]}"
    yield from stack_faults({"read_gdsii": reading_stack(bench)})


def main():
    """Builds and runs the comparison, prints the faults and the counts, and gives the exit status."""
    os.environ["COMPARE_FOR"] = "0"
    found = [None if made() else "the archive could not be made"]
    try:
        ensure_tools()
        with tempfile.TemporaryDirectory() as folder:
            found += outcomes(Bench(folder, built(folder)))
            found += stream_outcomes(Bench(folder, built(folder, "streams")))
    except subprocess.CalledProcessError as failure:
        found.append(f"a command ended badly: {failure}")
    faults = [fault for fault in found if fault]
    return report(len(found) - len(faults), faults)


if __name__ == "__main__":
    sys.exit(main())
