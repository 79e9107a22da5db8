"""Builds Panbuckle's C face and the programs of this folder, runs them, and prints the figures of docs/SPEED.md.

The words are parts: points (the families of points, and backward), streams (the reading of GDSII). Without any, all are run. Both sides are built
for x86-64 and run the same way: natively, or both under Debian's emulator on another processor, where only the ratios say something.
Debian's packages that are wanted and not there are installed, but for KLayout, beside which streams are read: peers.py fetches it.
"""

import os
import shutil
import subprocess
import sys
import tempfile
from pathlib import Path

from families import FAMILIES, ORDERS, RECTANGLES, REFUSED, family, rectangles, refused
from peers import FETCH, klayout
from streams import AREAS, CORNERS, DEEP, LAYER, MEGABYTE, STREAMS, WANTED, write_stream

sys.path.append(str(Path(__file__).resolve().parent.parent / "tests"))

from machine import ARCHIVE, NATIVE, ROOT, emulator  # noqa: E402

COMPILER = "g++" if NATIVE else "x86_64-linux-gnu-g++"
PACKAGES = ["g++"] if NATIVE else ["g++-x86-64-linux-gnu"]
LOADER = "ld-linux-x86-64.so.2"
POLYGON = Path("/usr/include/boost/polygon/polygon.hpp")
SIZES = (512, 1024, 2048, 4096)
COUNTS = (1024, 4096, 16384)
# The most stack is used where a sort goes deepest, which takes few rectangles, or where backward's array of keys is filled once or more.
STACK_SIZES = (64, 4096)
STACK_COUNTS = (*range(1, 65), 336, 337, 384, 385, 672, 673, 768, 769, 1344, 1536, 4096, 16384)
MEGABYTES = (10, 100)
# How often KLayout reads each stream.
TURNS = 3


def run(*words, **named):
    """Runs a command that must end well; gives what it prints."""
    return subprocess.run([str(word) for word in words], check=True, text=True, stdout=subprocess.PIPE, **named).stdout


def ensure_tools():
    """Installs the compiler and Boost's headers where they are not there."""
    wanted = ([] if shutil.which(COMPILER) else PACKAGES) + ([] if POLYGON.exists() else ["libboost-dev"])
    if wanted:
        quiet = {"env": {**os.environ, "DEBIAN_FRONTEND": "noninteractive"}}
        run("apt-get", "update", **quiet)
        run("apt-get", "install", "-y", *wanted, **quiet)


def built(folder, name="compare"):
    """A program of this folder, built with the archive in a folder. Boost's headers serve any compiler, also one that does not look there.
    It is not static, since Debian's cross libm.a names files that are not there; and its symbols are bound at the start, so that the loader
    does not bind one on a stack that is measured."""
    program = Path(folder) / name
    headers = Path(folder) / "headers"
    if not headers.exists():
        headers.mkdir()
        (headers / "boost").symlink_to(POLYGON.parent.parent)
    words = ["-std=c++17", "-O3", "-Wl,-z,now", f"-I{ROOT / 'include'}", f"-I{headers}"]
    run(COMPILER, *words, ROOT / "bench" / f"{name}.cpp", ARCHIVE, "-o", program)
    return program


def with_libraries(program, loader):
    """The words that run a program that is not static: under the emulator with a loader, and the libraries that stand beside it."""
    return [program] if NATIVE else [*emulator(), loader, "--library-path", loader.parent, program]


def cross_program(program):
    """The words that run a program that was built here, with the cross compiler's libraries."""
    return with_libraries(program, Path(run(COMPILER, f"-print-file-name={LOADER}").strip()).resolve())


class Bench:
    """A program of this folder, and the files that it reads."""

    def __init__(self, folder, program):
        self.folder = Path(folder)
        self.command = cross_program(program)

    def rows(self, what, *words):
        """What the program prints, each line in words."""
        return [line.split() for line in run(*self.command, what, *words).splitlines()]

    def file(self, name, items):
        """A file of points or rectangles."""
        path = self.folder / f"{name}.txt"
        path.write_text("".join(" ".join(map(str, item)) + "\n" for item in items), encoding="utf-8")
        return path

    def stream(self, name, parts):
        """A file of a GDSII stream."""
        path = self.folder / f"{name}.gds"
        write_stream(path, parts)
        return path


def table(head, rows):
    """Prints a table in Markdown."""
    print()
    for row in [head, ["---"] * len(head), *rows]:
        print("| " + " | ".join(str(word) for word in row) + " |")


def compare_forward(bench, sizes):
    """Forward against Boost, family by family; gives our times by family and size."""
    rows, times = [], {}
    for name in FAMILIES:
        for n in sizes:
            (_, points, count, ours, theirs) = bench.rows("forward", bench.file(f"{name}_{n}", family(name, n)))[0]
            times[name, n] = (float(ours), int(count))
            rows.append([name.replace("_", " "), points, count, f"{float(ours):.4f}", f"{float(theirs):.4f}", f"{float(ours) / float(theirs):.2f}"])
    table(["family", "points", "rectangles", "Panbuckle, ms", "Boost.Polygon, ms", "ratio"], rows)
    return times


def show_growth(times, sizes):
    """What a doubling of the points does to the time, and to the number of rectangles."""
    pairs = list(zip(sizes, sizes[1:]))
    rows = []
    for name in FAMILIES:
        grown = [(times[name, n][0] / times[name, m][0], times[name, n][1] / times[name, m][1]) for m, n in pairs]
        rows.append([name.replace("_", " "), *[f"{time:.1f} ({count:.1f})" for time, count in grown]])
    table(["family: time (rectangles)", *[f"{m} to {n}" for m, n in pairs]], rows)


def compare_backward(bench):
    """Backward against a sort."""
    rows = bench.rows("backward", *COUNTS)
    table(["rectangles", "points", "backward, ms", "std::sort, ms", "ratio"], [[count, points, ours, theirs, f"{float(ours) / float(theirs):.2f}"] for _, count, points, ours, theirs in rows])


def show_refused(bench):
    """How long refusals take, forward and in a step; and how long forward takes where all points cancel."""
    files = [bench.file(name, refused(name)) for name in REFUSED]
    rows = [[name.replace("_", " "), *rest] for name, *rest in bench.rows("refused", *files)]
    table(["refused", "points", "forward's answer", "place", "ms", "a step's answer", "place", "ms"], rows)


def point_files(bench, sizes):
    """Files of the families of these sizes in every order, and of the refused arrays."""
    for name in FAMILIES:
        for n in sizes:
            points = family(name, n)
            yield bench.file(f"{name}_{n}", points)
            yield from (bench.file(f"{name}_{n}_{order}", put(points)) for order, put in ORDERS.items())
    yield from (bench.file(name, refused(name)) for name in REFUSED)


def most_stack(bench, sizes, counts):
    """The most bytes of stack that a call of each function uses, over points of these sizes and these counts of rectangles."""
    points = bench.rows("stack", *point_files(bench, sizes))
    files = [bench.file(f"{name}_{count}", rectangles(name, count)) for name in RECTANGLES for count in counts]
    columns = {"forward": (points, 2), "step": (points, 3), "backward": (bench.rows("backstack", *files), 2)}
    return {name: max(int(row[column]) for row in rows) for name, (rows, column) in columns.items()}


def show_stack(bench):
    """The most stack that each call uses."""
    table(["call", "bytes of stack, at most"], most_stack(bench, STACK_SIZES, STACK_COUNTS).items())


def show_fracture(bench, name, n):
    """Where fracture's time goes. A text that is refused for its first point is read whole and no further looked at; a step makes all the
    checks; forward makes them and the list."""
    points = family(name, n)
    text, far, empty = bench.file("whole", points), bench.file("far", [(2000000000, 0), *points[1:]]), bench.file("empty", [])
    program = cross_program(ROOT / "crates" / "fracture" / "out" / "fracture")
    start, read, whole = (float(bench.rows("program", file, *program)[0][1]) for file in (empty, far, text))
    checks = float(bench.rows("step", text)[0][2])
    listed = float(bench.rows("forward", text)[0][3])
    parts = {"start and end": start, "reading": read - start, "checks": checks, "list": listed - checks, "printing": whole - read - listed}
    table([f"fracture, {name.replace('_', ' ')}, {len(points)} points", "ms"], [*[[part, f"{time:.3f}"] for part, time in parts.items()], ["in all", f"{whole:.3f}"]])


def show_points(folder):
    """The families of points, forward, in a step, backward and by fracture."""
    # This builds it where it is not built, and runs it.
    run(ROOT / "bin" / "fracture", stdin=subprocess.DEVNULL)
    bench = Bench(folder, built(folder))
    show_growth(compare_forward(bench, SIZES), SIZES)
    compare_backward(bench)
    show_refused(bench)
    show_stack(bench)
    for name in ("rects", "noise"):
        show_fracture(bench, name, SIZES[-1])


def read_by_klayout(folder, files):
    """KLayout's times, with all layers and with the asked one alone, by file; none where it is not there."""
    library = Path(folder) / "main_stack.so"
    run(COMPILER, "-x", "c", "-O2", "-shared", "-fPIC", ROOT / "bench" / "main_stack.c", "-o", library)
    words = klayout(library)
    if words is None:
        print(f"\nKLayout is not here, so its columns are left out: {FETCH} fetches it")
        return {}
    asked = {"STREAMS": ":".join(map(str, files)), "STRUCTURE": WANTED.decode(), "LAYER": str(LAYER), "TURNS": str(TURNS)}
    alone = {"HOME": folder, "QT_QPA_PLATFORM": "offscreen"}
    printed = run(*words, "-zz", "-r", ROOT / "bench" / "klayout_read.py", env={**os.environ, **alone, **asked})
    times = {}
    for file, way, corners, time in (line.split() for line in printed.splitlines()):
        ensure_corners(Path(file).stem.rpartition("_")[0], corners)
        times.setdefault(file, {})[way] = float(time)
    return times


def ensure_corners(name, corners):
    """What is read of a stream has as many corners as it should have."""
    if int(corners) != CORNERS[name]:
        raise SystemExit(f"{name}: {corners} corners are read, and not {CORNERS[name]}")


def compare_streams(bench):
    """The reading of streams of some megabytes, beside KLayout's, and beside a loop that goes from record to record."""
    files = {(name, size): bench.stream(f"{name}_{size}", stream(size * MEGABYTE)) for name, stream in STREAMS.items() for size in MEGABYTES}
    theirs = read_by_klayout(bench.folder, files.values())
    rows = []
    for (name, size), file in files.items():
        ((_, length, records, corners, call, whole, hops),) = bench.rows("read", WANTED.decode(), LAYER, file)
        ensure_corners(name, corners)
        by_klayout = [f"{time:.0f} ({float(whole) / time:.3f})" for time in theirs.get(str(file), {}).values()]
        speed = int(length) / MEGABYTE / (float(call) / 1000)
        rows.append([name.replace("_", " "), f"{int(length) / MEGABYTE:.1f}", records, corners, call, f"{speed:.0f}", hops, whole, *by_klayout])
    peers = ["KLayout, ms (ratio)", "KLayout, that layer alone"] if theirs else []
    table(["stream", "MB", "records", "corners", "the call, ms", "MB a second", "a loop over the records, ms", "with the file, ms", *peers], rows)


def compare_areas(bench):
    """The reading of boundaries with many corners, beside forward's counting on the same corners."""
    rows = []
    for name, (stream, size) in AREAS.items():
        ((_, corners, rects, call, forward),) = bench.rows("areas", WANTED.decode(), LAYER, bench.stream(name, stream(size)))
        ensure_corners(name, corners)
        rows.append([name.replace("_", " "), corners, rects, call, forward, f"{float(call) / float(forward):.2f}"])
    table(["stream", "corners", "rectangles", "the call, ms", "forward counts, ms", "ratio"], rows)


def reading_stack(bench):
    """The most bytes of stack that a call uses which reads a stream."""
    files = [bench.stream(name, stream(size)) for name, (stream, size) in DEEP.items()]
    return max(int(stack) for _, _, stack in bench.rows("stack", WANTED.decode(), LAYER, *files))


def show_streams(folder):
    """The reading of GDSII."""
    bench = Bench(folder, built(folder, "streams"))
    compare_streams(bench)
    compare_areas(bench)
    table(["call", "bytes of stack, at most"], [["read_gdsii", reading_stack(bench)]])


PARTS = {"points": show_points, "streams": show_streams}


def main():
    """Builds, runs and prints the parts that the words name."""
    wanted = sys.argv[1:] or list(PARTS)
    if not set(wanted) <= set(PARTS):
        raise SystemExit(f"bench.py: the parts are {', '.join(PARTS)}")
    ensure_tools()
    run("rt", "lib", cwd=ROOT / "crates" / "panbuckle_c")
    for part in wanted:
        with tempfile.TemporaryDirectory() as folder:
            PARTS[part](folder)
    return 0


if __name__ == "__main__":
    sys.exit(main())
