"""Runs the program fracture over folders of pairs and holds what it writes to them.

A pair is NAME.in, what is on standard input, and NAME.out, what standard output must be, byte for byte; NAME.err is what standard error
must be, where there is such a file, and otherwise it must be empty. A long input may stand in NAME.json instead, as a list of texts that
follow one another, each with how often it is repeated. Each input is given once as a file and once through a pipe, a part at a time, so
that reads fall short. After the pairs come inputs and outputs that fail: a closed one, a folder, a full device.

`rt ci` before has built the program. Each fault is printed on a line. The last line is 'N passed, M failed', and the exit status is 0
exactly when M is 0.
"""

import json
import os
import subprocess
import sys
import tempfile
import threading
from pathlib import Path

from counting import report

ROOT = Path(__file__).resolve().parent.parent
PROGRAM = ROOT / "bin" / "fracture"
FOLDERS = [ROOT / "tests" / "pairs", ROOT / "examples"]
FEWEST_PAIRS = 60
# So few bytes go into a pipe at once, and no number of such parts is the limit on bytes.
PART = 997

UNREAD = b"Standard input could not be read to its end: what was read before is taken for all of it.\n"
UNWRITTEN = b"Standard output could not be written whole.\n"
EMPTY_LIST = b"rects 0 area 0 edge 0\n"


def feed(pipe, data):
    """Writes the data a part at a time, until the program has read enough."""
    try:
        for start in range(0, len(data), PART):
            pipe.write(data[start : start + PART])
    except BrokenPipeError:
        pass
    pipe.close()


def input_of(source):
    """The bytes of a pair's input."""
    if source.suffix == ".json":
        return "".join(text * times for times, text in json.loads(source.read_text(encoding="utf-8"))).encode("ascii")
    return source.read_bytes()


def run_on_file(data):
    """What the program writes, to standard output and to standard error, with the data in a file as its input."""
    with tempfile.TemporaryFile() as source:
        source.write(data)
        source.seek(0)
        done = subprocess.run([PROGRAM], stdin=source, capture_output=True, check=False)
    return done.returncode, done.stdout, done.stderr


def run_on_pipe(data):
    """The same, with the data coming through a pipe a part at a time."""
    ends = {"stdin": subprocess.PIPE, "stdout": subprocess.PIPE, "stderr": subprocess.PIPE}
    with subprocess.Popen([PROGRAM], bufsize=0, **ends) as running:
        feeder = threading.Thread(target=feed, args=(running.stdin, data))
        feeder.start()
        output, errors = running.stdout.read(), running.stderr.read()
        feeder.join()
    return running.returncode, output, errors


def expected_of(source):
    """What the program must write for a pair's input."""
    errors = source.with_suffix(".err")
    return 0, source.with_suffix(".out").read_bytes(), errors.read_bytes() if errors.is_file() else b""


def shown(outcome):
    """An outcome, short enough for a line."""
    status, output, errors = outcome
    return f"status {status}, {output[:60]!r}, {errors[:120]!r}"


def difference(name, got, wanted):
    """What is wrong with an outcome, or None."""
    return None if got == wanted else f"{name}: it gave {shown(got)} instead of {shown(wanted)}"


def pair_faults(source):
    """The outcomes of a pair's input, as a file and through a pipe: for each what is wrong with it, or None."""
    name, data, wanted = source.relative_to(ROOT), input_of(source), expected_of(source)
    yield difference(f"{name} as a file", run_on_file(data), wanted)
    yield difference(f"{name} through a pipe", run_on_pipe(data), wanted)


def failing_faults():
    """The outcomes where an end fails: for each what is wrong with it, or None."""
    closed = subprocess.run(["sh", "-c", '"$0" <&-', PROGRAM], capture_output=True, check=False)
    yield difference("a closed input", (closed.returncode, closed.stdout, closed.stderr), (0, EMPTY_LIST, UNREAD))
    folder = os.open(ROOT, os.O_RDONLY)
    unread = subprocess.run([PROGRAM], stdin=folder, capture_output=True, check=False)
    os.close(folder)
    yield difference("a folder as input", (unread.returncode, unread.stdout, unread.stderr), (0, EMPTY_LIST, UNREAD))
    with open("/dev/full", "wb") as full:
        unwritten = subprocess.run([PROGRAM], stdin=subprocess.DEVNULL, stdout=full, stderr=subprocess.PIPE, check=False)
    yield difference("a full output", (unwritten.returncode, b"", unwritten.stderr), (0, b"", UNWRITTEN))


def main():
    """Runs all pairs, prints the faults and the counts, and gives the exit status."""
    sources = [source for folder in FOLDERS for source in sorted([*folder.glob("*.in"), *folder.glob("*.json")])]
    outcomes = [fault for source in sources for fault in pair_faults(source)]
    outcomes += failing_faults()
    if len(sources) < FEWEST_PAIRS:
        outcomes.append(f"there are only {len(sources)} pairs, and at least {FEWEST_PAIRS} are wanted")
    faults = [fault for fault in outcomes if fault]
    return report(len(outcomes) - len(faults), faults)


if __name__ == "__main__":
    sys.exit(main())
