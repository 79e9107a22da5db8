"""Compares the compiled library with a second implementation: document.py and gdsii.py, in Python, written from the words of documents 01
and 02.

A C program, driver.c, is built with the archive and makes the calls. For each of them the number that comes back, every number of every
array that was lent or read, and the guard zones around these must be what the second implementation says; for the plates it must also say
what document 01 itself states, and for most stream files what they are made to give. functions.py has the table of the functions, and says
how one is added.

Each call is a test. The first ones that differ are printed with their numbers; `--call N` makes that call alone and prints the lines that
go to the driver and come back. The last line is 'N passed, M failed', and the exit status is 0 exactly when M is 0.
"""

import argparse
import subprocess
import sys
import tempfile
from collections import Counter
from itertools import chain, islice
from pathlib import Path

HERE = Path(__file__).resolve().parent
sys.path.insert(0, str(HERE.parent))

from c_face import built, made
from document import DONE, NAMES, points_of
from edges import length_groups, pair_groups, range_groups, room_groups, step_groups, stop_groups, vanishing_groups
from families import grid_groups, large_groups, listing_groups, outline_groups, repeated_groups, small_groups
from functions import FUNCTIONS, LENT, NUMBER, READ
from machine import emulator
from plates import plate_groups
from record_families import RECORD_FAMILIES
from shape_families import SHAPE_FAMILIES

# The families of stream files, and the fewest files that each must give.
FAMILIES = {**RECORD_FAMILIES, **SHAPE_FAMILIES}
GENERATORS = (
    plate_groups,
    pair_groups,
    vanishing_groups,
    range_groups,
    length_groups,
    room_groups,
    stop_groups,
    step_groups,
    grid_groups,
    large_groups,
    small_groups,
    outline_groups,
    listing_groups,
    repeated_groups,
    *FAMILIES,
)
# How many groups of calls, each with an array or a file of its own, there must be at least.
FEWEST_GROUPS = {"forward": 53_000, "step": 3_475, "backward": 5_765, "read_gdsii": sum(FAMILIES.values())}
# On how many different arrays without a repeated point the edge must be compared at least: that is a field of the result of forward on answer 0.
FEWEST_EDGES = 20_000
# And on how many with one.
FEWEST_REPEATED = 20_000
# The driver is started anew after arrays with so many numbers.
BATCH = 1_000_000
MOST_PRINTED = 5
LONGEST_PRINTED = 600
MOST_STATED = 20


# ---- A call as a line, and what is printed for it


def words_of(parameter, argument):
    """An argument as the driver reads it."""
    if parameter.kind == NUMBER:
        return NUMBER, argument
    numbers = argument.numbers
    words = ([numbers.hex()] if numbers else []) if isinstance(numbers, bytes) else numbers
    return parameter.type, argument.length, argument.fill, len(numbers), *words


def line_of(call):
    """A call as the driver reads it."""
    words = map(words_of, FUNCTIONS[call.name].parameters, call.arguments)
    return " ".join(map(str, chain([call.name], *words)))


def numbers_in(words):
    """All numbers of an array, of which the equal ones at the end are one word; or None if they are as they were."""
    if words == ["="]:
        return None
    *first, last = words
    number, count = last.split("*")
    numbers = [int(number)] * int(count)
    return [*map(int, first), *numbers] if first else numbers


def outcome_in(line):
    """What the driver printed: the number returned, and for each array the guard bytes changed and its numbers."""
    (returned,), *arrays = (part.split() for part in line.split(";"))
    return int(returned), [(int(words[0]), numbers_in(words[1:])) for words in arrays]


# ---- What is wanted


def array_names(call):
    """The names of a call's arrays."""
    return [parameter.name for parameter in FUNCTIONS[call.name].parameters if parameter.kind != NUMBER]


def value_of(parameter, argument):
    """An argument as the definition gets it: a number, a tuple or bytes that are only read, or a list that is lent."""
    if parameter.kind == NUMBER:
        return argument
    return argument.numbers if parameter.kind == READ else argument.whole()


def outcome_of(call):
    """What the definition says comes of a call: the number returned, and the arrays. No guard byte is changed."""
    function = FUNCTIONS[call.name]
    values = list(map(value_of, function.parameters, call.arguments))
    returned = function.definition(*values)
    return returned, [(0, value) for value in values if not isinstance(value, int)]


def in_full(call, arrays):
    """The arrays that the driver printed, with the numbers of those that are as they were."""
    given = [pair for pair in zip(FUNCTIONS[call.name].parameters, call.arguments) if pair[0].kind != NUMBER]
    return [(guards, value_of(*before) if numbers is None else numbers) for (guards, numbers), before in zip(arrays, given)]


def array_faults(names, wanted, got):
    """What is wrong with the arrays after a call."""
    for name, (_, right), (guards, numbers) in zip(names, wanted, got):
        if guards:
            yield f"{guards} bytes beside {name} are changed"
        if len(numbers) != len(right):
            yield f"{name} has {len(numbers)} numbers instead of {len(right)}"
        wrong = [i for i, pair in enumerate(zip(numbers, right)) if pair[0] != pair[1]]
        if wrong:
            yield f"{name}[{wrong[0]}] is {numbers[wrong[0]]} instead of {right[wrong[0]]}, one of {len(wrong)} such"


def stated_faults(call, outcome):
    """What is stated of a call and does not hold of an outcome."""
    arrays = dict(zip(array_names(call), outcome[1]))
    for name, numbers in (call.stated or {}).items():
        begins = arrays[name][1][: len(numbers)]
        if [a if b is not None else None for a, b in zip(begins, numbers)] != list(numbers):
            yield f"{name} begins with {begins[:MOST_STATED]}, and {list(numbers[:MOST_STATED])} is stated"


def difference(call, line):
    """How what the driver printed differs from what is wanted, in words; or an empty text."""
    try:
        returned, arrays = outcome_in(line)
    except (ValueError, IndexError):
        return f"the driver printed {line[:LONGEST_PRINTED]!r}"
    wanted = outcome_of(call)
    if len(arrays) != len(wanted[1]):
        return f"there are {len(arrays)} arrays instead of {len(wanted[1])}"
    got = returned, in_full(call, arrays)
    faults = list(stated_faults(call, wanted)) if call.stated else []
    if got != wanted:
        faults += [f"it returned {returned} instead of {wanted[0]}"] if returned != wanted[0] else []
        faults += array_faults(array_names(call), wanted[1], got[1])
    return "; ".join(faults)


# ---- All calls


class Tally:
    """What was compared: of each function the groups, the calls and the answers; and what differs."""

    def __init__(self):
        self.groups, self.calls, self.answers, self.faults = Counter(), Counter(), Counter(), []
        self.edges, self.repeated = set(), set()

    def add(self, call, line):
        """Compares a call and counts it."""
        fault = difference(call, line)
        if fault:
            self.faults.append(f"call {sum(self.calls.values())}: {line_of(call)[:LONGEST_PRINTED]}: {fault}")
        self.calls[call.name] += 1
        answer = line.partition(";")[0]
        self.answers[call.name, answer] += 1
        if call.name == "forward" and answer == str(DONE):
            self.add_accepted(call.arguments[0].numbers)

    def add_accepted(self, numbers):
        """Counts an array that forward accepts."""
        points = points_of(numbers)
        counted = self.repeated if len(set(points)) < len(points) else self.edges
        counted.add(hash(numbers))

    def counts(self):
        """What was compared, in words."""
        for name, function in FUNCTIONS.items():
            answers = ", ".join(f"{NAMES[number]} {self.answers[name, str(number)]}" for number in function.answers)
            yield f"{name}: {self.groups[name]} arrays, {self.calls[name]} calls; {answers}"
        yield "files: " + ", ".join(f"{family.__name__} {self.groups[family]}" for family in FAMILIES)
        yield f"edge: {len(self.edges)} different arrays, and {len(self.repeated)} with a point listed more than once"

    def gaps(self):
        """What was to be compared and was not."""
        for name, function in FUNCTIONS.items():
            if self.groups[name] < FEWEST_GROUPS[name]:
                yield f"{name}: there are {self.groups[name]} arrays, and at least {FEWEST_GROUPS[name]} are wanted"
            missing = [NAMES[number] for number in function.answers if not self.answers[name, str(number)]]
            if missing:
                yield f"{name}: no call is answered with {', '.join(missing)}"
        for family, fewest in FAMILIES.items():
            if self.groups[family] < fewest:
                yield f"{family.__name__}: there are {self.groups[family]} files, and at least {fewest} are wanted"
        if len(self.edges) < FEWEST_EDGES:
            yield f"edge: there are {len(self.edges)} arrays, and at least {FEWEST_EDGES} are wanted"
        if len(self.repeated) < FEWEST_REPEATED:
            yield f"repeated: there are {len(self.repeated)} arrays, and at least {FEWEST_REPEATED} are wanted"


def printed(command, calls):
    """The lines that the driver prints for some calls; in place of those that are missing, how it ended."""
    lines = "".join(line_of(call) + "\n" for call in calls)
    done = subprocess.run(command, input=lines, capture_output=True, text=True, check=False)
    found = done.stdout.splitlines()
    ended = f"no line, and ended with status {done.returncode}. {done.stderr.strip()}"
    return [*found, *[ended] * (len(calls) - len(found))]


def all_calls(groups=None):
    """All calls of all generators; their groups are counted by function and by generator."""
    for generate in GENERATORS:
        for group in generate():
            if groups is not None:
                groups.update((group[0].name, generate))
            yield from group


def size_of(call):
    """How many numbers the arrays of a call have, but for those of a fixed size."""
    sized = zip(FUNCTIONS[call.name].parameters, call.arguments)
    return sum(argument.length for parameter, argument in sized if parameter.kind in (READ, LENT))


def batches(calls):
    """The calls, so many at a time as one start of the driver is for."""
    batch, size = [], 0
    for call in calls:
        batch.append(call)
        size += size_of(call)
        if size >= BATCH:
            yield batch
            batch, size = [], 0
    yield batch


def compare_all(command):
    """Makes and compares all calls, prints what came of it, and gives the exit status."""
    tally = Tally()
    for batch in batches(all_calls(tally.groups)):
        for call, line in zip(batch, printed(command, batch)):
            tally.add(call, line)
    faults, gaps = tally.faults, list(tally.gaps())
    for line in [*faults[:MOST_PRINTED], *gaps, *tally.counts()]:
        print(line)
    print(f"{sum(tally.calls.values()) - len(faults)} passed, {len(faults) + len(gaps)} failed")
    return 1 if faults or gaps else 0


def compare_one(command, number):
    """Makes and compares one call, and prints it whole; gives the exit status."""
    call = next(islice(all_calls(), number, None))
    (line,) = printed(command, [call])
    fault = difference(call, line)
    print(line_of(call), line, *[fault] if fault else [], sep="\n")
    return 1 if fault else 0


def main():
    """Builds the driver, compares, and gives the exit status."""
    parser = argparse.ArgumentParser(description="Compares the compiled library with a second implementation.")
    parser.add_argument("--call", type=int, metavar="N", help="make the call with this number alone, and print it")
    asked = parser.parse_args()
    with tempfile.TemporaryDirectory() as folder:
        driver = built(HERE / "driver.c", folder) if made() else None
        if not driver:
            print("the driver could not be built", "0 passed, 1 failed", sep="\n")
            return 1
        command = [*emulator(), str(driver)]
        return compare_all(command) if asked.call is None else compare_one(command, asked.call)


if __name__ == "__main__":
    sys.exit(main())
