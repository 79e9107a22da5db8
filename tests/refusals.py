"""Holds the refusals to each other wherever they stand. A refusal is a case of the source's enum, with its number, and its words
are a row of README.md's table. Checked is that

- the source and README's table have the same names and numbers, which rise by one from 0, for none;
- the header's enum of answers is what --write makes of them, and no line of the header is too long;
- docs/OPERATORS.md has a section or a row of its table for each refusal, and for no other;
- the second implementation has README's names and numbers;
- README's order of each function's checks is that of the header, of the second implementation and of the theorem FUNCTION-order; and the
  program's, after TEXT, is a part of forward's.

With --write the header's enum is first written anew, if the source and README's table agree.

Each fault is printed on a line. The last line is 'N passed, M failed', and the exit status is 0 exactly when M is 0.
"""

import argparse
import re
import runpy
import sys
from pathlib import Path

from counting import report
from pages import table_rows
from promises import README, Tally, parse_refusals

# The cases of this file's enum of reasons are the refusals, with their numbers.
SOURCE = "crates/entry/src/lib.rt"
HEADER = "include/panbuckle.h"
OPERATORS = "docs/OPERATORS.md"
SECOND = "tests/second/document.py"
PROOFS = "crates/*/proofs/*.antt"
PROGRAM = "fracture"
ORDERS_HEADER = ["Function", "Order of its checks"]
LIBRARY_HEADER = ["No.", "Name", "What it means", "What to do", "Example"]
LONGEST_LINE = 150

REASONS = re.compile(r"^pub enum Reason \{\n(.*?)^\}\n", re.MULTILINE | re.DOTALL)
REASON = re.compile(r"^    (\w+) = (\d+),$", re.MULTILINE)
INNER_CAPITAL = re.compile(r"(?<!^)(?=[A-Z])")
ENUM = re.compile(r"^enum \{\n    PANBUCKLE_DONE = .*?^\};\n", re.MULTILINE | re.DOTALL)
SECTION = re.compile(r"^### (\d+) (\w+):", re.MULTILINE)
# In an order: what is said of a check after its name, and a break of lines in a comment of C.
REMARK = re.compile(r" \([^)]*\)")
BREAK = re.compile(r"\s+(?:\*\s+)?")
CHECKED = re.compile(r"Checked in this order[^:]*: ([^.]*)\. \*/\n(?:PANBUCKLE_ACCESS.*\n)?\w+ panbuckle_(\w+)\(")
THEOREM = re.compile(r"^ *pub ([\w-]+)-order : .* ≡ ((?:\d+ ∷ )+)\[\]$", re.MULTILINE)


def faults_of(place, wanted, found):
    """For each thing of which README or another place says something what is wrong there, or None."""
    for thing in {**wanted, **found}:
        ours, theirs = (said.get(thing, "nothing") for said in (wanted, found))
        yield None if ours == theirs else f"{place} has {theirs} for {thing}, and {README} has {ours}"


# ---- Names and numbers


def rows_of(readme):
    """The rows of README's table. tests/promises.py judges its form."""
    return parse_refusals(readme, Tally())


def numbers_of(rows):
    """The numbers by name."""
    return {row.name.upper(): row.number for row in rows}


def reasons_of(code):
    """The numbers of the source's reasons by name, written as README does."""
    return {INNER_CAPITAL.sub("_", name).upper(): number for body in REASONS.findall(code) for name, number in REASON.findall(body)}


def source_faults(code, rows):
    """For each name of the source or README what is wrong with its number, or None; and the same for their rise."""
    yield from faults_of(SOURCE, numbers_of(rows[1:]), reasons_of(code))
    rising = rows and all(row.number == str(place) for place, row in enumerate(rows))
    yield None if rising else f"{README}: the numbers of the refusals do not rise by one from 0"


def enum_of(rows):
    """The header's enum of answers."""
    entries = [f"PANBUCKLE_{name} = {number}," for name, number in numbers_of(rows).items()]
    entries[-1] = entries[-1].removesuffix(",")
    width = max(map(len, entries))
    lines = [f"    {entry:<{width}} /* {row.given} */" for entry, row in zip(entries, rows)]
    return "\n".join(["enum {", *lines, "};", ""])


def header_faults(header, rows):
    """What is wrong with the header's enum of answers, and with the length of its lines; or None for each."""
    yield None if ENUM.findall(header) == [enum_of(rows)] else f"{HEADER} has another enum of answers than `make refusals` writes"
    long = [number for number, line in enumerate(header.splitlines(), 1) if len(line) > LONGEST_LINE]
    yield f"{HEADER} has lines of more than {LONGEST_LINE} characters: {long}" if long else None


def operators_faults(page, rows):
    """For each refusal of the operators' page or README what is wrong, or None."""
    listed = [tuple(cells[:2]) for _, cells in table_rows(page, LIBRARY_HEADER) or []]
    told = [f"{number} {name}" for number, name in [*SECTION.findall(page), *listed]]
    refusals = [f"{row.number} {row.name}" for row in rows[1:]]
    yield from faults_of(OPERATORS, dict.fromkeys(refusals, "a row"), dict.fromkeys(told, "a row"))


def second_faults(second, rows):
    """For each name of README what is wrong with it in the second implementation, or None; and the same for its list of the names."""
    numbers = numbers_of(rows)
    yield from faults_of(SECOND, numbers, {name: str(second[name]) for name in numbers if name in second})
    names = [row.name for row in rows]
    yield None if list(second["NAMES"]) == names else f"{SECOND} has the names {second['NAMES']}, and {README} has {names}"


# ---- Orders


def plain(order):
    """The names of an order alone, on one line."""
    return REMARK.sub("", BREAK.sub(" ", order))


def orders_of(readme):
    """README's orders of checks by function."""
    return {cells[0]: plain(cells[1]) for _, cells in table_rows(readme, ORDERS_HEADER) or []}


def named(numbers, rows):
    """An order of numbers as one of names."""
    names = {row.number: row.name for row in rows}
    return ", ".join(names.get(str(number), str(number)) for number in numbers)


def header_orders(header):
    """The orders that the header's comments tell."""
    return {function: plain(order) for order, function in CHECKED.findall(header)}


def second_orders(second, rows):
    """The orders of the second implementation."""
    found = [(name.removesuffix("_ORDER"), numbers) for name, numbers in second.items() if name.endswith("_ORDER")]
    return {function.lower(): named(numbers, rows) for function, numbers in found}


def proved_orders(proofs, rows):
    """The orders that theorems tell."""
    return {name.replace("-", "_"): named(re.findall(r"\d+", numbers), rows) for name, numbers in THEOREM.findall(proofs)}


def program_fault(orders):
    """What is wrong with the program's order, or None."""
    last = orders.get(PROGRAM, "").partition("TEXT, ")[2].split(", ")
    left = iter(orders.get("forward", "").split(", "))
    return None if all(name in left for name in last) else f"{README}: the order of {PROGRAM} does not end with a part of forward's"


def order_faults(readme, header, second, proofs):
    """For each order what is wrong with it, or None."""
    rows, orders = rows_of(readme), orders_of(readme)
    yield program_fault(orders)
    orders.pop(PROGRAM, None)
    yield None if orders else f"{README} has no table of the orders of checks"
    yield from faults_of(HEADER, orders, header_orders(header))
    yield from faults_of(SECOND, orders, second_orders(second, rows))
    yield from faults_of(PROOFS, orders, proved_orders(proofs, rows))


# ---- All of it


def write_enum(root):
    """Writes the header's enum anew, if the source and README agree."""
    rows, header = rows_of(text_of(root, README)), text_of(root, HEADER)
    if not any(source_faults(text_of(root, SOURCE), rows)):
        (root / HEADER).write_text(ENUM.sub(lambda _: enum_of(rows), header), encoding="utf-8")


def text_of(root, path):
    """A file of the tree."""
    return (root / path).read_text(encoding="utf-8")


def outcomes_of(root):
    """For each check of a tree what is wrong, or None."""
    readme, header = text_of(root, README), text_of(root, HEADER)
    rows = rows_of(readme)
    yield from source_faults(text_of(root, SOURCE), rows)
    if not rows:
        return
    second = runpy.run_path(str(root / SECOND))
    proofs = "\n".join(path.read_text(encoding="utf-8") for path in sorted(root.glob(PROOFS)))
    yield from header_faults(header, rows)
    yield from operators_faults(text_of(root, OPERATORS), rows)
    yield from second_faults(second, rows)
    yield from order_faults(readme, header, second, proofs)


def main():
    """Checks one tree, prints the faults and the counts, and gives the exit status."""
    parser = argparse.ArgumentParser(description="Holds the refusals to each other wherever they stand.")
    parser.add_argument("root", nargs="?", type=Path, default=Path(__file__).resolve().parent.parent)
    parser.add_argument("--write", action="store_true", help=f"first write the enum of answers in {HEADER} anew")
    arguments = parser.parse_args()
    if arguments.write:
        write_enum(arguments.root)
    outcomes = list(outcomes_of(arguments.root))
    faults = [fault for fault in outcomes if fault]
    return report(len(outcomes) - len(faults), faults)


if __name__ == "__main__":
    sys.exit(main())
