"""Runs the examples of docs/OPERATORS.md through fracture: after each block of lines marked 'in' comes one, 'out', with what must come out,
and one, 'err', with what must be said on standard error. A long input is named: '(the N lines of FILE)'. Each refusal of the program, by
README.md's order of its checks, has an example.

`rt ci` before has built the program. Each fault is printed on a line. The last line is 'N passed, M failed', and the exit status is 0
exactly when M is 0.
"""

import re
import subprocess
import sys
from pathlib import Path

from counting import report
from pairs import input_of
from refusals import OPERATORS, PROGRAM, README, numbers_of, orders_of, rows_of

ROOT = Path(__file__).resolve().parent.parent
EXAMPLE = re.compile(
    r"^### (\d+) (?:(?!^### ).)*?^```in\n(.*?)^```\n\n^```out\n(.*?)^```\n\n^```err\n(.*?)^```$", re.MULTILINE | re.DOTALL
)
NAMED = re.compile(r"\(the ([\d,]+) lines of (\S+)\)\n")


def refused_by_program(readme):
    """The numbers of what the program can refuse."""
    numbers = numbers_of(rows_of(readme))
    return {numbers[name] for name in orders_of(readme)[PROGRAM].split(", ")}


def data_of(lines):
    """The bytes of an example's input."""
    named = NAMED.fullmatch(lines)
    if not named:
        return lines.encode("ascii")
    data = input_of(ROOT / named[2])
    if data.count(b"\n") != int(named[1].replace(",", "")):
        raise ValueError(f"{named[2]} has not {named[1]} lines")
    return data


def fault_of(number, lines, printed, said):
    """What is wrong with an example, or None."""
    if not printed.startswith(f"refused {number} "):
        return f"the example of refusal {number} shows {printed!r}"
    done = subprocess.run([ROOT / "bin" / "fracture"], input=data_of(lines), capture_output=True, check=True)
    got, wanted = (done.stdout.decode("ascii"), done.stderr.decode("ascii")), (printed, said)
    return None if got == wanted else f"the example of refusal {number} gives {got!r} instead of {wanted!r}"


def main():
    """Runs the examples, prints the faults and the counts, and gives the exit status."""
    examples = EXAMPLE.findall((ROOT / OPERATORS).read_text(encoding="utf-8"))
    outcomes = [fault_of(*example) for example in examples]
    missing = refused_by_program((ROOT / README).read_text(encoding="utf-8")) - {number for number, *_ in examples}
    outcomes.append(f"there is no example of the refusals {sorted(missing)}" if missing else None)
    faults = [fault for fault in outcomes if fault]
    return report(len(outcomes) - len(faults), faults)


if __name__ == "__main__":
    sys.exit(main())
