"""Judges the edits: wrong programs and wrong definitions, each of which the prover must refuse at the very fact that the edit names.

An edit says in a comment '# Fails first: FILE: NAME (why)', with FILE below its crate. `rt` prints a line for each edit that it tries, with
the first error of the prover's that it does not put down to a proof file that names what the edit took away. There the fact that could not be
proved must be NAME in FILE. An edit that cannot be applied or read, that is still proved, or that is refused for its scope, syntax or shape
alone, which would refuse any edit, is none.

Edits stand in two places, in the same form:

- crates/CRATE/must-fail/: the run of `rt ci` before has tried them, and what it wrote, which .ci/run keeps in target/ci.log, is judged here.
  A crate of code has at most two, but for `plane` and `entry`;
- tests/edits/CRATE/: tests/try_edits.py tries them when their crate changes. tests/edits/RECORD has a line 'CRATE/NAME HASH HASH' for
  each: the hash of the crate's src/, specs/ and proofs/ and that of the edit, when it was last refused at its fact. Nothing is proved
  here: no line may be missing, stale or of no edit.

Each fault is printed on a line. The last line is 'N passed, M failed', and the exit status is 0 exactly when M is 0.
"""

import argparse
import hashlib
import re
import sys
from pathlib import Path

from counting import report

ROOT = Path(__file__).resolve().parent.parent
LOG = "target/ci.log"
FAILS_FIRST = re.compile(r"^# Fails first: (\S+): (\S+) \(.+\)$", re.MULTILINE)
# What `rt` says of an edit that it tried, and how that begins where the prover refused it.
TRIED = re.compile(r"^rt: must-fail (\w+/[\w.-]+)\.edit: (.*)$", re.MULTILINE)
REFUSED = "refused, as it must be: "
ERROR = re.compile(r"^(\S+?):\d+:\d+: error: (.*)$", re.MULTILINE)
# What the prover says of a function that needs no proof file.
NOT_PROVED = re.compile(r"^note: (\S+?):\d+:\d+: it is not proved that .*?\((`\S+`)\)", re.MULTILINE)
# Such an error only follows from an earlier one.
FOLLOWS = re.compile(r"so this cannot be checked|which was rejected, (?:and )?w(?:as|ere) not checked")
# Such an error says that the edited text is no longer Rattle or antt, or that a proof no longer fits the code's shape.
UNFIT = re.compile(r"not in scope|can be named from here|cannot appear|has no field|binders|[Pp]arse error|syntax")

FUNCTION = re.compile(r"\bfn \w+\(")
# An edit of a crate of code takes the gate up to a minute: so many of each crate are tried there. The functions of these are few and
# short, and take seconds.
MOST_IN_GATE = 3
QUICK = ("plane", "entry")
KEPT = "tests/edits"
RECORD = f"{KEPT}/RECORD"
# What the refusal of an edit rests on in its crate, and how many digits of a hash tell it from others.
PARTS = ("src", "specs", "proofs")
DIGITS = 16


# ---- The judge


def tried_in(text):
    """What a command of `rt` wrote of each edit, by its name CRATE/NAME."""
    return dict(TRIED.findall(text))


def unquoted(message):
    """The prover's own words in a message, without the names and terms that it quotes."""
    return re.sub(r"`[^`]*(?:`|$)", "", message)


def fact_in(first):
    """The file and the message of a fact that could not be proved, below its crate, if a line tells one."""
    found = ERROR.match(first) or NOT_PROVED.match(first)
    return (found[1].removeprefix("./"), found[2]) if found else None


def fault_of(edit, told):
    """What is wrong with an edit's refusal, of which `rt` told so, or None."""
    said = FAILS_FIRST.findall(edit.read_text(encoding="utf-8"))
    if len(said) != 1:
        return "it has not one line '# Fails first: FILE: NAME (why)'"
    if told is None:
        return "`rt` tells nothing of it: it was not tried"
    if not told.startswith(REFUSED):
        return f"it is not refused at a fact: {told[:160]}"
    found = fact_in(told.removeprefix(REFUSED))
    if found is None:
        return f"it is refused, and first comes no fact: {told.removeprefix(REFUSED)[:160]}"
    (file, name), (path, message) = said[0], found
    if FOLLOWS.search(message):
        return f"what comes first only follows from another error: {path}: {message[:80]}"
    if not (path == file and message.startswith(f"`{name}`")):
        return f"it fails first at {path}: {message[:80]}"
    return f"the edit itself is unfit: {message[:80]}" if UNFIT.search(unquoted(message)) else None


# ---- The edits that `rt ci` tries


def log_of(root):
    """What `rt ci` wrote, if it has run."""
    file = root / LOG
    return file.read_text(encoding="utf-8", errors="replace") if file.is_file() else ""


def gate_faults(root):
    """The number of the edits that `rt ci` tries, and what is wrong with each that has a fault."""
    edits = {f"{edit.parent.parent.name}/{edit.stem}": edit for edit in sorted(root.glob("crates/*/must-fail/*.edit"))}
    tried = tried_in(log_of(root))
    judged = {str(edit.relative_to(root)): fault_of(edit, tried.get(name)) for name, edit in edits.items()}
    return len(edits), {where: fault for where, fault in judged.items() if fault}


def is_of_code(crate):
    """Whether a crate has functions."""
    return any(FUNCTION.search(path.read_text(encoding="utf-8")) for path in sorted((crate / "src").glob("*.rt")))


def crowded(root):
    """What is wrong with each crate of code that has more edits than the gate has time for."""
    folders = [folder for folder in sorted(root.glob("crates/*/must-fail")) if folder.parent.name not in QUICK and is_of_code(folder.parent)]
    counts = [(folder, len(list(folder.glob("*.edit")))) for folder in folders]
    return {f"{folder.relative_to(root)}": f"it has {n} edits, and {MOST_IN_GATE} at most" for folder, n in counts if n > MOST_IN_GATE}


# ---- The record of the others


def hash_of(files, folder):
    """A hash of the paths below a folder and of the contents of files."""
    digest = hashlib.sha256()
    for file in sorted(files):
        digest.update(f"{file.relative_to(folder).as_posix()}\0".encode() + file.read_bytes() + b"\0")
    return digest.hexdigest()[:DIGITS]


def crate_hash(crate):
    """The hash of what the refusals of a crate's edits rest on."""
    return hash_of([path for part in PARTS for path in (crate / part).rglob("*") if path.is_file()], crate)


def kept_edits(root):
    """The edits that stand in tests/edits/, by their names CRATE/NAME."""
    return {f"{edit.parent.name}/{edit.stem}": edit for edit in sorted((root / KEPT).glob("*/*.edit"))}


def hashes_today(root):
    """For each of these edits the hash of its crate and its own."""
    edits = kept_edits(root)
    crates = {crate: crate_hash(root / "crates" / crate) for crate in {edit.parent.name for edit in edits.values()}}
    return {name: [crates[edit.parent.name], hash_of([edit], edit.parent)] for name, edit in edits.items()}


def read_record(root):
    """The words of each line of the record."""
    file = root / RECORD
    return [line.split() for line in file.read_text(encoding="utf-8").splitlines()] if file.is_file() else []


def write_record(root, lines):
    """Writes the record: for each edit, by name, the two hashes."""
    text = "".join(f"{' '.join([name, *hashes])}\n" for name, hashes in sorted(lines.items()))
    (root / RECORD).write_text(text, encoding="utf-8")


def stale(lines, today):
    """What is wrong with the lines of an edit in the record, or None."""
    if len(lines) != 1:
        return f"it has {len(lines)} lines in {RECORD}: run `make edits`" if lines else f"it has no line in {RECORD}: run `make edits`"
    if len(lines[0]) != len(today):
        return f"its line in {RECORD} has not two hashes"
    changed = [what for what, then, now in zip(("its crate", "it"), lines[0], today) if then != now]
    return f"{changed[0]} has changed since it was last tried: run `make edits`" if changed else None


def record_faults(root):
    """The number of the edits in tests/edits/; what is wrong with each that has a fault; and what is wrong with lines of no edit."""
    today, record = hashes_today(root), [words for words in read_record(root) if words]
    faults = {}
    for name, hashes in today.items():
        fault = stale([words[1:] for words in record if words[0] == name], hashes)
        if fault:
            faults[f"{KEPT}/{name}.edit"] = fault
    lost = {f"{RECORD}: {words[0]}": "there is no such edit" for words in record if words[0] not in today}
    return len(today), faults, lost


def faults_of(root):
    """How many of a repository's edits have no fault, and all the faults."""
    tried, at_gate = gate_faults(root)
    kept, in_record, lost = record_faults(root)
    faults = {**at_gate, **in_record, **lost, **crowded(root)}
    if not tried:
        faults["crates/*/must-fail"] = "there is no edit"
    return tried + kept - len(at_gate) - len(in_record), [f"{where}: {what}" for where, what in faults.items()]


def main():
    """Checks one repository, prints the faults and the counts, and gives the exit status."""
    parser = argparse.ArgumentParser(description="Judges the edits of a repository, without proving anything.")
    parser.add_argument("root", nargs="?", type=Path, default=ROOT)
    return report(*faults_of(parser.parse_args().root))


if __name__ == "__main__":
    sys.exit(main())
