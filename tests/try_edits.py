"""Tries the edits of tests/edits/: the prover must refuse each at the very fact that it names. Keeps the record of those that it did.

The words are crates, and without any all those that have edits there. An edit whose line in the record is fresh is not tried again,
unless --all is given. The crates are proved as they are first. Then `rt must-fail` tries the edits of each crate in a scratch copy of the
repository, elsewhere, since no Rattle may stand beside the crates; tests/edits.py judges what it writes, and the crate's lines of the record
are written anew. It takes half a minute to two for each edit, and is no part of the test gate, which checks the record.

Each fault is printed on a line. The last line is 'N passed, M failed', and the exit status is 0 exactly when M is 0.
"""

import argparse
import shutil
import subprocess
import sys
import tempfile
from pathlib import Path

from counting import report
from edits import KEPT, ROOT, fault_of, hashes_today, kept_edits, read_record, tried_in, write_record
from scratch import copy_tree

UNPROVED = "it is not proved as it is, or what it names is not"


def fresh_lines(root):
    """The lines of the record that hold today: for each edit, by name, the two hashes."""
    today, record = hashes_today(root), read_record(root)
    return {name: hashes for name, hashes in today.items() if [name, *hashes] in record}


def chosen(root, crates, every):
    """The edits to try, by name. Of these crates, or of all where none is named, those without a fresh line, or every one."""
    edits = {name: edit for name, edit in kept_edits(root).items() if not crates or edit.parent.name in crates}
    fresh = [] if every else [name for name in fresh_lines(root) if name in edits]
    if fresh:
        print(f"{len(fresh)} of {len(edits)} edits have a fresh record and are not tried again: tests/try_edits.py --all would", flush=True)
    return {name: edit for name, edit in edits.items() if name not in fresh}


def try_crate(scratch, crate, edits):
    """Has the prover try edits of one crate; gives the faults, by name."""
    folder = scratch / "crates" / crate / "must-fail"
    folder.mkdir()
    for edit in edits.values():
        shutil.copy(edit, folder)
    ends = {"stdin": subprocess.DEVNULL, "stdout": subprocess.PIPE, "stderr": subprocess.STDOUT}
    said = subprocess.run(["rt", "must-fail", crate], cwd=scratch, **ends, text=True, errors="replace", check=False).stdout
    print(said, end="", flush=True)
    shutil.rmtree(folder)
    tried = tried_in(said)
    judged = {name: fault_of(edit, tried.get(name)) for name, edit in edits.items()}
    return {name: fault for name, fault in judged.items() if fault}


def is_proved(root, crate):
    """Whether a crate is proved as it is, with those below it. A check in the scratch copy begins with what this one keeps."""
    folder = root / "crates" / crate
    return subprocess.run(["rt", "check"], cwd=folder, stdin=subprocess.DEVNULL, check=False).returncode == 0


def keep(root, before, tried, faults):
    """Writes the record anew: of the edits that were tried those refused at their facts, with their hashes; the others as they were."""
    lines = {words[0]: words[1:] for words in read_record(root) if words and words[0] in before and words[0] not in tried}
    write_record(root, {**lines, **{name: before[name] for name in tried if name not in faults}})


def try_all(root, edits):
    """Tries edits, crate by crate, and keeps the record; gives the faults."""
    crates = sorted({edit.parent.name for edit in edits.values()})
    before, faults = hashes_today(root), {crate: UNPROVED for crate in crates if not is_proved(root, crate)}
    with tempfile.TemporaryDirectory(prefix="edits-") as folder:
        scratch = Path(folder) / "repository"
        copy_tree(root, scratch)
        for crate in [crate for crate in crates if crate not in faults]:
            tried = {name: edit for name, edit in edits.items() if edit.parent.name == crate}
            found = try_crate(scratch, crate, tried)
            keep(root, before, tried, found)
            faults.update(found)
    return faults


def main():
    """Tries the edits that are asked for, prints the faults and the counts, and gives the exit status."""
    parser = argparse.ArgumentParser(description="Tries the edits of tests/edits/, and keeps the record of their refusals.")
    parser.add_argument("--all", action="store_true", help="try also those whose record is fresh")
    parser.add_argument("--root", type=Path, default=ROOT, help="the repository")
    parser.add_argument("crates", nargs="*", metavar="CRATE")
    words = parser.parse_args()
    known = {edit.parent.name for edit in kept_edits(words.root).values()}
    unknown = [crate for crate in words.crates if crate not in known]
    if unknown:
        return report(0, [f"{KEPT}/{crate}: there is no edit" for crate in unknown])
    edits = chosen(words.root, words.crates, words.all)
    faults = try_all(words.root, edits) if edits else {}
    passed = len([name for name in edits if name not in faults and name.split("/")[0] not in faults])
    return report(passed, [f"{KEPT}/{name}: {fault}" for name, fault in faults.items()])


if __name__ == "__main__":
    sys.exit(main())
