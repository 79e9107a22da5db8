#!/usr/bin/env python3
"""Spells the repository's own definitions and lemmas as today's Rattle does: words in snake case.

usage: python3 tools/snake_case.py            at the top of the repository, once, after the port's own script

A word in camel case (`pointAt`, also as a part of `inOrder-few`) becomes snake case, in each source, specification, proof and edit. Edits
(must-fail/ and tests/edits/) were not turned by the port's script, so what it renamed is renamed in them first, and a projection is written
tight. Strings keep their text, and so do the letters K, L and M of the customer's pages in names of variables.
"""

import re
import sys
from pathlib import Path

# A word in camel case: it begins small, and a capital follows.
CAMEL = re.compile(r"(?<![\w'′])[a-z][a-z0-9_]*[A-Z][A-Za-z0-9_]*(?![\w])")
STRING = re.compile(r'"(?:[^"\\]|\\.)*"')
# Variables named after the letters of the customer's pages, and no definitions.
LETTERS = {"xK", "xL", "yK", "eK", "eL", "eM"}

# What the port's script renamed in the files that the edits change.
RENAMED = {
    "Option·getD": "Option.get_or",
    "getD": "get_or",
    "atStart": "at_start",
    "cutTo": "cut_to",
    "edgeOf": "edge_of",
    "endOf": "end_of",
    "firstOf": "first_in",
    "leZ": "le_z",
    "ltZ": "lt_z",
    "leftOf": "left_of",
    "natAbs": "nat_abs",
    "numberIn": "number_in",
    "pickL": "pick_l",
    "placeIn": "place_in",
    "pointsOf": "points_of",
    "predℤ": "pred_ℤ",
}

# Local names that would fall together with a definition in snake case, by file.
APART = {
    "crates/live/proofs/NextRect.antt": ("on_row", "left-on_row"),
    "crates/reading/proofs/parse/Proof.antt": ("read_as", "numeral-read_as"),
    "crates/rule/proofs/Picks.antt": ("right_of", "l-right_of"),
    "crates/panbuckle/proofs/StopRow.antt": ("right_of", "l-right_of"),
    "crates/live/proofs/Steady.antt": ("right_of", "l-right_of"),
    "crates/rule/proofs/Inside.antt": ("right_of", "l-right_of"),
}

# `first_of`, the port's word for the definition `firstOf`, is the name of a tactic; the function of that name stays.
TACTIC = re.compile(r"(?<![\w.·-])first_of(?![\w-])")
CLAUSE = re.compile(r"^(?:ghost use .*|    (?:requires|ensures) .*)$", re.MULTILINE)

PROJECTION = re.compile(r"(?<=[\w'′)]) +\.(?=[a-z0-9])")


def snake(word):
    """A word in snake case: a run of capitals is one part."""
    if word in LETTERS:
        return word
    parts = re.findall(r"[A-Z]+(?![a-z])|[A-Z][a-z0-9_]*|[a-z0-9_]+", word)
    return "_".join(part.lower().strip("_") for part in parts)


def outside_strings(text, change):
    """A text with a change made to what is not in a string."""
    done, at = [], 0
    for found in STRING.finditer(text):
        done += [change(text[at:found.start()]), found.group()]
        at = found.end()
    return "".join([*done, change(text[at:])])


def turned(text):
    """A text with its words in snake case."""
    return outside_strings(text, lambda part: CAMEL.sub(lambda found: snake(found.group()), part))


def named_apart(path, text):
    """A file's text with the words told apart that would be one word in snake case, or that are a tactic's."""
    if path in APART:
        old, new = APART[path]
        text = re.sub(rf"(?<![\w.-]){old}(?![\w-])", new, text)
    if path.endswith(".antt"):
        return TACTIC.sub("first_in", text)
    return CLAUSE.sub(lambda line: TACTIC.sub("first_in", line.group()), text)


def tight(text):
    """A text whose projections stand without a space and, where nothing else is there, without parentheses."""
    text = PROJECTION.sub(".", text)
    return re.sub(r"(?<![\w'′])\(([\w'′]+(?:\.\w+)+)\)", r"\1", text)


def edit_turned(text):
    """An edit: of its lines those with a text are turned, as the port's script and this one turn the files."""

    def line_turned(line):
        if not line.startswith(("old:", "new:")):
            return turned(line)
        for old, new in RENAMED.items():
            line = re.sub(rf"(?<![\w'′·-]){re.escape(old)}(?![\w'′·-])", lambda _: new, line)
        line = re.sub(r"⌜ (.*?) ⌝", r"\1", line).replace("λ r. r ≡", "result ≡")
        return turned(tight(line))

    return "\n".join(line_turned(line) for line in text.split("\n"))


def main():
    """Turns every file, and prints how many it changed."""
    root = Path(sys.argv[1]) if len(sys.argv) > 1 else Path(".")
    changed = 0
    sources = [p for p in sorted(root.glob("crates/**/*")) if p.suffix in (".rt", ".antt") and "out" not in p.relative_to(root).parts]
    edits = sorted(root.glob("crates/*/must-fail/*.edit")) + sorted(root.glob("tests/edits/*/*.edit"))
    for path in sources + edits:
        before = path.read_text(encoding="utf-8")
        name = path.relative_to(root).as_posix()
        after = edit_turned(before) if path.suffix == ".edit" else turned(named_apart(name, before))
        if after != before:
            path.write_text(after, encoding="utf-8")
            changed += 1
    print(f"{changed} files turned")


if __name__ == "__main__":
    main()
