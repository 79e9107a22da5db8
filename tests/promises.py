"""Checks that docs/PROMISES.md is true of the repository.

A quote there is a line that begins with '> ', and what keeps it stands in the lines below it, each with a label. Checked is that

- each cited file is there and declares each cited name;
- each public function of crates/*/src is cited, in the file that has it, and has no `requires`;
- each that has a result, or lends an array to be written, has an `ensures` and is cited where document 01 says that every public
  function carries a contract, and nothing else is; any other without a contract is cited as an exception;
- each row of README.md's table of refusals has a paragraph that quotes its number and its name and cites something;
- each must-fail edit, of a crate or of tests/edits, is cited;
- each quote has lines below it, each line of a list has a label, and no line is too long to read;
- each sentence of document 01 is quoted, and each quote is of its words, if document 01 lies beside the checkout; below a heading
  '## Request N' the same holds of that request of document 02;
- each promise marked open is written: open (base K), with K from 2 to 6.

Each fault is printed on a line. The last line is 'N passed, M failed', and the exit status is 0
exactly when M is 0.
"""

import argparse
import posixpath
import re
import sys
from dataclasses import dataclass, field
from itertools import dropwhile
from pathlib import Path

from counting import report
from declared import declares, public_functions
from documents import check_documents
from pages import Line, citations_of, cited_names, paragraphs_of, parse_page, quotes_of, table_cells, table_rows

PROMISES = "docs/PROMISES.md"
README = "README.md"
REFUSALS_HEADER = ["No.", "Name", "Given exactly when", "Place"]
FEWEST_REFUSALS = 12
EDITS = ["crates/*/must-fail/*.edit", "tests/edits/*/*.edit"]
CONTRACTS_SENTENCE = "Every public function carries a contract on its result."
EXCEPTIONS_SENTENCE = "An exception is listed in docs/ and explained there."

LONGEST_LINE = 160
LABELS = ["says", "proved", "code", "kept", "edit", "test", "later"]
LIST_LINE = re.compile(r"\s*[-*+] ")
LABELLED_LINE = re.compile(rf"- (?:{'|'.join(LABELS)}): \S")
ONE_CITATION = re.compile(r"- \w+: `[^`,]+`")
REQUEST_HEADING = re.compile(r"## Request (\d+)\b")
# In capitals it is a refusal's name.
OPEN_MARK = re.compile(r"(?<![\w-])[Oo]pen\s*\([^)]*\)|(?<=: )[Oo]pen\s*$")
# With a letter K it is the rule that a reader is told, not a promise.
GOOD_OPEN_MARK = re.compile(r"open \(base ([2-6K])\)")


@dataclass(frozen=True)
class Refusal:
    """A row of the table of refusals, but for the place."""

    number: str
    name: str
    given: str


@dataclass
class Tally:
    """How many tests passed, and what each of the others found."""

    passed: int = 0
    faults: list[str] = field(default_factory=list)

    def check(self, holds, fault):
        """Counts one test."""
        if holds:
            self.passed += 1
        else:
            self.fail(fault)

    def fail(self, fault):
        """Counts one test that failed."""
        self.faults.append(fault)


def place_of(line):
    """How a message names a line of docs/PROMISES.md."""
    return f"{PROMISES}:{line.number}"


# ---- Citations


def is_file_below(root, path):
    """Whether the path, written in the one plain way, leads to a file below the root."""
    plain = posixpath.normpath(path) == path and not path.startswith(("/", "../"))
    return plain and (root / path).is_file()


def check_name(root, place, path, name, tally):
    """The file declares the name."""
    try:
        tally.check(declares(root / path, name), f"{place}: {path} declares no {name}")
    except (SyntaxError, UnicodeDecodeError) as error:
        tally.fail(f"{place}: {path} cannot be read: {error}")


def check_citation(root, place, citation, tally):
    """The cited file is there and declares the names."""
    there = is_file_below(root, citation.path)
    tally.check(there, f"{place}: {citation.path}: no such file in the repository")
    for name in citation.names if there else ():
        check_name(root, place, citation.path, name, tally)


def check_citations(root, lines, tally):
    """Each citation is of the right form and true, and there is one."""
    for line in lines:
        for fault in line.faults:
            tally.fail(f"{place_of(line)}: {fault}")
        for citation in line.citations:
            check_citation(root, place_of(line), citation, tally)
    tally.check(any(line.citations for line in lines), f"{PROMISES}: no citation at all")


# ---- What has to be cited


def repository_functions(root):
    """The public functions of the crates, each with the path of its file."""
    sources = sorted(root.glob("crates/*/src/**/*.rt"))
    return [
        (source.relative_to(root).as_posix(), function)
        for source in sources
        for function in public_functions(source.read_text(encoding="utf-8"))
    ]


def check_functions(functions, lines, tally):
    """Each public function is cited, in the file that has it, and asks nothing of its caller."""
    cited = cited_names(lines)
    for path, function in functions:
        name = function.name
        tally.check((path, name) in cited, f"{PROMISES}: the public function is not cited: {path}: {name}")
        tally.check(not function.requires, f"{path}: the public function has a `requires`: {name}")


def cited_below(sentence, paragraphs, tally):
    """What the paragraph that quotes a sentence cites."""
    found = [paragraph for paragraph in paragraphs if " ".join(quotes_of(paragraph)) == sentence]
    tally.check(len(found) == 1, f"{PROMISES}: {len(found)} paragraphs, not one, quote '{sentence}'")
    return cited_names(line for paragraph in found for line in paragraph)


def check_contracts(functions, paragraphs, tally):
    """Each public function has a contract and is cited for it, and nothing else is; or it is an exception."""
    cited = cited_below(CONTRACTS_SENTENCE, paragraphs, tally)
    exceptions = cited_below(EXCEPTIONS_SENTENCE, paragraphs, tally)
    too_much = set(cited)
    for path, function in functions:
        name = function.name
        if function.owes_contract():
            too_much.discard((path, name))
            tally.check(function.ensures, f"{path}: the public function has no `ensures`: {name}")
            tally.check((path, name) in cited, f"{PROMISES}: '{CONTRACTS_SENTENCE}' does not cite {path}: {name}")
        elif not function.ensures:
            fault = f"{PROMISES}: '{EXCEPTIONS_SENTENCE}' does not cite {path}: {name}, which has no contract"
            tally.check((path, name) in exceptions, fault)
    for path, name in sorted(too_much):
        tally.fail(f"{PROMISES}: '{CONTRACTS_SENTENCE}' cites too much: {path}: {name}")


def check_edits(root, lines, tally):
    """Each must-fail edit is cited."""
    cited = {citation.path for citation in citations_of(lines)}
    for edit in sorted(edit for pattern in EDITS for edit in root.glob(pattern)):
        path = edit.relative_to(root).as_posix()
        tally.check(path in cited, f"{PROMISES}: the must-fail edit is not cited: {path}")


# ---- Refusals


def parse_refusals(readme, tally):
    """The rows of the table of refusals; what is wrong with the table goes to the tally."""
    rows = table_rows(readme, REFUSALS_HEADER)
    if rows is None:
        tally.fail(f"{README}: no table with the header | {' | '.join(REFUSALS_HEADER)} |")
        return []
    refusals = []
    for number, cells in rows:
        if len(cells) == len(REFUSALS_HEADER) and cells[0].isdecimal() and cells[1]:
            refusals.append(Refusal(*cells[:3]))
        else:
            tally.fail(f"{README}:{number}: not a row of a number, a name, a condition and a place")
    table = f"{README}: the table of refusals"
    count = len(refusals)
    tally.check(count >= FEWEST_REFUSALS, f"{table} has {count} rows, fewer than {FEWEST_REFUSALS}")
    tally.check(len({row.number for row in refusals}) == count, f"{table} has a number twice")
    return refusals


def check_refusal(refusal, paragraphs, tally):
    """A paragraph quotes the refusal's number and name as a row of the table, and cites something."""
    title = f"refusal {refusal.number} {refusal.name}"
    row = [refusal.number, refusal.name]
    found = [lines for lines in paragraphs if any(table_cells(quote)[:2] == row for quote in quotes_of(lines))]
    if found:
        fault = f"{place_of(found[0][0])}: the paragraph of {title} cites nothing"
        tally.check(any(citations_of(lines) for lines in found), fault)
    else:
        tally.fail(f"{PROMISES}: no paragraph for {title}")


# ---- The form of the page


def check_paragraph(paragraph, tally):
    """A quote has lines below it, and each line of a list has a label."""
    for line in paragraph:
        if LIST_LINE.match(line.text) and not LABELLED_LINE.match(line.text):
            tally.fail(f"{place_of(line)}: not a line with one of the labels {', '.join(LABELS)}")
    if any(line.is_quote() for line in paragraph):
        below = list(dropwhile(Line.is_quote, paragraph))
        whole = below and all(LIST_LINE.match(line.text) for line in below)
        tally.check(whole, f"{place_of(paragraph[0])}: not a quote and then a list of what keeps it")


def check_lengths(promises, tally):
    """No line is too long to read, but for a quote and for one citation that cannot be cut."""
    for number, line in enumerate(promises.splitlines(), 1):
        if len(line) > LONGEST_LINE and not line.startswith(">") and not ONE_CITATION.fullmatch(line):
            tally.fail(f"{PROMISES}:{number}: {len(line)} characters, more than {LONGEST_LINE}")


def count_open(lines, tally):
    """How many promises are marked open; a mark of another form goes to the tally."""
    count = 0
    for line in lines:
        for mark in OPEN_MARK.findall(line.words):
            good = GOOD_OPEN_MARK.fullmatch(mark)
            if not good:
                form = "'open (base K)' with K from 2 to 6"
                tally.fail(f"{place_of(line)}: '{mark.strip()}' is not {form}")
            elif good.group(1) != "K":
                count += 1
    return count


# ---- The documents


def quotes_by_request(lines, rows):
    """The quotes with their places, by the number of the request that the heading above them names; None where it names none. A row of
    README's table of refusals, in the section of the request that brought it, is README's and not the document's."""
    quotes, request = {None: []}, None
    for line in lines:
        if line.text.startswith("## "):
            named = REQUEST_HEADING.match(line.text)
            request = named.group(1) if named else None
            quotes.setdefault(request, [])
        elif line.is_quote() and not (request and table_cells(line.quote()) in rows):
            quotes[request].append((place_of(line), line.quote()))
    return quotes


# ---- All of it


def check_page(root, promises, tally):
    """Runs the checks that need only the repository, and gives the lines of docs/PROMISES.md."""
    lines = parse_page(promises)
    paragraphs = paragraphs_of(lines)
    functions = repository_functions(root)
    check_citations(root, lines, tally)
    check_functions(functions, lines, tally)
    check_contracts(functions, paragraphs, tally)
    for refusal in parse_refusals((root / README).read_text(encoding="utf-8"), tally):
        check_refusal(refusal, paragraphs, tally)
    check_edits(root, lines, tally)
    for paragraph in paragraphs:
        check_paragraph(paragraph, tally)
    check_lengths(promises, tally)
    return lines


def check_all(root, tally):
    """Runs every check, and says how many promises are open and which document was not there."""
    missing = [path for path in (PROMISES, README) if not (root / path).is_file()]
    for path in missing:
        tally.fail(f"{path}: no such file")
    if missing:
        return
    lines = check_page(root, (root / PROMISES).read_text(encoding="utf-8"), tally)
    print(f"open promises: {count_open(lines, tally)}")
    rows = [cells for _, cells in table_rows((root / README).read_text(encoding="utf-8"), REFUSALS_HEADER) or []]
    check_documents(root, quotes_by_request(lines, rows), tally)


def main():
    """Checks one tree, prints the faults and the counts, and gives the exit status."""
    parser = argparse.ArgumentParser(description=f"Checks that {PROMISES} is true of the repository.")
    parser.add_argument("root", nargs="?", type=Path, default=Path(__file__).resolve().parent.parent)
    tally = Tally()
    check_all(parser.parse_args().root, tally)
    return report(tally.passed, tally.faults)


if __name__ == "__main__":
    sys.exit(main())
