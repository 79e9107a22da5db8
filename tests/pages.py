"""Takes pages of Markdown apart: the lines that a reader sees, their citations, and the paragraphs that they make.

A citation is an inline code span `path`, `path: name` or `path: name1, name2` that ends on its line; the path has a '/' and is
relative to the root of the repository.
"""

import re
from dataclasses import dataclass
from itertools import takewhile

HTML_COMMENT = re.compile(r"<!--.*?-->", re.DOTALL)
FENCE = re.compile(r" {0,3}(```+|~~~+)")
SPAN = re.compile(r"(?<![`\\])(`+)(?!`)(.+?)(?<!`)\1(?!`)")
CITATION = re.compile(r"([^\s:,]*/[^\s:,]*)(?:: ([^\s,]+(?:, [^\s,]+)*))?")
QUOTE_MARK = ">"


@dataclass(frozen=True)
class Citation:
    """A file, and the names that it is said to declare."""

    path: str
    names: tuple[str, ...]


@dataclass(frozen=True)
class Line:
    """A line of a page: its text, its citations, what is wrong with their form, and its other words."""

    number: int
    text: str
    words: str
    citations: list[Citation]
    faults: list[str]

    def is_quote(self):
        """Whether the line quotes document 01."""
        return self.text.startswith(QUOTE_MARK)

    def quote(self):
        """What the line quotes."""
        return self.text.removeprefix(QUOTE_MARK).strip()


def shown_lines(markdown):
    """The numbered lines that a reader sees as text: no HTML comment, no fenced block."""
    visible = HTML_COMMENT.sub(lambda comment: "\n" * comment.group().count("\n"), markdown)
    open_fence = None
    for number, line in enumerate(visible.splitlines(), 1):
        fence = FENCE.match(line)
        if open_fence is None and fence:
            open_fence = fence.group(1)
        elif open_fence is None:
            yield number, line
        elif line.strip().startswith(open_fence):
            open_fence = None


def table_cells(line):
    """The cells of a table row, without the marks of emphasis and code."""
    inner = line.strip().removeprefix("|").removesuffix("|")
    return [cell.strip(" `*") for cell in re.split(r"(?<!\\)\|", inner)]


def is_table_row(line):
    """Whether the line is a row of a table."""
    return line.lstrip().startswith("|")


def table_rows(markdown, header):
    """The cells of each row of the first table that has this header, with the row's line number; None where there is no such table."""
    lines = list(shown_lines(markdown))
    headers = [at for at, (_, line) in enumerate(lines) if table_cells(line) == header]
    if not headers:
        return None
    after_separator = lines[headers[0] + 2 :]
    return [(number, table_cells(line)) for number, line in takewhile(lambda numbered: is_table_row(numbered[1]), after_separator)]


def parse_line(number, text):
    """Takes a line apart."""
    citations, faults = [], []

    def without_citation(span):
        content = span.group(2).strip()
        if "/" not in content.partition(" ")[0]:
            return content
        cited = CITATION.fullmatch(content)
        if cited:
            names = cited.group(2)
            citations.append(Citation(cited.group(1), tuple(names.split(", ")) if names else ()))
        else:
            faults.append(f"'{content}' is not of the form 'path' or 'path: name, name'")
        return ""

    words = SPAN.sub(without_citation, text).replace("*", "")
    if "`" in SPAN.sub("", text).replace("\\`", ""):
        faults.append("a code span does not end on its line")
    return Line(number, text, words, citations, faults)


def parse_page(markdown):
    """The lines that a reader sees, taken apart."""
    return [parse_line(number, text) for number, text in shown_lines(markdown)]


def paragraphs_of(lines):
    """The runs of lines without an empty line, or a line that is not shown, between them."""
    paragraphs = []
    last = None
    for line in lines:
        if line.text.strip():
            if last is None or line.number != last + 1:
                paragraphs.append([])
            paragraphs[-1].append(line)
            last = line.number
    return paragraphs


def quotes_of(lines):
    """What the lines quote, line by line."""
    return [line.quote() for line in lines if line.is_quote()]


def citations_of(lines):
    """All citations of some lines."""
    return [citation for line in lines for citation in line.citations]


def cited_names(lines):
    """The paths and names of all citations of some lines."""
    return {(citation.path, name) for citation in citations_of(lines) for name in citation.names}
