"""Checks that docs/PROMISES.md quotes every sentence of document 01, and of each request of document 02 that has a section there, and quotes
nothing else as their words.

The documents are the customer's pages and no part of the repository: they are looked for beside the checkout. Marks of Markdown and white
space do not count, and a sentence may be quoted in parts, one after another.
"""

import re

SCOPE = "01-scope.md"
REQUESTS = "02-change-requests.md"

# Lines without words of their own: headings, the marks of a code block, the line under a table's header.
WORDLESS = re.compile(r"\s*(?:#|```|\|[-|: ]+$)")
LIST_MARK = re.compile(r"\s*(?:[-*+]|\d+[.)])\s+")
EMPHASIS = re.compile(r"[*`]")
GAP = re.compile(r"[|\s]+")
SENTENCE_END = re.compile(r"(?<=[.;]) ")


def document_beside(root, name):
    """The text of one of the documents, if it is there."""
    document = root.absolute().parent / "shared" / name
    return document.read_text(encoding="utf-8") if document.is_file() else None


def request_in(requests, number):
    """The lines of a request of document 02: from the one that begins with its number to the next such line."""
    parts = re.split(r"^(\d+)\) ", requests, flags=re.MULTILINE)
    return dict(zip(parts[1::2], parts[2::2])).get(number, "")


def plain_words(line):
    """The words of a line, without the marks of lists, emphasis, code and tables."""
    unlisted = LIST_MARK.sub("", line, count=1) if LIST_MARK.match(line) else line
    return GAP.sub(" ", EMPHASIS.sub("", unlisted)).strip()


def worded_lines(markdown):
    """The words of each line of a document that has any."""
    words = [plain_words(line) for line in markdown.splitlines() if not WORDLESS.match(line)]
    return [line for line in words if line]


def sentences_of(markdown):
    """The sentences of a document, cut after a period or a semicolon and at the end of a line."""
    return [sentence for line in worded_lines(markdown) for sentence in SENTENCE_END.split(line)]


def check_document(name, markdown, quotes, tally):
    """Each sentence of a document is quoted, and each quote, which comes with its place, is of its words."""
    sentences = sentences_of(markdown)
    tally.check(sentences, f"{name} has no sentence")
    quoted = " ".join(plain_words(quote) for _, quote in quotes)
    for sentence in sentences:
        tally.check(sentence in quoted, f"docs/PROMISES.md: a sentence of {name} is not quoted: {sentence}")
    said = " ".join(worded_lines(markdown))
    for place, quote in quotes:
        tally.check(plain_words(quote) in said, f"{place}: not the words of {name}: {quote}")


def check_documents(root, quotes, tally):
    """The quotes, by the number of the request in whose section they stand, or by None, are those of that request, or of document 01."""
    scope, requests = document_beside(root, SCOPE), document_beside(root, REQUESTS)
    if scope is None:
        print("document 01 is not beside the checkout, so that no sentence of it was looked for")
    else:
        check_document("document 01", scope, quotes[None], tally)
    for number in [number for number in quotes if number is not None]:
        if requests is None:
            print(f"document 02 is not beside the checkout, so that no sentence of its request {number} was looked for")
        else:
            check_document(f"request {number} of document 02", request_in(requests, number), quotes[number], tally)
