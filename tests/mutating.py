"""Small edits of Rattle code, the same ones each time: what tests/mutants has the prover check.

A place of the code is edited in one of four kinds:

- comparison: `<` becomes `<=`, `==` becomes `!=`, and the like;
- constant: a number is one more or one less, `true` becomes `false`, the first byte of a byte string is another one; the two lengths of
  `let a: [u8; 20] = [0; 20];` change together;
- exchange: two operands, arguments, values of fields or branches change places, or an operator becomes another: `&` and `|`, `+` and `-`,
  `/` and `%`, `*` to `+`;
- drop: a statement is left out: an assignment, a call whose result is not used, an `if` without `else`.

Only the bodies of functions and the values of constants are edited, no contract, type or comment. An edit that is seen to mean the same
is not made, such as `a + b` to `b + a`; nor is one that is seen to be no Rattle: arguments are exchanged only where a function of the
repository has parameters of one type, and values of fields likewise.
"""

import hashlib
import re
from collections import Counter
from dataclasses import dataclass
from itertools import combinations

from sources import Reader, Source

KINDS = ("comparison", "constant", "exchange", "drop")

FLIPPED = {"<": "<=", "<=": "<", ">": ">=", ">=": ">", "==": "!=", "!=": "=="}
PARTNER = {"&": "|", "|": "&", "&&": "||", "||": "&&", "+": "-", "-": "+", "*": "+", "/": "%", "%": "/", "+=": "-=", "-=": "+="}
# Of the others, as `+` or `==`, the operands may stand in either order.
ORDERED = {"-", "/", "%", "<<", ">>", "<", "<=", ">", ">="}


@dataclass(frozen=True)
class Mutant:
    """One edit: its name CRATE/ITEM/KIND-NUMBER, its file, what is replaced there, and whether other crates see the item's value."""

    name: str
    path: str
    changes: tuple[tuple[int, int, str], ...]
    public_constant: bool = False

    @property
    def crate(self):
        """The crate that is edited."""
        return self.name.split("/")[0]

    @property
    def item(self):
        """The function or constant that is edited, with its crate."""
        return self.name.rpartition("/")[0]

    @property
    def kind(self):
        """The kind of the edit."""
        return self.name.rpartition("/")[2].rpartition("-")[0]


# ---- The edits of an item


def one_off(token):
    """The texts that a constant is changed to."""
    if token.text in ("true", "false"):
        return ["false" if token.text == "true" else "true"]
    if token.kind == "text":
        quote = token.text.index(token.text[-1]) + 1
        return [token.text[:quote] + another_byte(token.text[quote:])] if len(token.text) > quote + 1 else []
    number = re.fullmatch(r"(0x[0-9a-fA-F_]+|[\d_]+)(\w*)", token.text)
    value = int(number[1].replace("_", ""), 0)
    return [f"{changed}{number[2]}" for changed in (value + 1, value - 1) if changed >= 0]


def another_byte(text):
    """A text whose first byte is another one."""
    first = re.match(r"\\x..|\\.|.", text)
    return ("y" if first[0] == "x" else "x") + text[first.end() :]


def comparisons(places, _text, _known):
    """Each comparison flipped."""
    for mark, _, _ in places.operators:
        if mark.text in FLIPPED:
            yield [(mark.start, mark.end, FLIPPED[mark.text])]


def constants(places, _text, _known):
    """Each constant off by one."""
    for tokens in places.constants:
        for changed in one_off(tokens[0]):
            yield [(token.start, token.end, changed) for token in tokens]


def exchanges(places, text, known):
    """Operands, arguments, values of fields and branches exchanged, and operators changed for their partners."""
    for mark, left, right in places.operators:
        if mark.text in ORDERED:
            yield exchanged(text, left, right)
    for mark in [mark for mark, _, _ in places.operators] + places.assignments:
        if mark.text in PARTNER:
            yield [(mark.start, mark.end, PARTNER[mark.text])]
    for name, spans in places.calls:
        types = known.parameters.get((name or "").rpartition("::")[2], [])
        yield from (exchanged(text, spans[i], spans[j]) for i, j in pairs_of(types[: len(spans)]))
    for name, values in places.literals:
        types = known.fields.get(name) or known.fields.get(name.rpartition("::")[2], {})
        yield from (exchanged(text, values[i][1], values[j][1]) for i, j in pairs_of([types.get(each, each) for each, _ in values]))
    for first, second in places.branches:
        yield exchanged(text, first, second)


def pairs_of(types):
    """The pairs of places with one type."""
    return [(i, j) for i, j in combinations(range(len(types)), 2) if types[i] == types[j]]


def exchanged(text, first, second):
    """Two spans that change places."""
    return [(*first, text[slice(*second)]), (*second, text[slice(*first)])]


def drops(places, text, _known):
    """Each statement left out, with its line if nothing else stands there."""
    for start, end in places.statements:
        before, after = text.rfind("\n", 0, start) + 1, text.find("\n", end) + 1
        alone = not text[before:start].strip() and not text[end:after].strip()
        yield [(before, after, "")] if alone else [(start, end, "")]


EDITS = {"comparison": comparisons, "constant": constants, "exchange": exchanges, "drop": drops}


def edited(text, changes):
    """A text with spans of it replaced."""
    for start, end, new in sorted(changes, reverse=True):
        text = text[:start] + new + text[end:]
    return text


def mutants_of(crate, path, text, source, known):
    """The mutants of one file. `known` has the types of the functions' parameters and of the fields that the file may name."""
    stem = path.rpartition("/")[2].removesuffix(".rt")
    prefix = "" if stem in ("lib", "main") else f"{stem}."
    for item in source.items:
        for kind in KINDS:
            changes = [tuple(found) for found in EDITS[kind](item.places, text, known) if edited(text, found) != text]
            for number, change in enumerate(sorted(changes, key=lambda found: found[0][0]), 1):
                yield Mutant(f"{crate}/{prefix}{item.name}/{kind}-{number}", path, change, item.public_constant)


# ---- The mutants of a repository, and the choice among them


def crates_of(root):
    """The crates of crates.txt, in its order, each with the crates of the repository that it names."""
    lines = [line.partition("#")[0] for line in (root / "crates.txt").read_text(encoding="utf-8").splitlines()]
    named = {head.split()[0]: words.split() for head, _, words in (line.partition(":") for line in lines if line.strip())}
    return {crate: [word for word in words if word in named] for crate, words in named.items()}


def all_mutants(root):
    """Every mutant of a repository, in the order of its text."""
    mutants, known = [], Source()
    for crate in crates_of(root):
        texts = {path: path.read_text(encoding="utf-8") for path in sorted((root / "crates" / crate / "src").glob("*.rt"))}
        sources = {path: Reader(text).read() for path, text in texts.items()}
        # A crate names only crates above it, and what it declares itself goes before what they declare.
        for source in sources.values():
            known.parameters.update(source.parameters)
            known.fields.update(source.fields)
        for path, text in texts.items():
            mutants += mutants_of(crate, path.relative_to(root).as_posix(), text, sources[path], known)
    return mutants


def drawn(mutants, seed):
    """The mutants in the order in which a seed draws them: first one of each kind of each item, then a second one, and so on. The order
    of an item's mutants does not hang on other items."""
    lots = sorted((hashlib.sha256(f"{seed}/{mutant.name}".encode()).hexdigest(), mutant.name, mutant) for mutant in mutants)
    rounds = Counter()
    order = []
    for lot, name, mutant in lots:
        rounds[mutant.item, mutant.kind] += 1
        order.append((rounds[mutant.item, mutant.kind], lot, name, mutant))
    return [mutant for *_, mutant in sorted(order)]


def chosen(mutants, count, seed, stillborn=frozenset()):
    """At least one mutant of each item, and then more by turns of the kinds, until so many are not stillborn or none is left."""
    made, later, whole = [], {kind: [] for kind in KINDS}, set()
    for mutant in drawn(mutants, seed):
        if mutant.item in whole:
            later[mutant.kind].append(mutant)
            continue
        made.append(mutant)
        if mutant.name not in stillborn:
            whole.add(mutant.item)
    judged = len(whole)
    while judged < count and any(later.values()):
        for kind in KINDS:
            if judged < count and later[kind]:
                made.append(later[kind].pop(0))
                judged += made[-1].name not in stillborn
    places = {mutant.name: place for place, mutant in enumerate(mutants)}
    return sorted(made, key=lambda mutant: places[mutant.name])


def difference(text, mutant):
    """The lines that an edit takes away and puts in, with the number of the first."""
    old, new = text.splitlines(), edited(text, mutant.changes).splitlines()
    same = 0
    while same < min(len(old), len(new)) and old[same] == new[same]:
        same += 1
    tail = 0
    while tail < min(len(old), len(new)) - same and old[-1 - tail] == new[-1 - tail]:
        tail += 1
    gone, come = old[same : len(old) - tail], new[same : len(new) - tail]
    return same + 1, [f"- {line.strip()}" for line in gone] + [f"+ {line.strip()}" for line in come]
