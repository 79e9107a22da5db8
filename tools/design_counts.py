"""Lists the places in src/ that the eight points of docs/DESIGN-PASS.md speak of, as far as a pattern can find them.

`python3 tools/design_counts.py [FOLDER]` prints, for each point, a line for each place and their number. What only a reader can find (twins that are not
alike word for word, a number that stands for a kind in a local) is listed in the page.
"""

import collections
import itertools
import re
import sys
from pathlib import Path

ROOT = Path(sys.argv[1] if len(sys.argv) > 1 else ".")
SOURCES = {path: path.read_text(encoding="utf-8") for path in sorted(ROOT.glob("crates/*/src/**/*.rt"))}
FUNCTION = re.compile(r"\bfn (\w+)(?:<[^>]*>)?\(([^)]*)\)(.*?)^(\s*)\{\n(.*?)^\4\}\n", re.DOTALL | re.MULTILINE)


def crate_of(path):
    return path.relative_to(ROOT).parts[1]


def lines_with(pattern):
    """The lines that match, each with its crate and number."""
    found = []
    for path, text in SOURCES.items():
        for number, line in enumerate(text.split("\n"), 1):
            if not line.lstrip().startswith("//") and re.search(pattern, line):
                found.append(f"{crate_of(path)}:{number}: {line.strip()}")
    return found


def declared(kind):
    """The declarations of a kind that have a body of lines: the crate and the name together, and the body."""
    pattern = re.compile(kind + r" (\w+)[^{;]*\{\n(.*?)^\}", re.DOTALL | re.MULTILINE)
    return [(f"{crate_of(path)}: {name}", body) for path, text in SOURCES.items() for name, body in pattern.findall(text)]


def is_like_option(body):
    """Whether an enum of this body carries values and has one case for a refusal, or one without any value, beside."""
    cases = re.findall(r"^    (\w+)(?:\s*\{(.*?)\}|\((.*?)\))?,", body, re.DOTALL | re.MULTILINE)
    bare = [case for case in cases if not case[1] and not case[2]]
    return "answer" in body or len(cases) > len(bare) > 0


def is_flag_with_value(body):
    """Whether a struct of this body is a flag and something else."""
    fields = re.findall(r"^    (?:pub )?(\w+): (.*?),$", body, re.MULTILINE)
    return len(fields) == 2 and "bool" in [kind for _, kind in fields]


def shape_of(parameters, body):
    """A function's text with its own names, its types, its numbers and its constants blotted out."""
    names = {}
    tokens = re.findall(r"[A-Za-z_]\w*|\d[\d_]*|[^\s\w]", re.sub(r"//.*", "", parameters + "{" + body + "}"))
    keywords = "if else while loop for in let mut return match fn as true false break continue".split()
    blotted = []
    for token in tokens:
        if re.fullmatch(r"[iu](8|16|32|64|size)|[A-Z][A-Z_0-9]*|\d[\d_]*", token):
            blotted.append("T")
        elif re.fullmatch(r"[A-Za-z_]\w*", token) and token not in keywords:
            blotted.append(names.setdefault(token, f"n{len(names)}"))
        else:
            blotted.append(token)
    return " ".join(blotted)


def twins():
    """Functions that are alike but for names, types, numbers and constants."""
    groups = collections.defaultdict(list)
    for path, text in SOURCES.items():
        for match in FUNCTION.finditer(text):
            groups[shape_of(match[2], match[5])].append(f"{crate_of(path)}::{match[1]}")
    return [" = ".join(group) for shape, group in groups.items() if len(group) > 1 and len(shape) > 60]


def facts():
    """Facts that the contracts of three or more functions of a crate ask for."""
    found = []
    for path, text in SOURCES.items():
        counts = collections.Counter()
        for clause in re.findall(r"requires (?:\w+ )?\{(.*?)\}\n", text):
            for fact in clause.split(" × "):
                counts[re.sub(r"\b\w+\.(now|old)", r"_.\1", fact.strip().strip("()"))] += 1
        found += [f"{crate_of(path)}: {fact} ({number} times)" for fact, number in counts.items() if number >= 3]
    return found


def companions():
    """Pairs of parameters that four or more functions of a crate take together."""
    found = []
    for path, text in SOURCES.items():
        counts = collections.Counter()
        for match in FUNCTION.finditer(text):
            taken = sorted(re.sub(r"^mut ", "", part.strip()) for part in match[2].split(",") if ":" in part)
            counts.update(itertools.combinations(taken, 2))
        found += [f"{crate_of(path)}: {one}, {other} ({number} times)" for (one, other), number in counts.items() if number >= 4]
    return found


LISTS = {
    "1 enums of the shape of Option or Result": lambda: [name for name, body in declared(r"\benum") if is_like_option(body)],
    "1 a flag with a value beside it": lambda: [name for name, body in declared(r"\bstruct") if is_flag_with_value(body)],
    "1 numbers for kinds or refusals": lambda: lines_with(r"\b(answer|number|kind|form|byte)\b: u(8|32)|^(pub )?const [A-Z_0-9]+: u(8|32) = \d+;$"),
    "2 functions alike but for types, sizes, constants": twins,
    "3 loops that are no `for`": lambda: lines_with(r"^\s*(while|loop)\b"),
    "4 equality, order, copies, conversions by hand": lambda: lines_with(
        r"fn (same_\w+|comes_before|is_digit|magnitude|smaller|greater|fewer|gap|reach|differ|swap|copy|clear|zero_start|origin|no_rect|no_frame"
        r"|apart|raise|lower|key_of|point_of|signed_of|bits_of|of_two|of_four|of_fours|byte_of|byte_at|spell|plain|negative)\("
    ),
    "5 facts asked for three times and more": facts,
    "5 parameters that travel together": companions,
    "6 parallel arrays, and arrays with a count beside them": lambda: lines_with(
        r"^const (TYPES|NEXTS|SKIPS|FORMS|LEASTS|UNITS_OF): |heads: &mut|: &(mut )?\[\w+\], (n|count): usize|ends: &(mut )?\["
    ),
    "7 a switch on which step to run": lambda: lines_with(r"enum Seek|fn is_bad\(|fn is_sought\("),
}


def main():
    for title, places in LISTS.items():
        found = places()
        print(f"{title}: {len(found)}")
        for place in found:
            print(f"    {place}")


if __name__ == "__main__":
    main()
