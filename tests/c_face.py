"""Checks the C face: the header and the Rust declarations against the source, and the header against the archive; what the compiler warns
of; that a header of another version does not link; the program of examples/c, built with the archive, against the outputs to which
tests/pairs.py holds fracture; and every answer against what tests/refusals.c expects.

The archive is for x86-64. On such a machine the program is built with its C compiler and runs as it is; on another one it is built with a
cross compiler and runs under an emulator. `rt ci` before has proved the crates; `rt lib` proves them again where nothing is kept of it, and
writes the archive.

Each fault is printed on a line. The last line is 'N passed, M failed', and the exit status is 0 exactly when M is 0.
"""

import os
import re
import subprocess
import sys
import tempfile
from pathlib import Path

from counting import report
from edits import PARTS
from machine import ARCHIVE, NATIVE, ROOT, emulator
from pairs import FOLDERS, input_of

HEADER = ROOT / "include" / "panbuckle.h"
SOURCE = ROOT / "crates" / "panbuckle_c" / "src" / "lib.rt"
LIMITS = ROOT / "crates" / "plane" / "src" / "lib.rt"
COMPILER = "gcc" if NATIVE else "x86_64-linux-gnu-gcc"
WORDS = ["-std=c11", "-O2", "-Wall", "-Wextra", "-Wpedantic", "-Werror", "-static"]
# A linker that is told so drops what no call leads to.
DROPPING = ["-ffunction-sections", "-fdata-sections", "-Wl,--gc-sections"]
PLATE = ROOT / "examples" / "c" / "plate.c"
RUST = ROOT / "examples" / "rust" / "panbuckle.rs"
# What the program says, with status 2, of an input that fracture refuses to read.
UNREAD = b"plate: the input is no list of at most 4096 points, a line x y for each\n"
# Good lines, and not too many of them; but 65,537 bytes.
TOO_LONG = 3640 * b"00000000 00000000\n" + b"0000000 00000000\n"
# The steps of a longer input take long under an emulator.
MOST_LINES = 200
FEWEST_INPUTS = 90
# So many calls does tests/refusals.c make.
CALLS = 92

# In Rattle `result` is a word of clauses, so that a parameter of that name has another one there.
NAMES = {"res": "result"}
C_TYPES = {"u8": "uint8_t", "i32": "int32_t", "u32": "uint32_t", "u64": "uint64_t", "usize": "size_t"}
SLICE = re.compile(r"&(mut )?\[(u8|i32)\]")
FIXED = re.compile(r"&mut \[(i32|u64); (\d+)\]")
FUNCTION = re.compile(r'pub extern "C" fn (\w+)\(([^)]*)\) -> (\w+)')
CONSTANT = re.compile(r"^pub const (\w+): \w+ = (\d+);", re.MULTILINE)
DEFINED = re.compile(r"^    PANBUCKLE_(MOST_\w+) = (\d+)", re.MULTILINE)
SCRATCH = re.compile(r"^    PANBUCKLE_GDSII_SCRATCH = (\d+)|\bscratch\[PANBUCKLE_FIXED (\d+)\]", re.MULTILINE)
DECLARED = re.compile(r"^((?:PANBUCKLE_ACCESS\(.*\)\n)?)(\w+ panbuckle_\w+\([^)]*\));", re.MULTILINE)
RUST_DECLARED = re.compile(r"pub fn (panbuckle_\w+\([^)]*\) -> \w+);")
ACCESS = re.compile(r"PANBUCKLE_ACCESS\((\w+), (\d+), (\d+)\)")
VERSION = re.compile(r"^#define PANBUCKLE_VERSION (\d+)$", re.MULTILINE)
NEEDED = re.compile(r"needs nothing but ([\w, ]+)\.")
SYMBOL = re.compile(r"^(?:[0-9a-f]+)? +([TU]) (\w+)$", re.MULTILINE)
WARNING = re.compile(r"^[^:\n]+:(\d+):\d+: warning: .*\[(-W[a-z-]+)=?\]$", re.MULTILINE)

# Calls of which gcc warns, and which warning it is; and calls that are allowed.
LENT = "int32_t points[8], work[8], rects[4], brief[2], scratch[8192]; uint64_t result[5], three[3]; uint8_t bytes[8];"
WARNED = {
    "panbuckle_forward(points, 8, points, 8, rects, 4, result)": "-Wrestrict",
    "panbuckle_forward(points, 8, work, 8, work, 8, result)": "-Wrestrict",
    "panbuckle_backward(rects, 4, rects, 4, three)": "-Wrestrict",
    "panbuckle_forward(brief, 8, work, 8, rects, 4, result)": "-Wstringop-overread",
    "panbuckle_forward(points, 8, work, 8, brief, 4, result)": "-Wstringop-overflow",
    "panbuckle_step(brief, 8, 4, rects, three)": "-Wstringop-overflow",
    "panbuckle_step(work, 8, 4, brief, three)": "-Wstringop-overflow",
    "panbuckle_forward(points, 8, work, 8, rects, 4, three)": "-Wstringop-overflow",
    "panbuckle_backward(NULL, 4, points, 8, three)": "-Wnonnull",
    "panbuckle_step(work, 8, 4, NULL, three)": "-Wnonnull",
    "panbuckle_backward(rects, 4, points, 8, NULL)": "-Wnonnull",
    "panbuckle_read_gdsii(bytes, 8, bytes, 8, 1, scratch, scratch, 8192, three)": "-Wrestrict",
    "panbuckle_read_gdsii(bytes, 9, NULL, 0, 1, scratch, points, 8, three)": "-Wstringop-overread",
    "panbuckle_read_gdsii(bytes, 8, bytes, 9, 1, scratch, points, 8, three)": "-Wstringop-overread",
    "panbuckle_read_gdsii(bytes, 8, bytes, 8, 1, points, work, 8, three)": "-Wstringop-overflow",
    "panbuckle_read_gdsii(bytes, 8, bytes, 8, 1, scratch, points, 9, three)": "-Wstringop-overflow",
    "panbuckle_read_gdsii(bytes, 8, bytes, 8, 1, NULL, points, 8, three)": "-Wnonnull",
    "panbuckle_read_gdsii(NULL, 8, bytes, 8, 1, scratch, points, 8, three)": "-Wnonnull",
    "panbuckle_forward(points, 8, work, 8, rects, 4, result)": None,
    "panbuckle_forward(NULL, 0, NULL, 0, NULL, 0, result)": None,
    "panbuckle_step(NULL, 0, 0, rects, three)": None,
    "panbuckle_backward(NULL, 0, NULL, 0, three)": None,
    "panbuckle_read_gdsii(bytes, 8, bytes, 8, 1, scratch, points, 8, three)": None,
    "panbuckle_read_gdsii(NULL, 0, NULL, 0, 1, scratch, NULL, 0, three)": None,
}


def c_parameters(name, kind):
    """The parameters in C of one in Rattle: a slice is a pointer and a length."""
    fixed, lent = FIXED.fullmatch(kind), SLICE.fullmatch(kind)
    if fixed:
        return [f"{C_TYPES[fixed[1]]} {name}[PANBUCKLE_FIXED {fixed[2]}]"]
    if lent:
        return [f"{'' if lent[1] else 'const '}{C_TYPES[lent[2]]} *PANBUCKLE_LENT {name}", f"size_t {name}_length"]
    return [f"{C_TYPES[kind]} {name}"]


def rust_parameters(name, kind):
    """The parameters in Rust, where it calls C, of one in Rattle."""
    fixed, lent = FIXED.fullmatch(kind), SLICE.fullmatch(kind)
    if fixed:
        return [f"{name}: *mut {fixed[1]}"]
    if lent:
        return [f"{name}: {'*mut' if lent[1] else '*const'} {lent[2]}", f"{name}_length: usize"]
    return [f"{name}: {kind}"]


def exported(source, listed_as):
    """The functions that a source exports: the name, the parameters in another language, and the result's type."""
    for name, parameters, result in FUNCTION.findall(source):
        pairs = [part.strip().split(": ") for part in parameters.split(",") if part.strip()]
        yield name, ", ".join(text for word, kind in pairs for text in listed_as(NAMES.get(word, word), kind)), result


def declarations(header):
    """The functions that the header declares, in order, each on one line, and what it says before each of its arrays."""
    return sorted((" ".join(text.split()), said) for said, text in DECLARED.findall(header))


def name_of(declaration):
    """The function that is declared."""
    return declaration.split("(")[0].split()[-1]


def access_faults(header):
    """For each function of the header what is wrong with what it says of its arrays, or None: a lent array stands before its length, and is
    only read exactly where it is const."""
    for text, said in declarations(header):
        parameters = text.partition("(")[2].split(", ")
        wanted = [("const" in word, place, place + 1) for place, word in enumerate(parameters, 1) if "PANBUCKLE_LENT" in word]
        found = [(mode == "__read_only__", int(place), int(length)) for mode, place, length in ACCESS.findall(said)]
        yield None if found == wanted else f"of the arrays of {name_of(text)} the header says {found}, and not {wanted}"


def header_faults(header):
    """For each function of the header, its limits and its version what is wrong, or None. Its answers are judged by tests/refusals.py."""
    source = SOURCE.read_text(encoding="utf-8")
    ours = [text for text, _ in declarations(header)]
    theirs = sorted(f"{C_TYPES[result]} {name}({listed or 'void'})" for name, listed, result in exported(source, c_parameters))
    yield None if ours and ours == theirs else f"the header declares {ours}, and the source exports {theirs}"
    yield from access_faults(header)
    limits = [pair for pair in CONSTANT.findall(LIMITS.read_text(encoding="utf-8")) if pair[0].startswith("MOST_")]
    defined = DEFINED.findall(header)
    yield None if limits and limits == defined else f"the limits are {limits}, and in the header {defined}"
    sizes = {named or fixed for named, fixed in SCRATCH.findall(header)}
    yield None if len(sizes) == 1 else f"there is not one size of the scratch array but {sizes}"
    versions = {*VERSION.findall(header), dict(CONSTANT.findall(source)).get("VERSION"), *re.findall(r"panbuckle_version_(\d+)", header)}
    yield None if len(versions) == 1 else f"there is not one version but {versions}"


def rust_faults(header, rust):
    """What is wrong with the functions that the Rust example declares, and with the version that it asks for; or None for each."""
    ours = sorted(" ".join(text.split()).replace("( ", "(").replace(", )", ")") for text in RUST_DECLARED.findall(rust))
    found = exported(SOURCE.read_text(encoding="utf-8"), rust_parameters)
    theirs = sorted(f"{name}({listed}) -> {result}" for name, listed, result in found)
    yield None if ours and ours == theirs else f"Rust declares {ours}, and the source exports {theirs}"
    versions = {*VERSION.findall(header), *re.findall(r"(?:VERSION: u32 = |panbuckle_version_)(\d+)", rust)}
    yield None if len(versions) == 1 else f"in Rust there is not one version but {versions}"


def said_by(*words):
    """The exit status of a command, and what it writes."""
    plain = {**os.environ, "LC_ALL": "C"}
    done = subprocess.run(words, check=False, text=True, stdout=subprocess.PIPE, stderr=subprocess.STDOUT, env=plain)
    return done.returncode, done.stdout


def archive_faults(header):
    """What is wrong with the functions that the archive has, and with those that it needs; or None for each."""
    _, nm = said_by(COMPILER, "-print-prog-name=nm")
    _, symbols = said_by(nm.strip(), ARCHIVE)
    found = {kind: sorted(name for of, name in SYMBOL.findall(symbols) if of == kind) for kind in "TU"}
    names = [name_of(text) for text, _ in declarations(header)]
    yield None if found["T"] == names else f"the archive has {found['T']}, and the header declares {names}"
    needed = sorted(name for text in NEEDED.findall(header) for name in re.split(r", | and ", text))
    yield None if found["U"] == needed else f"the archive needs {found['U']}, and the header says {needed}"


def warning_faults(folder):
    """For each call what is wrong with the compiler's warning, or None."""
    source = Path(folder) / "warned.c"
    head = ['#include "panbuckle.h"', LENT]
    calls = [f"uint32_t call_{i}(void) {{ return {call}; }}" for i, call in enumerate(WARNED)]
    source.write_text("\n".join([*head, *calls, ""]), encoding="utf-8")
    status, said = said_by(COMPILER, "-std=c11", "-O2", "-Wall", f"-I{HEADER.parent}", "-c", source, "-o", source.with_suffix(".o"))
    yield None if status == 0 else f"the calls do not compile: {said}"
    warnings = {(int(line), name) for line, name in WARNING.findall(said)}
    for line, (call, wanted) in enumerate(WARNED.items(), 1 + len(head)):
        found = {name for at, name in warnings if at == line}
        yield None if found == ({wanted} if wanted else set()) else f"the compiler warns of {call} by {found}, and not by {wanted}"


def other_version(header):
    """The header as if it were of the next version, and that version's function."""
    number = VERSION.search(header)[1]
    after = int(number) + 1
    return re.sub(rf"(PANBUCKLE_VERSION |panbuckle_version_){number}\b", rf"\g<1>{after}", header), f"panbuckle_version_{after}"


def version_faults(folder, header):
    """For each of two ways to link what is wrong, or None: this version's header links, and for another's its version is not there."""
    other = Path(folder) / "other"
    other.mkdir()
    text, function = other_version(header)
    (other / HEADER.name).write_text(text, encoding="utf-8")
    for more in ([], DROPPING):
        for headers, wanted in ((HEADER.parent, []), (other, [function])):
            status, said = said_by(COMPILER, *WORDS, *more, f"-I{headers}", PLATE, ARCHIVE, "-o", other / "plate")
            undefined = re.findall(r"undefined reference to `(\w+)'", said)
            ends_well = (status == 0) == (wanted == [])
            yield None if undefined == wanted and ends_well else f"linked with {more} it lacks {undefined}, and not {wanted}: {said}"


def archived():
    """Whether the archive could be proved and written; if not, what `rt lib` says is shown."""
    ends = {"stdin": subprocess.DEVNULL, "stdout": subprocess.PIPE, "stderr": subprocess.STDOUT}
    done = subprocess.run(["rt", "lib"], cwd=ROOT / "crates" / "panbuckle_c", **ends, text=True, errors="replace", check=False)
    if done.returncode == 0:
        ARCHIVE.touch()
    else:
        print(done.stdout, end="", flush=True)
    return done.returncode == 0


def made():
    """Whether the archive is there; this script may have made it of the same sources."""
    sources = [ROOT / "crates.txt", *(source for part in PARTS for source in ROOT.glob(f"crates/*/{part}/**"))]
    sources += [source for part in PARTS for source in ROOT.glob(f"crates/*/{part}/**/*")]
    fresh = ARCHIVE.exists() and all(source.stat().st_mtime < ARCHIVE.stat().st_mtime for source in sources)
    return fresh or archived()


def built(source, folder):
    """A C program, built with the archive in a folder; or None, after the compiler has said why."""
    program = Path(folder) / source.stem
    words = [COMPILER, *WORDS, f"-I{HEADER.parent}", source, ARCHIVE, "-o", program]
    return program if subprocess.run(words, check=False).returncode == 0 else None


def inputs():
    """Inputs of fracture by name, and what it prints of each. The program that is compared makes every step, so a long list is left out."""
    for source in sorted(path for folder in FOLDERS for path in folder.iterdir() if path.suffix in (".in", ".json")):
        data, printed = input_of(source), source.with_suffix(".out").read_bytes()
        if is_unread(printed) or data.count(b"\n") <= MOST_LINES:
            yield source.relative_to(ROOT), data, printed
    yield "good lines with a byte too many", TOO_LONG, b"refused 2 place 0\n"


def is_unread(printed):
    """Whether fracture's reader refused the input, for its lines or its length."""
    return printed.startswith((b"refused 2 ", b"refused 11 "))


def run_faults(program):
    """For each input what is wrong with the program's outcome, or None."""
    command = [*emulator(), str(program)]
    for name, data, printed in inputs():
        done = subprocess.run(command, input=data, capture_output=True, check=False)
        status = 1 if printed.startswith(b"refused") else 0
        expected = (2, b"", UNREAD) if is_unread(printed) else (status, printed, b"")
        got = (done.returncode, done.stdout, done.stderr)
        yield None if got == expected else f"{name}: {got} instead of {expected}"


def example_faults(folder):
    """For each input of the example what is wrong, or None."""
    program = built(PLATE, folder)
    ran = list(run_faults(program)) if program else ["the program of examples/c could not be built"]
    few = f"there are only {len(ran)} inputs, and at least {FEWEST_INPUTS} are wanted"
    return [*ran, few if program and len(ran) < FEWEST_INPUTS else None]


def refusal_faults(folder):
    """For each call of tests/refusals.c what is wrong, or None."""
    program = built(ROOT / "tests" / "refusals.c", folder)
    if not program:
        return ["tests/refusals.c could not be built"]
    done = subprocess.run([*emulator(), str(program)], capture_output=True, text=True, check=False)
    *faults, last = done.stdout.splitlines() or [""]
    if done.returncode != 0 or last != f"{CALLS} calls":
        return [*faults, f"tests/refusals.c ended with status {done.returncode} after {last!r}, and not after {CALLS} calls"]
    return [*faults, *[None] * (CALLS - len(faults))]


def linked_faults(header):
    """For each check of what needs the archive what is wrong, or None."""
    if not archived():
        return ["the archive could not be made"]
    with tempfile.TemporaryDirectory() as folder:
        return [
            *archive_faults(header),
            *warning_faults(folder),
            *version_faults(folder, header),
            *example_faults(folder),
            *refusal_faults(folder),
        ]


def main():
    """Checks the face, prints the faults and the counts, and gives the exit status."""
    header = HEADER.read_text(encoding="utf-8")
    outcomes = [*header_faults(header), *rust_faults(header, RUST.read_text(encoding="utf-8")), *linked_faults(header)]
    faults = [fault for fault in outcomes if fault]
    return report(len(outcomes) - len(faults), faults)


if __name__ == "__main__":
    sys.exit(main())
