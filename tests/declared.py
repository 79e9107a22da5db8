"""What a file of the repository declares: its names, and of a Rattle file the public functions with what their heads say."""

import ast
import re
from dataclasses import dataclass

# In both, the group is a text, in which nothing begins a comment.
ANTT_COMMENT = re.compile(r'(?<!\S)--[^\n]*|\{-.*?-\}|("(?:\\.|[^"\\])*")', re.DOTALL)
RT_COMMENT = re.compile(r"""//[^\n]*|/\*.*?\*/|("(?:\\.|[^"\\])*"|'(?:\\.|[^'\\\n])')""", re.DOTALL)

ANTT_NAME = r'[^\s(){}.;,@"]+'
ANTT_DECLARATION = re.compile(
    r"^[ \t]*(?:(?:unfoldable|abbrev|axiom|pub)[ \t]+)*"
    rf"(?:(?:data|record|ruleset)[ \t]+({ANTT_NAME})"
    rf"|({ANTT_NAME})(?:[ \t]+|[ \t]*\{{[^}}\n]*\}}[ \t]*):(?!\S))",
    re.MULTILINE,
)
RT_DECLARATION = re.compile(r"\b(?:fn|struct|enum|trait|const)\s+(\w+)")
RT_ENUM = re.compile(r"\benum\s+\w+[^{;]*\{(.*?)^\}", re.MULTILINE | re.DOTALL)
RT_CASE = re.compile(r"^    (\w+)", re.MULTILINE)
RT_PUBLIC_FUNCTION = re.compile(r'\bpub\s+(?:(?:const|unsafe|extern|"C"|impl)\s+)*fn\s+(\w+)[^(]*')
# A public trait, or an impl of a trait for a type, which is the group.
RT_TRAIT_BLOCK = re.compile(r"\bpub\s+trait\s+\w[^{]*\{|\bimpl\b[^{;]*?\bfor\s+(\w+)[^{]*\{")
RT_PRIVATE_TYPE = re.compile(r"(?<!pub )\b(?:struct|enum)\s+(\w+)")
RT_FUNCTION = re.compile(r"\bfn\b")
# After a function's parameters: a clause of its contract, which may have a name, or its body, or the `;` of a trait's function, outside of a type.
RT_CLAUSE_OR_BODY = re.compile(r"(?:\b(requires|ensures)\b\*?\s*(?:\w+\s*)?)?\{|;(?![^\[\n]*\])")
BRACKET = re.compile(r"[(){}\[\]]")


@dataclass(frozen=True)
class Function:
    """A public function, and what its head has."""

    name: str
    has_result: bool
    lends_to_write: bool
    requires: bool
    ensures: bool

    def owes_contract(self):
        """Whether it gives or writes anything that a contract can determine."""
        return self.has_result or self.lends_to_write


def without_comments(text, comment):
    """The source with a space for each comment."""
    return comment.sub(lambda found: found.group(1) or " ", text)


def antt_names(text):
    """The names that an antt file declares, with its constructors, fields and local names."""
    found = ANTT_DECLARATION.findall(without_comments(text, ANTT_COMMENT))
    return {typed or signed for typed, signed in found}


def rt_names(text):
    """The functions, types, traits and constants of a Rattle file, and the cases of its enums."""
    plain = without_comments(text, RT_COMMENT)
    cases = [case for body in RT_ENUM.findall(plain) for case in RT_CASE.findall(body)]
    return {*RT_DECLARATION.findall(plain), *cases}


def python_names(text):
    """The functions and classes of a Python file."""
    kinds = (ast.FunctionDef, ast.AsyncFunctionDef, ast.ClassDef)
    return {node.name for node in ast.walk(ast.parse(text)) if isinstance(node, kinds)}


DECLARED_NAMES = {".antt": antt_names, ".rt": rt_names, ".py": python_names}


def has_word(text, word):
    """Whether the word stands in the text, and not as a part of a longer one."""
    return re.search(rf"(?<![\w-]){re.escape(word)}(?![\w-])", text) is not None


def declares(path, name):
    """Whether the file declares the name; a file of another kind has only to hold it as a word."""
    text = path.read_text(encoding="utf-8")
    names_of = DECLARED_NAMES.get(path.suffix)
    return name in names_of(text) if names_of else has_word(text, name)


def group_end(text, opening):
    """Where the bracket that opens at a place has closed."""
    depth = 0
    for bracket in BRACKET.finditer(text, opening):
        depth += 1 if bracket.group() in "({[" else -1
        if depth == 0:
            return bracket.end()
    raise SyntaxError("a bracket does not close")


def function_at(text, head):
    """The public function whose name ends a head that was found in a text without comments."""
    parameters_end = group_end(text, head.end())
    next_part = RT_CLAUSE_OR_BODY.search(text, parameters_end)
    result = text[parameters_end : next_part.start()] if next_part else ""
    clauses = set()
    while next_part and next_part.group(1):
        clauses.add(next_part.group(1))
        next_part = RT_CLAUSE_OR_BODY.search(text, group_end(text, next_part.end() - 1))
    return Function(
        name=head.group(1),
        has_result="->" in result,
        lends_to_write="&mut" in text[head.end() : parameters_end],
        requires="requires" in clauses,
        ensures="ensures" in clauses or "impl" in head.group().split(),
    )


def with_trait_methods(text):
    """The source with `pub` before each function of a public trait and of a trait's impl for a public type, which are as public as the trait or
    the type is. Where the impl has ghost items it is `pub impl`: by them the trait's clauses are the function's contract."""
    parts, end, private = [], 0, set(RT_PRIVATE_TYPE.findall(text))
    for head in RT_TRAIT_BLOCK.finditer(text):
        if head.group(1) in private:
            continue
        closing = group_end(text, head.end() - 1)
        block = text[head.end() : closing]
        public = "pub impl fn" if head.group(1) and has_word(block, "ghost") else "pub fn"
        parts += [text[end : head.end()], RT_FUNCTION.sub(public, block)]
        end = closing
    return "".join([*parts, text[end:]])


def public_functions(text):
    """The public functions and methods of a Rattle file, by name, those of its public traits and of traits' impls among them."""
    plain = with_trait_methods(without_comments(text, RT_COMMENT))
    functions = [function_at(plain, head) for head in RT_PUBLIC_FUNCTION.finditer(plain)]
    return sorted(functions, key=lambda function: function.name)
