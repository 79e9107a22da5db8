"""Reads Rattle sources, so far as tests/mutating.py needs it: which functions and constants a file has, and what in their bodies and
values can be edited.

Contracts, types and comments are passed over. A source that is not understood raises SyntaxError.
"""

import re
from dataclasses import dataclass, field

TOKEN = re.compile(
    r"(?P<gap>\s+|//[^\n]*|/\*.*?\*/)"
    r"""|(?P<text>b?"(?:\\.|[^"\\])*"|b?'(?:\\[^']+|[^'\\])')"""
    r"|(?P<number>\d\w*)"
    r"|(?P<word>'?[^\W\d]\w*)"
    r"|(?P<mark>\.\.=|<<=|>>=|[-+*/%&|^=!<>]=|=>|->|::|\.\.|&&|\|\||<<|>>|.)",
    re.DOTALL,
)

# Operators, those that bind less strongly first.
BINDING = [["||"], ["&&"], ["==", "!=", "<", "<=", ">", ">="], ["|"], ["^"], ["&"], ["<<", ">>"], ["+", "-"], ["*", "/", "%"], ["as"]]
STRENGTH = {mark: strength for strength, marks in enumerate(BINDING, 1) for mark in marks}
ASSIGNS = {"=", "+=", "-=", "*=", "/=", "%=", "&=", "|=", "^=", "<<=", ">>="}
CLOSES = {"(": ")", "[": "]", "{": "}"}
WITH_BLOCK = {"if", "while", "loop", "for", "match", "{"}
RANGES = {"..", "..="}
CLOSURES = {"|", "||", "move"}


@dataclass(frozen=True)
class Token:
    """A word, number, text or mark of a source, and where it stands."""

    kind: str
    text: str
    start: int
    end: int


@dataclass
class Places:
    """What a body or a value has that can be edited. A span is a pair of places in the text."""

    operators: list = field(default_factory=list)  # an operator's token and the spans of its operands
    assignments: list = field(default_factory=list)  # the token of an assignment
    calls: list = field(default_factory=list)  # a function's name and the spans of its arguments
    literals: list = field(default_factory=list)  # a type's name and its fields' names, each with the span of its value
    branches: list = field(default_factory=list)  # the spans of the two blocks of an `if`
    statements: list = field(default_factory=list)  # the span of a statement that can be left out
    constants: list = field(default_factory=list)  # tokens that change together


@dataclass
class Item:
    """A function or a constant, its places, and whether it is a constant that other crates see."""

    name: str
    places: Places
    public_constant: bool = False


@dataclass
class Source:
    """What a file declares: its items, the types of its functions' parameters, and those of its types' fields."""

    items: list[Item] = field(default_factory=list)
    parameters: dict[str, list[str]] = field(default_factory=dict)
    fields: dict[str, dict[str, str]] = field(default_factory=dict)


def tokens_of(text):
    """The tokens of a source, without comments."""
    return [Token(found.lastgroup, found.group(), *found.span()) for found in TOKEN.finditer(text) if found.lastgroup != "gap"]


class Reader:
    """Reads a source from its start to its end, and notes the places of each body."""

    def __init__(self, text):
        self.text, self.tokens, self.at = text, tokens_of(text), 0
        self.source, self.places = Source(), Places()

    # -- Steps over tokens

    def peek(self, ahead=0):
        """The text of a token that comes, empty at the end."""
        at = self.at + ahead
        return self.tokens[at].text if at < len(self.tokens) else ""

    def next(self):
        """Steps over a token."""
        if self.at == len(self.tokens):
            raise SyntaxError("the source ends too early")
        self.at += 1
        return self.tokens[self.at - 1]

    def take(self, text):
        """Steps over a token if it is this one, and says whether it was."""
        found = self.peek() == text
        self.at += found
        return found

    def expect(self, text):
        """Steps over a token that must be this one."""
        if not self.take(text):
            line = self.text.count("\n", 0, self.tokens[min(self.at, len(self.tokens) - 1)].start) + 1
            raise SyntaxError(f"line {line}: `{text}` is expected before `{self.peek()}`")

    def skip_group(self):
        """Steps over a bracket, what it holds and its partner."""
        closing = CLOSES[self.next().text]
        while not self.take(closing):
            if self.peek() in CLOSES:
                self.skip_group()
            else:
                self.next()

    def skip_to(self, *stops):
        """Steps up to one of some tokens, past those that stand in brackets; gives the tokens."""
        first = self.at
        while self.peek() not in stops:
            if self.peek() in CLOSES:
                self.skip_group()
            else:
                self.next()
        return self.tokens[first : self.at]

    def span(self, first):
        """From where a token starts to where the last one ended."""
        return self.tokens[first].start, self.tokens[self.at - 1].end

    def skip_angles(self):
        """Steps over what stands between `<` and its `>`, if it begins here."""
        if not self.take("<"):
            return
        depth = 1
        while depth > 0:
            text = self.peek()
            if text in CLOSES:
                self.skip_group()
                continue
            depth += {"<": 1, ">": -1, ">>": -2}.get(self.next().text, 0)

    # -- Items

    def read(self):
        """Reads the whole source."""
        while self.peek():
            self.item()
        return self.source

    def item(self, owner=""):
        """Reads an item, or steps over a token that says nothing of it. A method goes by its owner's name and its own."""
        word, public = self.next().text, self.at > 1 and self.tokens[self.at - 2].text == "pub"
        if word == "#":
            self.take("!")
            self.skip_group()
        elif word in ("use", "type", "ghost"):
            self.skip_to(";")
        elif word in ("struct", "enum"):
            self.declaration(self.next().text, word)
        elif word == "const":
            self.constant(self.next().text, public)
        elif word == "fn":
            self.function(self.next().text, owner)
        elif word in ("impl", "trait"):
            self.methods()

    def methods(self):
        """Reads the items of a block, whose owner is the type that it is for, or else the trait."""
        self.skip_angles()
        head = [token.text for token in self.skip_to("{")]
        owner = head[head.index("for") + 1] if "for" in head else head[0]
        self.expect("{")
        while not self.take("}"):
            self.item(f"{owner}::")

    def declaration(self, name, word):
        """Reads the fields of a struct, or of an enum's variants."""
        self.skip_angles()
        if word == "struct":
            self.source.fields[name] = self.fields()
            return
        self.expect("{")
        while not self.take("}"):
            variant = self.next().text
            self.source.fields[f"{name}::{variant}"] = self.fields()
            self.skip_to(",", "}")
            self.take(",")

    def fields(self):
        """Reads named fields with their types; others are passed over."""
        types = {}
        if self.peek() != "{":
            return types
        self.next()
        while not self.take("}"):
            if self.take("pub") and self.peek() == "(":
                self.skip_group()
            if self.peek() == "ghost":
                self.skip_to(",", "}")
                self.take(",")
                continue
            name = self.next().text
            self.expect(":")
            types[name] = "".join(token.text for token in self.skip_to(",", "}"))
            self.take(",")
        return types

    def constant(self, name, public):
        """Reads a constant's value; a trait's constant may have none."""
        self.skip_to("=", ";")
        if self.next().text == ";":
            return
        self.begin(name, public)
        self.expression()
        self.expect(";")

    def function(self, name, owner=""):
        """Reads a function's parameters, and its body, after its contract."""
        self.skip_angles()
        self.expect("(")
        types = []
        while not self.take(")"):
            parameter = "".join(token.text for token in self.skip_to(",", ")"))
            types.append(parameter.partition(":")[2])
            self.take(",")
        self.source.parameters[name] = [kind for kind in types if kind]
        while self.peek() not in ("{", ";"):
            if self.next().text in ("requires", "ensures"):
                self.skip_to("{")
                self.skip_group()
            elif self.peek() == "[":
                self.skip_group()
        if self.take(";"):
            return
        self.begin(owner + name)
        self.block()

    def begin(self, name, public_constant=False):
        """From here on places are those of another item."""
        self.places = Places()
        self.source.items.append(Item(name, self.places, public_constant))

    # -- Statements

    def block(self):
        """Reads a block; gives its span."""
        first = self.at
        self.expect("{")
        while not self.take("}"):
            self.statement()
        return self.span(first)

    def statement(self):
        """Reads a statement, or the value of a block."""
        if self.peek().startswith("'"):
            self.next()
            self.expect(":")
        first, word = self.at, self.peek()
        if word == "let":
            self.binding()
        elif word in WITH_BLOCK:
            if self.with_block():
                self.places.statements.append(self.span(first))
            self.take(";")
        else:
            acts = self.expression()
            if self.peek() in ASSIGNS:
                self.places.assignments.append(self.next())
                self.expression()
                acts = True
            if self.take(";") and acts:
                self.places.statements.append(self.span(first))

    def binding(self):
        """Reads a `let`."""
        self.expect("let")
        self.skip_to("=", ":", ";")
        kind = self.skip_to("=", ";") if self.take(":") else []
        if not self.take("="):
            self.expect(";")
            return
        known = len(self.places.constants)
        self.expression()
        if kind and kind[-1].text == "]" and kind[-2].kind == "number":
            self.pair_lengths(kind[-2], known)
        if self.take("else"):
            self.block()
        self.expect(";")

    def pair_lengths(self, length, known):
        """The length of an array's type changes together with the one of `[value; length]`."""
        token = self.tokens[self.at - 2]
        if self.peek(-1) == "]" and self.peek(-3) == ";" and token.text == length.text:
            self.places.constants[known:] = [places for places in self.places.constants[known:] if places != (token,)]
            self.places.constants.append((length, token))

    def with_block(self):
        """Reads what begins with such a word; says whether it is an `if` that can be left out."""
        word = self.peek()
        if word == "{":
            self.block()
        elif word == "if":
            return self.condition()
        elif word == "match":
            self.match()
        else:
            self.next()
            if word == "while":
                self.test()
            elif word == "for":
                self.skip_to("in")
                self.next()
                self.expression(literals=False)
            self.block()
        return False

    def test(self):
        """Reads the test of an `if` or a `while`."""
        if self.take("let"):
            self.skip_to("=")
            self.next()
        self.expression(literals=False)

    def condition(self):
        """Reads an `if`; says whether it has no `else`."""
        self.expect("if")
        self.test()
        first = self.block()
        if not self.take("else"):
            return True
        if self.peek() == "if":
            self.condition()
        else:
            self.places.branches.append((first, self.block()))
        return False

    def match(self):
        """Reads a `match`. An arm's guard is a condition like that of an `if`, but literals of structs may stand in it."""
        self.expect("match")
        self.expression(literals=False)
        self.expect("{")
        while not self.take("}"):
            for token in self.skip_to("=>", "if"):
                self.note_constant(token)
            if self.take("if"):
                self.expression()
            self.expect("=>")
            self.expression()
            self.take(",")

    # -- Expressions

    def expression(self, literals=True):
        """Reads an expression, in which literals of structs may stand or not; says whether a call is all that it is."""
        calls = self.peek() not in RANGES and self.operation(0, literals)
        if self.peek() in RANGES:
            self.next()
            calls = False
            if self.peek() not in ("]", ")", ",", ";", "{"):
                self.operation(0, literals)
        return calls

    def operation(self, weakest, literals):
        """Reads operands and the operators between them that bind more strongly than that; says whether a call is all of it."""
        first = self.at
        calls = self.operand(literals)
        while STRENGTH.get(self.peek(), 0) > weakest:
            left, mark, calls = self.span(first), self.next(), False
            if mark.text == "as":
                self.next()
                continue
            second = self.at
            self.operation(STRENGTH[mark.text], literals)
            self.places.operators.append((mark, left, self.span(second)))
        return calls

    def operand(self, literals):
        """Reads an operand, with what stands before and after it; says whether a call is all of it."""
        if self.peek() in ("-", "!", "*", "&", "&&"):
            if self.next().text in ("&", "&&"):
                self.take("mut")
            self.operand(literals)
            return False
        name, calls = self.primary(literals), False
        while self.peek() in (".", "(", "[", "?"):
            calls = self.peek() in ("(", "?")
            if self.take("?"):
                continue
            if calls:
                self.call(name)
            elif self.take("."):
                name = self.next().text
                if self.take("::"):
                    self.skip_angles()
            else:
                self.next()
                self.expression()
                self.expect("]")
        return calls

    def primary(self, literals):
        """Reads a name, a constant, a bracket or a word with a block; gives the name, if it is one."""
        word = self.peek()
        if word in WITH_BLOCK:
            self.with_block()
            return None
        if word in CLOSURES:
            self.closure()
            return None
        token = self.next()
        if word in ("(", "["):
            while not self.take(CLOSES[word]):
                self.expression()
                _ = self.take(",") or self.take(";")
        elif word in ("return", "break", "continue"):
            if self.peek() not in (";", "}", ","):
                self.expression()
        elif token.kind == "word" and word not in ("true", "false"):
            return self.path(word, literals)
        elif token.kind != "mark":
            self.note_constant(token)
        else:
            self.at -= 1
            self.expect("an expression")
        return None

    def closure(self):
        """Reads a closure: its parameters and its contract are passed over."""
        self.take("move")
        if not self.take("||"):
            self.expect("|")
            self.skip_to("|")
            self.next()
        if self.take("->"):
            self.skip_to("{", "requires", "ensures")
        while self.peek() in ("requires", "ensures"):
            self.skip_to("{")
            self.skip_group()
        self.expression()

    def path(self, name, literals):
        """Reads the rest of a name, and a literal of a struct if one begins; gives the name's last two parts. What a macro is given is passed over."""
        while self.take("::"):
            if self.peek() == "<":
                self.skip_angles()
            else:
                name = f"{name.rpartition('::')[2]}::{self.next().text}"
        if self.peek() == "!" and self.peek(1) in CLOSES:
            self.next()
            self.skip_group()
            return None
        if literals and self.peek() == "{":
            self.literal(name)
            return None
        return name

    def note_constant(self, token):
        """A token that can be changed alone, if it is a constant."""
        if token.kind in ("number", "text") or token.text in ("true", "false"):
            self.places.constants.append((token,))

    def call(self, name):
        """Reads a call's arguments."""
        self.expect("(")
        spans = []
        while not self.take(")"):
            first = self.at
            self.expression()
            spans.append(self.span(first))
            self.take(",")
        self.places.calls.append((name, spans))

    def literal(self, name):
        """Reads the fields of a literal."""
        self.expect("{")
        values = []
        while not self.take("}"):
            field_name = self.next().text
            if self.take(":"):
                first = self.at
                self.expression()
                values.append((field_name, self.span(first)))
            self.take(",")
        self.places.literals.append((name, values))
