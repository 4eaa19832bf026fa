"""A second reading of programs, for checks alone: from the bytes of a correct program to its normal form as lists of lines, by docs/text.md and
docs/language.md and without a tree of expressions. `.ci/checks/weaver.py` weaves what it gives."""

import re
from dataclasses import dataclass, field

TOKEN = re.compile(
    r"""(?P<blank>\s+|//[^\n]*|/\*.*?\*/|\#[^\n]*)|(?P<string>"(?:\\.|[^"\\])*")|(?P<number>0[xX][0-9a-fA-F]+\w*|[0-9]+\w*)|(?P<name>[A-Za-z_]\w*)"""
    r"""|(?P<sign>\.\.\.|<<|>>|->|::|<=|>=|==|!=|&&|\|\||\+\+|--|[-+*/%]=|[{}();,:.+*/%&|^~!<>=-])""",
    re.S,
)
MARGIN = "    "
UNARY = ("-", "!", "~", "&")
# Words that a value, and so a sign with one operand, stands behind.
BEFORE_VALUE = ("return", "delete")
HEADS = ("if", "while", "for", *BEFORE_VALUE)
UNSIGNED = {"int": "uint32_t", "unsigned": "uint32_t", "bool": "bool"}


def tokens_of(text):
    """The words and signs of a text. Its directives are dropped, as its comments are."""
    return [found.group() for found in TOKEN.finditer(text) if found.lastgroup != "blank"]


def literal(token):
    """A number as canonical texts have it."""
    digits, suffix = re.fullmatch(r"(0[xX][0-9a-fA-F]+|[0-9]+)(\w*)", token).groups()
    value, suffix, is_hexadecimal = int(digits, 0), suffix.lower(), digits[1:2] in ("x", "X")
    kinds = {
        "": [("", 31), *[("u", 32)] * is_hexadecimal, ("ll", 63), *[("ull", 64)] * is_hexadecimal],
        "u": [("u", 32), ("ull", 64)],
        "ll": [("ll", 63), ("ull", 64)],
        "ull": [("ull", 64)],
    }
    return f"{value}{next(shown for shown, bits in kinds[suffix] if value < 2**bits)}"


def is_word(token):
    """Whether a token is a name, a number or a string."""
    return token[:1].isalnum() or token[:1] in ("_", '"')


def ends_value(token):
    return token == ")" or is_word(token) and token not in BEFORE_VALUE


def spelled(tokens, classes):
    """Tokens of a line as they are printed: no blank around members and calls, none behind a sign with one operand."""
    line, before, is_open = "", None, True
    for token in tokens:
        is_prefix = token in (*UNARY, "++", "--", "::") and (before is None or not ends_value(before))
        is_pointer = token == "*" and before in classes
        tight = is_open or token in (")", ",", ";", ".", "->") or is_pointer
        tight = tight or token in ("++", "--", "::") and not is_prefix
        tight = tight or token == "(" and is_word(before) and before not in HEADS
        if is_open and token in ("-", "&") and before == token:
            tight = False
        line += ("" if tight else " ") + (literal(token) if token[0].isdigit() else token)
        is_open = is_prefix or token in ("(", ".", "->", "::") or token in ("++", "--") and is_prefix
        before = token
    return line


@dataclass
class Function:
    """A function, a constructor (its result is None) or a destructor (its name begins with `~`): its head without `{`, and its body's lines."""

    result: str | None
    name: str
    head: str
    body: list


@dataclass
class Class:
    word: str
    name: str
    base: str | None
    # Pairs of an access and a `Function` or a member, which is a pair of a type and a name.
    items: list = field(default_factory=list)

    def members(self):
        return [item for _, item in self.items if isinstance(item, tuple)]


def indented(lines):
    return [MARGIN + line for line in lines]


class Reader:
    """Reads a program's declarations one after the other."""

    def __init__(self, text):
        self.tokens = tokens_of(text)
        self.at = 0
        found = re.findall(r"\b(?:class|struct) (\w+)", " ".join(self.tokens))
        self.classes = set(found)

    def next(self):
        return self.tokens[self.at]

    def take(self, count=1):
        taken = self.tokens[self.at : self.at + count]
        self.at += count
        return taken[0] if count == 1 else taken

    def until(self, sign):
        """The tokens up to a sign outside of parentheses, which is taken and left out."""
        start, depth = self.at, 0
        while depth or self.next() != sign:
            depth += {"(": 1, ")": -1}.get(self.next(), 0)
            self.at += 1
        self.at += 1
        return self.tokens[start : self.at - 1]

    def spell(self, tokens):
        return spelled(tokens, self.classes)

    def parenthesised(self):
        """The tokens of a pair of parentheses and what is in it."""
        self.take()
        return ["(", *self.until(")"), ")"]

    def block(self):
        self.take()
        lines = []
        while self.next() != "}":
            lines += self.statement()
        self.take()
        return lines

    def statement(self):
        if self.next() == "{":
            return ["{", *indented(self.block()), "}"]
        if self.next() == "if":
            return self.branch("")
        if self.next() in ("while", "for"):
            head = self.spell([self.take(), *self.parenthesised()]).replace(";;", "; ;").replace(";)", "; )")
            return [head + " {", *indented(self.block()), "}"]
        return [self.spell(self.until(";")) + ";"]

    def branch(self, front):
        lines = [front + self.spell([self.take(), *self.parenthesised()]) + " {", *indented(self.block())]
        if self.next() != "else":
            return [*lines, "}"]
        self.take()
        if self.next() == "if":
            return [*lines, *self.branch("} else ")]
        return [*lines, "} else {", *indented(self.block()), "}"]

    def type_and_name(self):
        shown = self.take()
        if self.next() == "*":
            shown += self.take()
        return shown, self.take()

    def constructor(self, name, members, base):
        """A constructor's initialisers of members become assignments, in the order in which the members are declared."""
        head, inits = self.spell([name, *self.parenthesised()]), {}
        while self.next() in (":", ","):
            self.take()
            named = self.take()
            inits[named] = self.spell(self.parenthesised())
        if base in inits:
            head += f" : {base}{inits[base]}"
        made = [f"this->{member} = {inits[member][1:-1]};" for member in members if member in inits]
        return Function(None, name, head, made + self.block())

    def item(self, name, members, base):
        if self.next() == "~":
            self.take(4)
            return Function(None, f"~{name}", f"~{name}()", self.block())
        if self.next() == name and self.tokens[self.at + 1] == "(":
            self.take()
            return self.constructor(name, members, base)
        shown, called = self.type_and_name()
        if self.next() == ";":
            self.take()
            return shown, called
        return Function(shown, called, f"{shown} {called}{self.spell(self.parenthesised())}", self.block())

    def member_names(self):
        """The names of the members of the class whose items follow, in order."""
        names, depth, at = [], 1, self.at
        while depth:
            depth += {"{": 1, "}": -1}.get(self.tokens[at], 0)
            if depth == 1 and self.tokens[at + 1] == ";" and is_word(self.tokens[at]):
                names.append(self.tokens[at])
            at += 1
        return names

    def read_class(self):
        word, name = self.take(2)
        base = self.take(3)[2] if self.next() == ":" else None
        self.take()
        access, members = "private" if word == "class" else "public", self.member_names()
        items = []
        while self.next() != "}":
            if self.next() in ("public", "private", "protected"):
                access, _ = self.take(2)
            else:
                items.append((access, self.item(name, members, base)))
        self.take(2)
        functions = [item.name for _, item in items if isinstance(item, Function)]
        items += [("public", Function(None, made, f"{made}()", [])) for made in (name, f"~{name}") if made not in functions]
        return Class(word, name, base, items)

    def declaration(self):
        """A class, a function, a line, or nothing for a declaration that the normal form drops."""
        if self.next() in ("class", "struct"):
            if self.tokens[self.at + 2] == ";":
                return self.take(3) and None
            return self.read_class()
        end = next(at for at in range(self.at, len(self.tokens)) if self.tokens[at] in (";", "{"))
        if self.tokens[end] == "{":
            shown, name = self.type_and_name()
            return Function(shown, name, f"{shown} {name}{self.spell(self.parenthesised())}", self.block())
        tokens = self.until(";")
        # A prototype: a global object has arguments in its parentheses, and no type of numbers.
        if "(" in tokens and "=" not in tokens and (tokens[0] not in self.classes or tokens[1] == "*"):
            return None
        return self.spell(tokens) + ";"


def read(text):
    """A program's declarations in normal form."""
    reader, declarations = Reader(text), []
    while reader.at < len(reader.tokens):
        declarations.append(reader.declaration())
    declarations = [it for it in declarations if it is not None]
    for it in declarations:
        if isinstance(it, Function) and it.name == "main" and not (it.body and it.body[-1].startswith("return")):
            it.body.append("return 0;")
    return declarations


INCLUDES = [f"#include <{header}>" for header in ("cstdint", "cstdlib", "iostream", "mutex", "thread")]


def function_lines(function):
    return [function.head + " {", *indented(function.body), "}"]


def class_lines(it):
    lines, access = [f"{it.word} {it.name}" + (f" : public {it.base}" if it.base else "") + " {"], "private" if it.word == "class" else "public"
    for shown, item in it.items:
        if shown != access:
            lines.append(f"{shown}:")
            access = shown
        lines += indented(function_lines(item) if isinstance(item, Function) else [f"{item[0]} {item[1]};"])
    return [*lines, "};"]


def text_of(declarations):
    """The canonical text of declarations in normal form."""
    classes = [it for it in declarations if isinstance(it, Class)]
    functions = [it for it in declarations if isinstance(it, Function) and it.name != "main"]
    lines = [*INCLUDES, *(f"{it.word} {it.name};" for it in classes), *(f"{it.head};" for it in functions)]
    for it in declarations:
        lines += class_lines(it) if isinstance(it, Class) else function_lines(it) if isinstance(it, Function) else [it]
    return "".join(f"{line}\n" for line in lines)
