"""From tokens to forms (LANGUAGE.md, "Grammar" and the rules under "Refusals").

Each rule is given the room that it has: how deep what stands there may be. The token that is refused is the first that fits no rule
(Syntax), or that fits one only if there were more room (Deep). So what a rule opens is asked for room before anything below it is read, and
an operator is asked when it is met, since its left operand was read without knowing of it.
"""

from dataclasses import dataclass, field

from .values import DEEP, SYNTAX, Refused
from .lexer import BUILT_INS, number_of

MOST_DEPTH = 64
MOST_BINDERS = 8
COMPARISONS = ("==", "<", "<=", ">", ">=")
LEVELS = (("or",), ("and",), COMPARISONS, ("++",), ("+", "-"), ("*", "/", "%"))
LEVEL_OF = {operator: level for level, operators in enumerate(LEVELS) for operator in operators}


@dataclass
class Form:
    """An expression or a written type.

    The kind is `integer`, `true`, `false`, `name`, `call`, `let`, `if`, `pair`, `parentheses`, `literal`, `guard`, `comprehension`,
    `negate`, `not`, an operator or a built-in's name; of types `int`, `bool`, `pair`, `vector`, `sequence`. A comprehension's parts are its
    sequences, its condition where it has one, and its body.
    """

    kind: str
    offset: int
    parts: tuple = ()
    text: str = ""
    binders: tuple = ()
    depth: int = field(init=False)

    def __post_init__(self):
        self.depth = 1 + max((it.depth for it in self.parts), default=0)

    @property
    def has_condition(self):
        return len(self.parts) == len(self.binders) + 2


@dataclass
class Function:
    """A function as it is declared. A parameter is its name's token and its written type."""

    name: object
    parameters: list
    result: Form
    body: Form


@dataclass
class Program:
    """A whole program. An input is its name's token and its written type."""

    dialect: object
    declarations: list
    body: Form

    @property
    def inputs(self):
        return [it for it in self.declarations if not isinstance(it, Function)]

    @property
    def functions(self):
        return [it for it in self.declarations if isinstance(it, Function)]


def asks_for(needed, room):
    """Refuses what needs a greater depth than it has."""
    if needed > room:
        raise Refused(DEEP)


class Reader:
    """Reads the rules of the grammar from tokens, of which the last is `end`."""

    def __init__(self, tokens):
        self.tokens, self.place = tokens, 0

    @property
    def next(self):
        return self.tokens[self.place]

    def fails(self):
        """Refuses the token that stands here."""
        raise Refused(SYNTAX, self.next.offset)

    def take(self, *kinds):
        """The token that stands here, which is of one of these kinds."""
        token = self.next
        if token.kind not in kinds:
            self.fails()
        self.place += 1
        return token

    def listed(self, item, divider):
        """Items with a token between two of them."""
        items = [item()]
        while self.next.kind == divider:
            self.take(divider)
            items.append(item())
        return items

    def program(self, dialect):
        """program: what stands before it, declarations, and an expression up to the end."""
        if self.next.kind == "dialect":
            self.take("dialect")
            if self.next.kind != "integer" or number_of(self.next.text) != 2:
                self.fails()
            self.take("integer")
            self.take(";")
        declarations = []
        while self.next.kind in ("input", "function"):
            declarations.append(self.input() if self.next.kind == "input" else self.function())
        body = self.expression(MOST_DEPTH)
        self.take("end")
        return Program(dialect, declarations, body)

    def input(self):
        """decl: an input, as its name and its type."""
        self.take("input")
        declared = self.parameter()
        self.take(";")
        return declared

    def parameter(self):
        """param: a name and its type."""
        name = self.take("name")
        self.take(":")
        return name, self.type(MOST_DEPTH)

    def function(self):
        """decl: a function."""
        self.take("function")
        name = self.take("name")
        self.take("(")
        parameters = self.listed(self.parameter, ",")
        self.take(")")
        self.take(":")
        result = self.type(MOST_DEPTH)
        self.take("=")
        body = self.expression(MOST_DEPTH)
        self.take(";")
        return Function(name, parameters, result, body)

    def type(self, room):
        token = self.take("int", "bool", "(", "[", "{")
        if token.kind in ("int", "bool"):
            return Form(token.kind, token.offset)
        asks_for(2, room)
        parts = [self.type(room - 1)]
        if token.kind == "(":
            self.take(",")
            parts.append(self.type(room - 1))
        self.take({"(": ")", "[": "]", "{": "}"}[token.kind])
        return Form({"(": "pair", "[": "vector", "{": "sequence"}[token.kind], token.offset, tuple(parts))

    def expression(self, room):
        if self.next.kind == "let":
            return self.let(room)
        if self.next.kind == "if":
            return self.choice(room)
        return self.disjunction(room)

    def let(self, room):
        """expr: a binding, with its name as a binder."""
        asks_for(2, room)
        offset = self.take("let").offset
        name = self.take("name")
        self.take("=")
        bound = self.expression(room - 1)
        self.take("in")
        return Form("let", offset, (bound, self.expression(room - 1)), binders=(name,))

    def choice(self, room):
        """expr: `if`."""
        parts = []
        asks_for(2, room)
        offset = self.next.offset
        for word in ("if", "then", "else"):
            self.take(word)
            parts.append(self.expression(room - 1))
        return Form("if", offset, tuple(parts))

    def disjunction(self, room, least=0):
        """disjunction, or a rule below it: operands of the levels from the least on, grouped to the left. An operator does not go on with
        what one of a level before has made, nor one of comparisons with a comparison."""
        left, most = self.prefixed(room), len(LEVELS)
        while least <= LEVEL_OF.get(self.next.kind, -1) <= most:
            asks_for(left.depth + 1, room)
            level = LEVEL_OF[self.next.kind]
            operator = self.take(self.next.kind)
            left = Form(operator.kind, operator.offset, (left, self.disjunction(room - 1, level + 1)))
            most = level - 1 if operator.kind in COMPARISONS else level
        return left

    def prefixed(self, room):
        if self.next.kind not in ("-", "not"):
            return self.indexed(room)
        asks_for(2, room)
        token = self.take("-", "not")
        return Form("negate" if token.kind == "-" else "not", token.offset, (self.prefixed(room - 1),))

    def indexed(self, room):
        left = self.primary(room)
        while self.next.kind == "!":
            asks_for(left.depth + 1, room)
            offset = self.take("!").offset
            left = Form("!", offset, (left, self.primary(room - 1)))
        return left

    def primary(self, room):
        kind = self.next.kind
        if kind in ("integer", "true", "false"):
            token = self.take(kind)
            return Form(kind, token.offset, text=token.text)
        if kind == "name" or kind in BUILT_INS:
            return self.named(room)
        if kind not in ("(", "{"):
            self.fails()
        asks_for(2, room)
        return self.braces(room - 1) if kind == "{" else self.parentheses(room - 1)

    def named(self, room):
        """primary: a name, or a call."""
        token = self.next
        if token.kind != "name":
            asks_for(2, room)
        self.place += 1
        if token.kind == "name" and self.next.kind != "(":
            return Form("name", token.offset, text=token.text)
        if self.next.kind == "(":
            asks_for(2, room)
        self.take("(")
        arguments = self.listed(lambda: self.expression(room - 1), ",")
        self.take(")")
        return Form("call" if token.kind == "name" else token.kind, token.offset, tuple(arguments), token.text)

    def parentheses(self, room):
        """primary: parentheses, or a pair, with the room of its parts."""
        offset = self.take("(").offset
        parts = [self.expression(room)]
        if self.next.kind == ",":
            self.take(",")
            parts.append(self.expression(room))
        self.take(")")
        return Form("pair" if len(parts) == 2 else "parentheses", offset, tuple(parts))

    def braces(self, room):
        """primary: what stands in braces, with the room of its parts."""
        offset = self.take("{").offset
        first = self.expression(room)
        if self.next.kind == "|":
            self.take("|")
            kind, parts, names = "guard", [first, self.expression(room)], ()
        elif self.next.kind == ":":
            kind, (names, parts) = "comprehension", self.binders(room)
            parts.append(first)
        else:
            kind, parts, names = "literal", [first], ()
            while self.next.kind == ",":
                self.take(",")
                parts.append(self.expression(room))
        self.take("}")
        return Form(kind, offset, tuple(parts), binders=names)

    def binders(self, room):
        """The names of a comprehension, and its sequences with its condition."""
        names, sequences = [], []
        mark = ":"
        while self.next.kind == mark and len(names) < MOST_BINDERS:
            self.take(mark)
            names.append(self.take("name"))
            self.take("in")
            sequences.append(self.expression(room))
            mark = ";"
        if self.next.kind == "|":
            self.take("|")
            sequences.append(self.expression(room))
        return tuple(names), sequences


def program_of(dialect, tokens):
    """The program that tokens make up. Refuses the first token that cannot go on with one."""
    return Reader(tokens).program(dialect)
