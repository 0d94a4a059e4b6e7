"""Terms of equations: a tree of tuples, the first entry of which names the form.

name NAME | number N | text BYTES | apply F X | operator OP LEFT RIGHT | if C A B | let NAME VALUE BODY | lambda NAMES BODY
tuple TERMS | field TERM NAME | record BASE FIELDS | cases TERM ALTERNATIVES | type
"""

import ast
import re
from collections import Counter

from .tokens import FormError

TIGHTNESS = {
    "→": 0, "↔": 0, "⊎": 1, "×": 2, "≡": 3, "≢": 3, "<": 3, "≤": 3, "||": 4, "&&": 5, "==": 6, "⊕": 6,
    "∷": 8, "++": 8, "+": 9, "-": 9, "+ℤ": 9, "-ℤ": 9, "*": 10, "*ℤ": 10, "/": 10, "%": 10, "^": 11,
}
RIGHT = {"→", "⊎", "×", "∷", "++", "||", "&&", "^"}
ENDS = {")", "}", "]", ",", ";", "then", "else", "in", "=", "|", "↦", "as", "where", ":"}


class Parser:
    def __init__(self, tokens, path):
        self.tokens, self.path, self.at = tokens, path, 0

    def fail(self, why):
        """Refuses the form, with its place."""
        token = self.tokens[min(self.at, len(self.tokens) - 1)]
        around = " ".join(self.tokens[max(0, self.at - 4):self.at + 4])
        raise FormError(f"{self.path}:{token.line}: {why}: {around}")

    def peek(self):
        """The token that comes next, or None at the end."""
        return self.tokens[self.at] if self.at < len(self.tokens) else None

    def next(self):
        if self.at >= len(self.tokens):
            self.fail("a term that ends too early")
        self.at += 1
        return self.tokens[self.at - 1]

    def want(self, word):
        if self.next() != word:
            self.at -= 1
            self.fail(f"no `{word}`")

    def whole(self):
        term = self.term()
        if self.peek() is not None:
            self.fail("what comes after a term")
        return term

    def term(self, tightness=0):
        """A term whose operators bind at least so tightly."""
        left = self.application()
        while self.peek() in TIGHTNESS and TIGHTNESS[self.peek()] >= tightness:
            operator = str(self.next())
            level = TIGHTNESS[operator]
            right = self.term(level if operator in RIGHT else level + 1)
            left = ("operator", operator, left, right)
        return left

    def application(self):
        """A term with its arguments; those in braces are implicit, and passed over."""
        if self.peek() == "elim":
            return self.elimination()
        if self.peek() == "¬":
            return ("apply", ("name", self.next()), self.application())
        term = self.atom()
        while True:
            token = self.peek()
            if token is None or token in TIGHTNESS or token in ENDS:
                return term
            if token == "{":
                self.skip("{", "}")
            else:
                term = ("apply", term, self.atom())

    def skip(self, opening, closing, depth=0):
        """Passes over what stands in brackets: an implicit argument or binder, or the type of a binder."""
        while True:
            depth += {opening: 1, closing: -1}.get(self.next(), 0)
            if depth == 0:
                return

    def elimination(self):
        """`elim TERM [ PATTERN ↦ TERM | .. ]`."""
        self.next()
        scrutinee = self.atom()
        if self.peek() == "as":
            self.next()
            self.atom()
        self.want("[")
        alternatives = []
        while True:
            pattern = self.term()
            self.want("↦")
            alternatives.append((pattern, self.term()))
            if self.next() == "]":
                return ("cases", scrutinee, tuple(alternatives))

    def atom(self):
        """A term that needs no brackets, with the fields that are taken of it."""
        token = self.next()
        if token == "(":
            return self.fields(self.bracketed())
        if token == "{":
            return self.implicit()
        if token == "λ":
            return self.function()
        if token == "if":
            return self.choice()
        if token == "let":
            return self.binding()
        if token == "record":
            return self.record()
        if token.startswith('"'):
            return ("text", tuple(ast.literal_eval(str(token)).encode()))
        if token[0].isdigit():
            return ("number", int(str(token).replace("_", ""), 0))
        if token in ENDS or token in TIGHTNESS:
            self.at -= 1
            self.fail("no term")
        return self.fields(("name", token))

    def implicit(self):
        """The implicit binder of a type."""
        names = []
        while self.peek() not in (":", "}"):
            names.append(("name", self.next()))
        if self.peek() == ":":
            self.next()
            self.term()
        self.want("}")
        return ("binder", names[0], None) if len(names) == 1 else ("binder", ("apply", *names[:2]), None)

    def fields(self, term):
        """A term, and the fields that are taken of it: `.name` right after a bracket."""
        while self.peek() is not None and re.match(r"\.[^\s.]", self.peek()):
            for name in self.next()[1:].split("."):
                term = ("field", term, name)
        return term

    def bracketed(self):
        """What stands in brackets: a term, a tuple, a term with its type, or the binder of a type."""
        if self.peek() in TIGHTNESS and self.tokens[self.at + 1] == ")":
            operator = self.next()
            self.next()
            return ("name", f"◌{operator}◌")
        parts = [self.term()]
        while self.peek() == ",":
            self.next()
            parts.append(self.term())
        if self.peek() == ":":
            self.next()
            written = self.term()
            self.want(")")
            return ("binder", parts[0], written)
        self.want(")")
        return parts[0] if len(parts) == 1 else ("tuple", tuple(parts))

    def function(self):
        """`λ a (b : T) c. BODY`."""
        names = []
        while True:
            token = self.next()
            if token == "(":
                names.append(str(self.next()))
                self.skip("(", ")", 1)
                if self.peek() == ".":
                    self.next()
                    break
            elif token == "{":
                self.skip("{", "}", 1)
            elif token.endswith("."):
                names.append(str(token[:-1]))
                break
            else:
                names.append(str(token))
        return ("lambda", tuple(names), self.term())

    def choice(self):
        condition = self.term()
        self.want("then")
        positive = self.term()
        self.want("else")
        return ("if", condition, positive, self.term())

    def binding(self):
        """`let x = VALUE in BODY`, where a type may stand after the name."""
        name = str(self.next())
        while self.peek() != "=":
            self.next()
        self.next()
        value = self.term()
        self.want("in")
        return ("let", name, value, self.term())

    def record(self):
        """`record { field = TERM; .. }`, or of another record with some fields changed."""
        base = None if self.peek() == "{" else self.atom()
        self.want("{")
        fields = []
        while self.peek() != "}":
            name = str(self.next())
            self.want("=")
            fields.append((name, self.term()))
            if self.peek() == ";":
                self.next()
        self.next()
        return ("record", base, tuple(fields))


def parsed(tokens, path):
    return Parser(tokens, path).whole()


def patterns(tokens, path):
    """The patterns of these tokens; those in braces are implicit, and passed over."""
    parser = Parser(tokens, path)
    found = []
    while parser.peek() is not None:
        if parser.peek() == "{":
            parser.skip("{", "}")
        else:
            found.append(parser.atom())
    return found


def equation_parts(tokens, path):
    depth = 0
    for at, token in enumerate(tokens):
        depth += {"(": 1, "{": 1, ")": -1, "}": -1}.get(token, 0)
        if token == "=" and depth == 0:
            return tokens[:at], tokens[at + 1:]
    raise FormError(f"{path}:{tokens[0].line}: an equation without `=`")


def arguments_of(term):
    """What is applied, and its arguments."""
    given = []
    while term[0] == "apply":
        given.insert(0, term[2])
        term = term[1]
    return term, given


def parts_of(term):
    """The terms that a term is made of, but for those in functions, bindings and alternatives."""
    if term[0] == "tuple":
        return term[1]
    if term[0] == "record":
        return ((term[1],) if term[1] else ()) + tuple(value for _, value in term[2])
    return {"apply": term[1:], "if": term[1:], "operator": term[2:], "field": term[1:2], "binder": term[1:2]}.get(term[0], ())


def calls_in(term):
    """How often each call is made at most: of those in functions, bindings and alternatives nothing is said."""
    if term[0] == "if":
        return calls_in(term[1]) + (calls_in(term[2]) | calls_in(term[3]))
    calls = Counter([term] if term[0] == "apply" else [])
    for part in parts_of(term):
        calls += calls_in(part)
    return calls


def repeated_calls(term):
    """The calls that are made more than once by a term. Some definitions would take exponential time without this."""
    return {call for call, count in calls_in(term).items() if count > 1}


def bound_inside(term):
    """The names that functions and bindings in a term bind."""
    if not isinstance(term, tuple):
        return set()
    own = set(term[1]) if term and term[0] == "lambda" else {term[1]} if term and term[0] == "let" else set()
    return own.union(*(bound_inside(part) for part in term))


def names_in(term):
    """The names that stand in a term, without the fields that are taken of them."""
    if not isinstance(term, tuple):
        return set()
    if len(term) == 2 and term[0] == "name":
        return {str(term[1]), str(term[1]).split(".")[0]}
    return set().union(set(), *(names_in(part) for part in term))


def tokens_used(tokens):
    """How often each name stands among tokens; a field of it is one."""
    return Counter(name for token in tokens for name in {str(token), str(token).split(".")[0]})
