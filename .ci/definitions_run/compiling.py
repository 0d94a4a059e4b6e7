"""Equations as functions of Python.

Each definition becomes a function of as many arguments as its equations have patterns, with the parameters of its module first.
An equation is a test of its patterns, and what it gives. Constants are computed once.
"""

from .library import CONSTANTS, FUNCTIONS, WORDS
from .looping import Function
from .matching import Match
from .modules import Definition, Scope
from .terms import arguments_of
from .tokens import FormError

NEVER = ("name", "⊥")
CLAIMS = ("→", "↔", "⊎", "×", "≡", "≢", "<", "≤")


def binds(term):
    """Whether a term is the binder of a claim of all or of some values."""
    return arguments_of(term)[0][0] == "binder"


def implication_of(term):
    """`¬ P` as what it stands for: `P → ⊥`."""
    if term[0] == "apply" and term[1] == ("name", "¬"):
        return ("operator", "→", term[2], NEVER)
    return term


def binder_variables(term):
    """The names that the binder of a claim binds."""
    name, others = arguments_of(arguments_of(term)[0][1])
    return {str(it[1]) for it in (name, *others)}


def listed(given):
    """Expressions as a tuple."""
    return f"({''.join(one + ', ' for one in given)})"


class Writer:
    """Writes the terms of one definition as expressions of Python."""

    def __init__(self, program, definition):
        self.program, self.definition, self.scope = program, definition, Scope(program.modules, definition.module)
        self.names, self.repeated, self.shared, self.wholes = 0, set(), {}, {}

    def fresh(self):
        self.names += 1
        return f"v{self.names}"

    def write(self, term, bound):
        """A term as an expression, where names are bound to expressions."""
        return self.write(term[1], bound) if term[0] == "binder" else getattr(self, "write_" + term[0])(term, bound)

    def write_number(self, term, bound):
        return repr(term[1])

    write_text = write_number

    def write_name(self, term, bound):
        return self.write_call(term, [], bound)

    def write_apply(self, term, bound):
        """A name or a term with its arguments; where it stands more than once, it is computed once."""
        if term in self.repeated:
            self.repeated.discard(term)
            self.shared[term] = (self.fresh(), self.write_apply(term, bound))
        if term in self.shared:
            return f"{self.shared[term][0]}()"
        term, given = arguments_of(term)
        if term[0] == "name":
            return self.write_call(term, given, bound)
        return self.applied(self.write(term, bound), [self.write(one, bound) for one in given])

    def applied(self, function, given):
        """An expression given further arguments, one by one."""
        return function + "".join(f"({one})" for one in given)

    def write_call(self, term, given, bound):
        """A name with its arguments, written as far as it goes as one call."""
        name = str(term[1])
        first, *fields = name.split(".")
        if name in bound or first in bound:
            path = bound[name] if name in bound else bound[first] + "".join(map(self.field, fields))
            return self.applied(path, [self.write(one, bound) for one in given])
        found, fields = self.scope.find(name)
        if found is None:
            raise FormError(f"{self.definition.module.path}:{term[1].line}: the name `{name}` is not known")
        if name == "cond" and len(given) == 3:
            return self.write_if(("if", *given), bound)
        written = [self.write(one, bound) for one in given]
        if fields:
            value = self.reference(found, [], bound) + "".join(map(self.field, fields))
            return self.applied(value, written)
        return self.reference(found, written, bound)

    def field(self, name):
        """How a field is taken: of a pair by its number."""
        return f"[{name}]" if name.isdigit() else f"[{name!r}]"

    def reference(self, found, given, bound):
        """What was found, with these arguments."""
        if found.kind == "proof":
            return "TYPE"
        # (a function that gives a type is a claim, which may be decided: relations.py)
        if found.kind == "type" and getattr(found.what, "kind", None) not in ("abbrev", "unfoldable"):
            tag = ("type", *(found.what.key if isinstance(found.what, Definition) else found.what))
            return f"Built({tag!r}, {listed(given)})"
        if found.kind == "constant":
            return self.applied(repr(CONSTANTS[found.what]), given)
        if found.kind == "constructor":
            return f"Built({found.what!r}, {listed(given)})" if given else self.program.constant_of(found.what)
        if found.kind == "word":
            return self.called(WORDS[found.what], FUNCTIONS[found.what][0], given)
        passed = self.passed(found.what, bound)
        return self.called(*self.program.target(found.what), passed + given)

    def write_claim(self, term, bound):
        """A claim of two parts; one of all or of some values is not decided."""
        operator, left, right = term[1:]
        if binds(left):
            return self.write_quantified(operator, left, right, bound)
        left, right = self.write(left, bound), self.write(right, bound)
        if operator in ("≡", "≢", "<", "≤"):
            return f"Claim({operator!r}, {left}, {right})"
        return f"Claim({operator!r}, lambda: {left}, lambda: {right})"

    def write_quantified(self, operator, binder, claim, bound):
        """A claim of all or some numbers below a bound, or of all values that make an equation true; others are not decided."""
        names, claim = binder_variables(binder), implication_of(claim)
        if claim[0] != "operator" or claim[1] != operator or claim[2][0] != "operator" or binder[0] != "binder":
            return "TYPE"
        test, rest = claim[2], claim[3]
        if test[1] == "<" and test[2][0] == "name" and {str(test[2][1])} == names:
            name = self.fresh()
            inner = {**bound, str(test[2][1]): name}
            return f"Claim({'every' if operator == '→' else 'some'!r}, {self.write(test[3], bound)}, lambda {name}: {self.write(rest, inner)})"
        if operator == "→" and test[1] == "≡":
            return self.write_cases(("cases", test[2], ((test[3], rest), (("name", "_"), ("name", "⊤")))), bound)
        return "TYPE"

    def passed(self, definition, bound):
        """The parameters of a module, which its definitions pass on to one another."""
        if definition.module is not self.definition.module:
            return []
        return [bound[name] for name in definition.parameters if name in self.definition.parameters]

    def called(self, function, count, given):
        """A function of so many arguments with these: called, or as one that takes the others one by one."""
        if len(given) >= count:
            return self.applied(f"{function}({', '.join(given[:count])})", given[count:])
        names = [self.fresh() for _ in range(count)]
        written = f"{function}({', '.join(names)})"
        for name in names[:len(given) - count - 1:-1]:
            written = f"lambda {name}: {written}"
        first = ", ".join(names[:len(given)])
        return f"(lambda {first}: {written})({', '.join(given)})" if given else f"({written})"

    def write_operator(self, term, bound):
        """An operator: both truth values only as far as needed."""
        if term[1] in CLAIMS:
            return self.write_claim(term, bound)
        if term in self.wholes:
            return self.wholes[term]
        operator, left, right = term[1], self.write(term[2], bound), self.write(term[3], bound)
        if operator in ("&&", "||"):
            return f"({left} {'and' if operator == '&&' else 'or'} {right})"
        if operator in ("+", "*", "=="):
            return f"({left} {operator} {right})"
        if operator in ("∷", "++"):
            return f"({f'({left},)' if operator == '∷' else left} + {right})"
        found = self.scope.own(f"◌{operator}◌")
        if found is not None and found.kind == "definition":
            return self.reference(found, [left, right], bound)
        return f"OPERATORS[{operator!r}]({left}, {right})"

    def write_if(self, term, bound):
        condition, positive, negative = (self.write(one, bound) for one in term[1:])
        return f"({positive} if {condition} else {negative})"

    def write_let(self, term, bound):
        name = self.fresh()
        return f"(lambda {name}: {self.write(term[3], {**bound, term[1]: name})})({self.write(term[2], bound)})"

    def write_lambda(self, term, bound):
        inner = dict(bound)
        heads = ""
        for name in term[1]:
            inner[name] = self.fresh()
            heads += f"lambda {inner[name]}: "
        return f"({heads}{self.write(term[2], inner)})"

    def write_tuple(self, term, bound):
        """A pair, the second part of which may be a pair."""
        parts = [self.write(one, bound) for one in term[1]]
        written = parts[-1]
        for part in parts[-2::-1]:
            written = f"({part}, {written})"
        return written

    def write_field(self, term, bound):
        return self.write(term[1], bound) + self.field(term[2])

    def write_record(self, term, bound):
        base = f"**{self.write(term[1], bound)}, " if term[1] else ""
        return "{" + base + ", ".join(f"{name!r}: {self.write(value, bound)}" for name, value in term[2]) + "}"

    def write_cases(self, term, bound):
        name = self.fresh()
        written = "missing()"
        for pattern, value in reversed(term[2]):
            match = Match(self.scope)
            match.take(pattern, name)
            test = " and ".join(match.tests) or "True"
            written = f"({self.write(value, {**bound, **match.bound})} if {test} else {written})"
        return f"(lambda {name}: {written})({self.write(term[1], bound)})"

    def function(self, name, count):
        return "\n".join(Function(self, count).lines(name)) + "\n"
