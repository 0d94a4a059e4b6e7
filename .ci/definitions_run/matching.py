"""Equations, and their patterns as tests of Python."""

import dataclasses

from .terms import arguments_of, equation_parts, patterns
from .tokens import FormError


@dataclasses.dataclass
class Equation:
    """The patterns of one equation, its right side as tokens, and what it calls arguments in braces: `{A = B}`."""

    patterns: list
    right: list
    implicit: dict

    def with_right(self, right):
        return dataclasses.replace(self, right=right)


def operator_patterns(left, definition):
    """The left side of an equation of an operator `(x ⊕ y) z` as that of a function."""
    operator = definition.name.strip("◌")
    at = list(left).index(operator)
    inner = [token for token in left[:at] if token != "("]
    rest = list(left[at + 1:])
    close = rest.index(")") if ")" in rest else len(rest)
    return inner + rest[:close] + rest[close + 1:]


def equations_of(definition):
    """The equations of a definition, with patterns."""
    made = []
    for tokens in definition.equations:
        left, right = equation_parts(tokens, definition.module.path)
        if definition.name.startswith("◌"):
            left = operator_patterns(left, definition)
        else:
            left = left[1:]
        implicit = {str(left[at + 3]): str(left[at + 1]) for at, token in enumerate(left[:-4]) if token == "{" and left[at + 2] == "="}
        made.append(Equation(patterns(left, definition.module.path), right, implicit))
    return made


class Path(str):
    """Where a list is, as an expression of Python: items, or those from a place on."""

    def __new__(cls, items, start=""):
        path = super().__new__(cls, f"dropped({items}, {start})" if start else items)
        path.items, path.start = items, start
        return path

    def place(self, at):
        """The place of an item among all items."""
        return f"{self.start} + {at}" if self.start and at else self.start or str(at)

    def test(self, count, is_whole):
        """The test that the list has so many items, or at least so many."""
        return f"len({self.items}) == {self.place(count)}" if is_whole else f"len({self.items}) > {self.place(count - 1)}"

    def item(self, at):
        return f"{self.items}[{self.place(at)}]"

    def rest(self, count):
        """The expression of the list without its first items."""
        return f"dropped({self.items}, {self.place(count)})"


def list_pattern(pattern):
    """The patterns of the first items of a list, and that of the rest."""
    heads = []
    while pattern[0] == "operator" and pattern[1] == "∷":
        heads.append(pattern[2])
        pattern = pattern[3]
    return heads, pattern


class Match:
    """The tests of patterns, and the expressions of the names that they bind."""

    def __init__(self, scope):
        self.scope, self.tests, self.bound, self.wholes = scope, [], {}, {}

    def constructor(self, name):
        """The constructor or constant that a name in a pattern stands for, or None where it is a new name."""
        found, fields = self.scope.find(name)
        if found is None or fields or found.kind not in ("constructor", "constant"):
            return None
        return found

    def take(self, pattern, path):
        """Adds the tests of a pattern for the value at a path."""
        kind = pattern[0]
        if kind == "number":
            self.tests.append(f"{path} == {pattern[1]}")
        elif kind == "tuple":
            self.take_tuple(pattern[1], path)
        elif kind == "operator" and pattern[1] == "∷":
            self.take_list(pattern, path)
        elif kind == "name":
            self.take_name(str(pattern[1]), path)
        elif kind == "apply":
            self.take_constructor(pattern, path)
        elif kind == "binder":
            self.take(pattern[1], path)
        else:
            raise FormError(f"{self.scope.module.path}: a pattern {pattern}")

    def take_tuple(self, parts, path):
        """A pair, the second part of which may be a pair."""
        self.take(parts[0], f"{path}[0]")
        if len(parts) == 2:
            self.take(parts[1], f"{path}[1]")
        else:
            self.take_tuple(parts[1:], f"{path}[1]")

    def take_list(self, pattern, path):
        """The first items of a list, and the rest. Where the right side has the same list, it is not built again."""
        self.wholes[pattern] = path
        heads, rest = list_pattern(pattern)
        is_whole = rest == ("name", "[]")
        path = path if isinstance(path, Path) else Path(path)
        self.tests.append(path.test(len(heads), is_whole))
        for at, head in enumerate(heads):
            self.take(head, path.item(at))
        if not is_whole:
            self.take(rest, path.rest(len(heads)))

    def take_name(self, name, path):
        """A constant, a constructor without arguments, or a new name."""
        if name == "_":
            return
        found = self.constructor(name)
        if found is None:
            self.bound[name] = path
        elif found.kind == "constructor":
            self.tests.append(f"{path}.tag == {found.what!r}")
        elif name == "[]":
            self.tests.append((path if isinstance(path, Path) else Path(path)).test(0, True))
        elif name == "zero":
            self.tests.append(f"{path} == 0")
        elif name in ("true", "false"):
            self.tests.append(f"{path} is {name == 'true'}")

    def take_constructor(self, pattern, path):
        """A constructor with patterns for its arguments."""
        pattern, given = arguments_of(pattern)
        if pattern == ("name", "suc"):
            self.tests.append(f"{path} > 0")
            self.take(given[0], f"({path} - 1)")
            return
        found = self.constructor(str(pattern[1])) if pattern[0] == "name" else None
        if found is None or found.kind != "constructor":
            raise FormError(f"{self.scope.module.path}: a pattern of no constructor: {pattern}")
        self.tests.append(f"{path}.tag == {found.what!r}")
        for at, part in enumerate(given):
            self.take(part, f"{path}.given[{at}]")
