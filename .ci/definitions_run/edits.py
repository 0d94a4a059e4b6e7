"""Changes of one definition: of a number, a truth value, a text, an operator, a constructor, an argument's place, or a whole answer."""

import dataclasses
from collections import Counter

from .argument_types import constructor_takes, differ_in_type, head_of
from .matching import Match
from .modules import NameMissing, Scope, explicit_parameters
from .relations import header_of
from .terms import tokens_used
from .tokens import Token, binder_names

OTHERS = {
    "true": "false", "false": "true", "+": "-", "-": "+", "*": "+", "&&": "||", "||": "&&", "+ℤ": "-ℤ", "-ℤ": "+ℤ", "*ℤ": "+ℤ",
    "nat_le": "nat_lt", "nat_lt": "nat_le", "int_lt": "int_le", "min": "max", "max": "min", "take": "drop", "drop": "take",
    "list_all": "list_any", "list_any": "list_all", "int_div": "int_rem", "int_rem": "int_div", "zero": "1",
}
# What gives the same whichever of its two arguments comes first.
SYMMETRIC = {"are_same", "bytes_eq", "eqb", "is_same", "max", "min", "nat_eq", "same_integer", "same_truth"}

# The fields of records that this program takes of what the definitions give (networks.py, answers.py). What stands in a field that is not
# taken, as the row of a machine, is not run where the record is made.
DRIVEN = {
    "process", "want", "read", "written", "wrote", "start", "operation", "at", "kind", "text",
    "writer", "writer_port", "reader", "reader_port", "dialect", "inputs", "steps",
    "outputs", "kind_in", "kind_out", "reads", "writes", "opening",
}


@dataclasses.dataclass
class Change:
    """An equation of a definition, and what stands in its place; the fields of records in which it is changed."""

    definition: object
    at: int
    what: str
    equation: object
    fields: set = frozenset()

    @property
    def name(self):
        """The definition, its case from 1, and what is changed."""
        module = self.definition.module.name.removeprefix("Rattle.").replace(".specs.", "/")
        return f"{module} {self.definition.name} {self.at + 1}: {self.what}"


def changed_word(token):
    """Another number, text, truth value, operator or function in the place of a token, or None."""
    if token[0].isdigit():
        return str(int(str(token).replace("_", ""), 0) + 1)
    if token.startswith('"'):
        return '"q' + token[1:]
    return OTHERS.get(str(token))


def siblings(scope, token):
    """The next constructor of the same type that takes the same, in the place of one, by the names that the module knows them by."""
    try:
        found = scope.own(str(token))
    except NameMissing:
        return None
    if found is None or found.kind != "constructor":
        return None
    module = scope.module
    path = module.imports.get(str(token), (None,))[0]
    if path is not None and path.endswith(".TheVariants"):
        names = [name for name, (other, _) in module.imports.items() if other == path]
    elif str(token) in module.constructors:
        names = [name for name, owner in module.constructors.items() if owner is module.constructors[str(token)]]
    else:
        names = same_type_imports(scope, str(token))
    at = names.index(str(token))
    takes = constructor_takes(scope, str(token))
    return next((name for name in names[at + 1:] + names[:at] if constructor_takes(scope, name) == takes), None)


def same_type_imports(scope, name):
    """The constructors that a module imports of the type that this one is of."""
    def owner(other):
        path, its_name = scope.module.imports[other]
        module = scope.modules.get(path)
        return module.constructors.get(its_name) if module else None

    if name not in scope.module.imports or owner(name) is None:
        return [name]
    return [other for other in scope.module.imports if owner(other) is owner(name)]


def exchanged(scope, tokens, at, parameters):
    """The tokens with two names that follow each other exchanged, where both are arguments, and of one type as far as is known; else None.

    The parameters of a relation are of different types, so their exchange is refused before it is run. Of what is symmetric an exchange
    changes nothing.
    """
    if at < 1 or at + 1 >= len(tokens):
        return None
    before, first, second = tokens[at - 1:at + 2]
    words = (before, first, second)
    if any(not (word[0].isalpha() or word[0].isdigit()) or word in ("if", "then", "else", "let", "in", "record", "λ") for word in words):
        return None
    # (a rule that binds both, and has each in one place, is the same rule then)
    are_bound_for_once = tokens.count(first) == tokens.count(second) == 2 and {first, second} <= binder_names(tokens, ("{",))
    if first in parameters or second in parameters or are_bound_for_once:
        return None
    if first == second or any(word.endswith(".") for word in words) or differ_in_type(scope, tokens, at):
        return None
    if (head_of(tokens, at) or [None])[0] in SYMMETRIC:
        return None
    return tokens[:at] + [second, first] + tokens[at + 2:]


def may_answer(scope, equation, following):
    """Whether the answer of the case that follows is another one, and has no name that only its own patterns bind."""
    own, others = names_bound(scope, equation), names_bound(scope, following)
    return following.right != equation.right and not (tokens_used(following.right).keys() & others) - own


def names_bound(scope, equation):
    match = Match(scope)
    for pattern in equation.patterns:
        match.take(pattern, "value")
    return match.bound.keys()


def changes_of(program, definition):
    """All changes of a definition: of its equations, or of its rules or fields."""
    scope = Scope(program.modules, definition.module)
    if definition.kind in ("data", "record"):
        for number, (name, tokens) in enumerate(definition.parts.items()):
            at = number if definition.kind == "data" else 0
            for what, changed, _ in changed_sides(scope, tokens, explicit_parameters(header_of(definition))):
                yield Change(definition, at, f"in `{name}` {what}", (name, changed))
        return
    equations = program.equations(definition)
    for number, equation in enumerate(equations):
        fields = fields_of(equation.right)
        for what, right, place in changed_sides(scope, equation.right):
            yield Change(definition, number, what, equation.with_right(right), fields[place])
        if number + 1 < len(equations) and may_answer(scope, equation, equations[number + 1]):
            yield Change(definition, number, "the answer of the next case", equation.with_right(equations[number + 1].right))


def changed_sides(scope, right, parameters=()):
    """The changed right sides of an equation, each with what was changed, which is told from others of its name, and where."""
    names = Counter()
    for at, token in enumerate(right):
        word, other = changed_word(token) or siblings(scope, token), exchanged(scope, right, at, parameters)
        # (a number alone in braces is the level of a type)
        is_level = at > 0 and right[at - 1] == "{" and right[at + 1:at + 2] == ["}"]
        sides = []
        if word not in (None, token) and not is_level:
            sides.append((f"`{token}` is `{word}`", [*right[:at], Token(word, token.line), *right[at + 1:]]))
        sides += [] if other is None else [(f"`{token}` and `{right[at + 1]}` exchanged", other)]
        for name, changed in sides:
            names[name] += 1
            yield name + (f" ({names[name]})" if names[name] > 1 else ""), changed, at


def fields_of(tokens):
    """For each token the fields of the records in which it stands, where the tokens are a record."""
    found, opened = [], []
    for at, token in enumerate(tokens):
        if token in ("{", "("):
            opened.append(None)
        elif token in ("}", ")"):
            opened.pop()
        elif opened and tokens[0] == "record" and tokens[at + 1] == "=":
            opened[-1] = str(token)
        found.append({field for field in opened if field})
    return found


def taken_fields(sides):
    """The fields that these right sides take, where what stands in a field that is not taken is not run."""
    sides = [list(zip(fields_of(tokens), tokens)) for tokens in sides]
    taken, known = set(DRIVEN), None
    while taken != known:
        known = set(taken)
        for side in sides:
            for fields, token in side:
                if fields <= known:
                    taken.update(str(token).split(".")[1:])
    return taken


def sides_of(program, places):
    """The right sides of the equations and rules at these places."""
    for key, at in places:
        definition = program.modules[key[0]].definitions[key[1]]
        if definition.kind in ("data", "record"):
            yield from definition.parts.values()
        else:
            yield program.equations(definition)[at].right
