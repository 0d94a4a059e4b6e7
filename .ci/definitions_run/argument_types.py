"""The types of what constructors and definitions take: where they differ, an exchange is refused before it is run."""

from .compiling import binder_variables, binds
from .modules import Definition, NameMissing, Scope
from .terms import Parser, arguments_of, parsed
from .tokens import FormError

# Words of the kit that take two things of different types first: a function and a list, or a list and a number.
MIXED = {
    "before_first", "count_by", "drop", "filter", "filter_map", "flat_map", "list_all", "list_any", "map", "option_and_then", "option_map",
    "position_or_len", "prefix_len", "slice_get", "slice_index", "slice_index_or", "slice_set", "sum_by", "take", "take_while", "unwrap_or",
}
APART = {"(", "{", "[", "]", "=", ";", ",", "|", "→", "↦", "if", "then", "else", "let", "in", "record", "λ", "elim", "as"}


def bound_types(term):
    """The types of the names that binders bind, name by name; those in braces are passed over."""
    if term[0] == "apply":
        return bound_types(term[1]) + bound_types(term[2])
    return [term[2]] * len(binder_variables(term)) if term[2] is not None else []


def types_before(term):
    """The types of what is taken, in order, where a type says what is given of what."""
    types = []
    while term[0] == "operator" and term[1] == "→":
        types += bound_types(term[2]) if binds(term[2]) else [term[2]]
        term = term[3]
    return types


def constructor_takes(scope, name):
    """The types of what a constructor takes, or None where no specification declares it."""
    path, _, own_name = scope.own(name).what.rpartition(".")
    module = scope.modules.get(path)
    return module and types_before(parsed(module.constructors[own_name].parts[own_name], module.path))


def parameter_types(definition):
    """The types of the parameters of the modules that a definition stands in."""
    types, tokens = [], definition.headers
    for at, token in enumerate(tokens):
        if token in ("(", "{") and ":" in tokens[at:]:
            parser = Parser(tokens, definition.module.path)
            parser.at = at
            types += bound_types(parser.atom())
    return types


def takes(scope, name):
    """The scope and the types of what a name takes, or None where that is not known."""
    found, fields = scope.find(name)
    if found is None or fields:
        return None
    if found.kind == "constructor" and scope.own(name) is not None:
        types = constructor_takes(scope, name)
        return types and (Scope(scope.modules, scope.modules[found.what.rpartition(".")[0]]), types)
    one = found.what
    if not isinstance(one, Definition) or one.kind not in ("abbrev", "unfoldable"):
        return None
    types = types_before(parsed(one.signature, one.module.path))
    return Scope(scope.modules, one.module), types if one.module is scope.module else parameter_types(one) + types


def plain_type(scope, term):
    """A type as a tuple in which names stand for themselves, or None where it has a name that is not known."""
    if term[0] != "name":
        parts = [plain_type(scope, part) if isinstance(part, tuple) else part for part in term]
        return None if None in parts else tuple(parts)
    found = scope.find(str(term[1]))[0]
    if found is None:
        return None
    what = found.what
    if isinstance(what, Definition) and what.kind in ("abbrev", "unfoldable") and len(what.equations) == 1 and what.equations[0][1] == "=":
        return plain_type(Scope(scope.modules, what.module), parsed(what.equations[0][2:], what.module.path))
    return ("name", *(what.key if isinstance(what, Definition) else (what,)))


def begins_with(term):
    """What a type that may have names in it that are not known begins with: an operator, or a type that is given others."""
    return arguments_of(term)[0][:2]


def may_be_same(scope, first, second):
    """Whether two types may be the same, whatever stands for the names in them that are not known."""
    known = [plain_type(scope, term) for term in (first, second)]
    if None not in known:
        return known[0] == known[1]
    begins = [plain_type(scope, begins_with(term)) for term in (first, second)]
    return None in begins or begins[0] == begins[1]


def head_of(tokens, at):
    """What is applied where a token is an argument, and the number of the argument from 0; None where that is no name."""
    place, back = 0, at - 1
    while back >= 0:
        depth = 0
        while tokens[back] == ")" or depth:
            depth += {")": 1, "(": -1}.get(tokens[back], 0)
            back -= 1
            if not depth:
                break
        else:
            if tokens[back] in APART or not (tokens[back][0].isalpha() or tokens[back][0].isdigit()) or tokens[back].endswith("."):
                return None
            back -= 1
        before = tokens[back] if back >= 0 else "="
        if before != ")" and (before in APART or not (before[0].isalpha() or before[0].isdigit()) or before.endswith(".")):
            return (str(tokens[back + 1]), place) if tokens[back + 1] != "(" else None
        place += 1
    return None


def differ_in_type(scope, tokens, at):
    """Whether the argument at a place and the next one are known to be of different types."""
    head = head_of(tokens, at)
    if head is not None and head[1] == 0 and head[0] in MIXED:
        return True
    try:
        known = head and takes(scope, head[0])
    except (NameMissing, FormError, AttributeError):
        return False
    if not known or head[1] + 1 >= len(known[1]):
        return False
    return not may_be_same(known[0], *known[1][head[1]:head[1] + 2])
