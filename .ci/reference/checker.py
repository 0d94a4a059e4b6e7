"""Typing, and what it refuses (LANGUAGE.md, "Typing and evaluation", "Names", and the order under "Refusals")."""

from .values import BOOL, INT, MISMATCH, MOST_SIZE, NAME, STREAMED, TOO_BIG, Refused, Type, pair, sequence, vector
from .grammar import COMPARISONS, Function

MOST_DECLARATIONS = 64
MOST_FORMS = 65_536


def elements(*types):
    """The one type of the elements of sequences, or nothing where some is none, or they differ."""
    inner = {it.part_of("sequence") for it in types}
    return inner.pop() if len(inner) == 1 else None


def sequence_of(element):
    """The type of sequences of these, or nothing where there is no such type."""
    return None if element is None else sequence(element)


def fixed(result, *parts):
    """A rule of one type alone, for parts of these types."""
    return len(parts), lambda *types: result if types == parts else None


# What the type of a form is by the types of its parts, or nothing where they do not fit; and how many parts it has.
RULES = {
    **{it: fixed(INT, INT, INT) for it in "+-*/%"},
    **{it: fixed(BOOL, INT, INT) for it in COMPARISONS},
    "==": (2, lambda left, right: BOOL if left == right and left in (INT, BOOL) else None),
    **{it: fixed(BOOL, BOOL, BOOL) for it in ("and", "or")},
    "not": fixed(BOOL, BOOL),
    "negate": fixed(INT, INT),
    "pair": (2, pair),
    "fst": (1, lambda it: it.parts[0] if it.kind == "pair" else None),
    "snd": (1, lambda it: it.parts[1] if it.kind == "pair" else None),
    "iota": fixed(sequence(INT), INT),
    "scan_add": fixed(sequence(INT), sequence(INT)),
    **{it: fixed(INT, sequence(INT)) for it in ("reduce_add", "reduce_max")},
    **{it: fixed(BOOL, sequence(BOOL)) for it in ("reduce_and", "reduce_or")},
    "length": (1, lambda it: INT if it.kind == "sequence" else None),
    "concat": (1, lambda it: it.parts[0] if it.kind == "sequence" and it.parts[0].kind == "sequence" else None),
    "part": (2, lambda it, ends: sequence(it) if it.kind == "sequence" and ends == sequence(BOOL) else None),
    "the": (1, lambda it: it.part_of("sequence")),
    "tab": (1, lambda it: vector(it.parts[0]) if it.kind == "sequence" else None),
    "seq": (1, lambda it: sequence_of(it.part_of("vector"))),
    "!": (2, lambda it, place: it.part_of("vector") if place == INT else None),
    "++": (2, lambda left, right: sequence_of(elements(left, right))),
    "parentheses": (1, lambda it: it),
    "if": (3, lambda condition, first, second: first if condition == BOOL and first == second else None),
    "guard": (2, lambda it, condition: sequence(it) if condition == BOOL else None),
    "integer": fixed(INT),
    **{it: fixed(BOOL) for it in ("true", "false")},
}


def bounded(found):
    """A type that was met, refused where it is too big."""
    if found.size > MOST_SIZE:
        raise Refused(TOO_BIG)
    return found


def written(form):
    """The type that a form writes."""
    parts = tuple(written(it) for it in form.parts)
    if form.kind == "vector" and not parts[0].is_concrete:
        raise Refused(STREAMED, form.offset)
    return bounded(Type(form.kind, parts))


class Checker:
    """Knows the functions that stand before a place: of each the types of its parameters, that of its result, and its size."""

    def __init__(self):
        self.functions = {}

    def type_of(self, form, names, level):
        """The type of a form. `names` has of each name its type and the level where it is bound; a comprehension's body is one level below."""
        if form.kind == "name":
            return self.of_name(form, names, level)
        if form.kind == "let":
            bound = self.type_of(form.parts[0], names, level)
            return self.type_of(form.parts[1], {**names, form.binders[0].text: (bound, level)}, level)
        if form.kind == "comprehension":
            return self.of_comprehension(form, names, level)
        types = [self.type_of(it, names, level) for it in form.parts]
        if form.kind == "tab" and len(types) == 1 and types[0].kind == "sequence" and not types[0].parts[0].is_concrete:
            raise Refused(STREAMED, form.offset)
        return self.of_parts(form, types)

    def of_parts(self, form, types):
        if form.kind == "call":
            if form.text not in self.functions:
                raise Refused(NAME, form.offset)
            parameters, result, _ = self.functions[form.text]
            found = result if types == parameters else None
        elif form.kind == "literal":
            found = sequence(types[0]) if len(set(types)) == 1 else None
        else:
            count, rule = RULES[form.kind]
            found = rule(*types) if len(types) == count else None
        if found is None:
            raise Refused(MISMATCH, form.offset)
        return bounded(found)

    def of_name(self, form, names, level):
        if form.text not in names:
            raise Refused(NAME, form.offset)
        found, bound_at = names[form.text]
        if bound_at < level and not found.is_concrete:
            raise Refused(STREAMED, form.offset)
        return found

    def of_comprehension(self, form, names, level):
        """The type of a comprehension: its binders, its condition, its body."""
        inner = {}
        for name, part in zip(form.binders, form.parts):
            found = self.type_of(part, names, level)
            if name.text in inner:
                raise Refused(NAME, name.offset)
            if found.kind != "sequence":
                raise Refused(MISMATCH, name.offset)
            inner[name.text] = (found.parts[0], level + 1)
        rest = [self.type_of(it, {**names, **inner}, level + 1) for it in form.parts[len(inner):]]
        if form.has_condition and rest[0] != BOOL:
            raise Refused(MISMATCH, form.offset)
        return bounded(sequence(rest[-1]))

    def size(self, form):
        """How many forms there are with all calls written out. No more are counted than may be."""
        count = 1 + sum(self.size(it) for it in form.parts)
        if form.kind == "call":
            count += self.functions[form.text][2]
        return min(count, MOST_FORMS + 1)

    def declare(self, function):
        """Checks a function, and knows it from then on."""
        if function.name.text in self.functions:
            raise Refused(NAME, function.name.offset)
        names = {}
        for name, form in function.parameters:
            if name.text in names:
                raise Refused(NAME, name.offset)
            names[name.text] = (written(form), 0)
        result = written(function.result)
        if self.type_of(function.body, names, 0) != result:
            raise Refused(MISMATCH, function.name.offset)
        self.functions[function.name.text] = ([it for it, _ in names.values()], result, self.size(function.body))


def checked(program):
    """The inputs with their types, the type of a program's value, and its size with all calls written out."""
    if len(program.inputs) > MOST_DECLARATIONS or len(program.functions) > MOST_DECLARATIONS:
        raise Refused(TOO_BIG)
    checker, inputs = Checker(), {}
    for declared in program.declarations:
        if isinstance(declared, Function):
            checker.declare(declared)
            continue
        name, form = declared
        if name.text in inputs:
            raise Refused(NAME, name.offset)
        inputs[name.text] = written(form)
    found = checker.type_of(program.body, {name: (it, 0) for name, it in inputs.items()}, 0)
    size = checker.size(program.body)
    if size > MOST_FORMS:
        raise Refused(TOO_BIG)
    return inputs, found, size
