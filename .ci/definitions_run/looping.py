"""Functions of Python for definitions: an equation that ends in a call of its own definition goes round a loop.

Such a call may stand alone, in a choice or a binding, or after `∷`, `++`, `+` or `suc`: what stands before it is gathered. A list that is
taken apart on the way is not copied: where it begins is counted. An equation with functions inside does not go round, as these would see
what the next round sets.
"""

from .matching import Match, Path, list_pattern
from .terms import arguments_of, bound_inside, names_in, parsed, repeated_calls, tokens_used

LISTS, NUMBERS = "list", "number"


def ended(gathered, rest):
    """What was gathered, and the rest of the list after it."""
    return tuple(gathered) + rest if gathered else rest


def added_to(term):
    """What stands before the end of a term, as what it adds to and how, or None: `x ∷ end`, `xs ++ end`, `n + end`, `suc end`."""
    if term[0] == "operator" and term[1] in ("∷", "++"):
        return LISTS, "append" if term[1] == "∷" else "extend", term[2], term[3]
    if term[0] == "operator" and term[1] == "+":
        return NUMBERS, "", term[2], term[3]
    if term[0] == "apply" and term[1] == ("name", "suc"):
        return NUMBERS, "", ("number", 1), term[2]
    return None


class Function:
    def __init__(self, writer, count):
        self.writer = writer
        self.names = [f"a{at}" for at in range(count)]
        self.own = self.names[len(writer.definition.parameters):]
        self.equations = writer.program.equations(writer.definition)
        self.terms = [parsed(one.right, writer.definition.module.path) for one in self.equations]
        self.rounds = [self.ends(term) if self.is_seen(one, term) else [] for one, term in zip(self.equations, self.terms)]
        kinds = set().union(*(kinds for ends in self.rounds for _, kinds in ends))
        self.loops = any(self.rounds) and len(kinds) < 2
        self.gathers = next(iter(kinds), None) if self.loops else None
        places = {at for number in range(len(self.equations)) for given, _ in self.rounds[number] for at in self.steps(number, given)}
        self.walked = places if self.loops else set()

    def is_seen(self, equation, term):
        """Whether the name of the definition stands for it in an equation."""
        others = bound_inside(term).union(*map(names_in, equation.patterns))
        return self.writer.definition.name not in others

    def ends(self, term):
        """The calls of the definition in which a term ends: their arguments, each with what is gathered before it."""
        if term[0] == "if":
            return self.ends(term[2]) + self.ends(term[3])
        if term[0] == "let":
            return self.ends(term[3])
        added = added_to(term)
        if added:
            return [(given, kinds | {added[0]}) for given, kinds in self.ends(added[3])]
        given = self.call(term)
        return [] if given is None else [(given, frozenset())]

    def call(self, term):
        """The arguments of a call of the definition with all of them, or None."""
        term, given = arguments_of(term)
        if term[0] != "name" or len(given) != len(self.own) or not given:
            return None
        found = self.writer.scope.own(str(term[1]))
        return given if found is not None and found.what is self.writer.definition else None

    def steps(self, number, given):
        """The places of arguments that are the rest of the list at their place, and how many items are before it."""
        found = {}
        for at, (pattern, argument) in enumerate(zip(self.equations[number].patterns, given)):
            heads, rest = list_pattern(pattern)
            if heads and rest == argument and rest[0] == "name":
                found[at] = len(heads)
        return found

    def used(self, number, goes_round):
        """How often each name stands on the right side, where only the place in its list is counted on aside."""
        used = tokens_used(self.equations[number].right)
        if goes_round:
            steps = [at for given, _ in self.rounds[number] for at in self.steps(number, given)]
            used -= tokens_used([list_pattern(self.equations[number].patterns[at])[1][1] for at in steps])
        return used

    def lines(self, name):
        lines = [f"def {name}({', '.join(self.names)}):"]
        if self.gathers:
            lines.append("    gathered = []" if self.gathers == LISTS else "    gathered = 0")
        lines += [f"    {self.own[at]}, i{at} = parted({self.own[at]})" for at in sorted(self.walked)]
        if self.loops:
            lines.append("    while True:")
        indent = "        " if self.loops else "    "
        for at in range(len(self.equations)):
            lines += self.equation(at, indent, True) or self.equation(at, indent, False)
        return lines + [f"{indent}missing({name!r})"]

    def equation(self, number, indent, goes_round):
        """The lines of one equation: its test, and what it gives; None where it should go round and may not."""
        if goes_round and not (self.loops and self.rounds[number]):
            return None
        writer, equation, term = self.writer, self.equations[number], self.terms[number]
        match = Match(writer.scope)
        for place, (pattern, path) in enumerate(zip(equation.patterns, self.own)):
            match.take(pattern, Path(path, f"i{place}" * (place in self.walked)))
        lines = [f"{indent}if {' and '.join(match.tests) or 'True'}:"]
        indent += "    "
        inside = bound_inside(term)
        bound = self.implicit(equation) | self.bound(match, self.used(number, goes_round), inside, lines, indent)
        lines.append(f"{indent}REACHED[{writer.program.place_of(writer.definition, number)}] = 1")
        writer.repeated, writer.shared = {call for call in repeated_calls(term) if not inside & names_in(call)}, {}
        writer.wholes = {} if inside & match.bound.keys() else match.wholes
        if goes_round:
            ending = self.ending(number, term, bound, indent)
        else:
            ending = [self.result(writer.applied(writer.write(term, bound), self.own[len(equation.patterns):]), indent)]
        lines += [f"{indent}{name} = shared(lambda: {call})" for name, call in writer.shared.values()] + ending
        if goes_round and any("lambda" in line and not line.lstrip().startswith("return ") for line in lines):
            return None
        return lines

    def implicit(self, equation):
        """What the names stand for that are bound in braces: types, of which nothing is computed, and values, which are not known here."""
        names = self.writer.definition.implicit
        renamed = {here: names.get(name, False) for here, name in equation.implicit.items()}
        return {name: "TYPE" if is_type else f"implicit({name!r})" for name, is_type in {**names, **renamed}.items()}

    def bound(self, match, used, inside, lines, indent):
        """What the names of an equation stand for: names of Python, which lines set, or what is asked for once alone."""
        bound = dict(zip(self.writer.definition.parameters, self.names))
        for name, path in match.bound.items():
            if path in self.names or (used[name] == 1 and not inside):
                bound[name] = path
            elif used[name]:
                bound[name] = self.writer.fresh()
                lines.append(f"{indent}{bound[name]} = {path}")
        return bound

    def result(self, value, indent):
        """The line that ends the function."""
        if self.gathers:
            value = f"ended(gathered, {value})" if self.gathers == LISTS else f"gathered + {value}"
        return f"{indent}return {value}"

    def ending(self, number, term, bound, indent):
        """The lines of a term at the end of an equation."""
        writer = self.writer
        given = self.call(term)
        if given is not None:
            return self.round(number, given, bound, indent)
        if not self.ends(term):
            return [self.result(writer.write(term, bound), indent)]
        if term[0] == "if":
            return ([f"{indent}if {writer.write(term[1], bound)}:"] + self.ending(number, term[2], bound, indent + "    ")
                    + [f"{indent}else:"] + self.ending(number, term[3], bound, indent + "    "))
        if term[0] == "let":
            name = writer.fresh()
            return [f"{indent}{name} = {writer.write(term[2], bound)}"] + self.ending(number, term[3], {**bound, term[1]: name}, indent)
        kind, how, first, end = added_to(term)
        added = writer.write(first, bound)
        gathering = f"gathered.{how}({added})" if kind == LISTS else f"gathered += {added}"
        return [indent + gathering] + self.ending(number, end, bound, indent)

    def round(self, number, given, bound, indent):
        """The lines that set the arguments anew and go round."""
        steps = self.steps(number, given)
        targets, values = [], []
        for at, (name, term) in enumerate(zip(self.own, given)):
            if at in steps and at in self.walked:
                targets.append(f"i{at}")
                values.append(f"i{at} + {steps[at]}")
                continue
            value = self.writer.write(term, bound)
            if at in self.walked:
                targets.append(f"({name}, i{at})")
                values.append(f"parted({value})")
            elif value != name:
                targets.append(name)
                values.append(value)
        return ([f"{indent}{', '.join(targets)} = {', '.join(values)}"] if targets else []) + [f"{indent}continue"]
