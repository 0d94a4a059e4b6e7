"""Random programs, most of them typed, and input texts that fit them."""

from dataclasses import dataclass, replace

from .lexer import FIRST, SECOND
from .values import BOOL, INT, Type, pair, sequence, vector

NAMES = list("abcdxyz")
# How strongly the forms bind: from what stands in parentheses as an operand to what never does.
LOOSE, DISJUNCTION, CONJUNCTION, COMPARISON, JOINED, SUM, PRODUCT, PREFIXED, INDEXED, PRIMARY = range(10)


@dataclass(frozen=True)
class Scope:
    """What a place sees: names with their types and the levels where they are bound, its own level, and functions with their types."""

    names: tuple = ()
    level: int = 0
    functions: tuple = ()

    def binds(self, name, found, below=0):
        """This scope with one more name, bound so many levels below."""
        kept = tuple(it for it in self.names if it[0] != name)
        return replace(self, names=(*kept, (name, found, self.level + below)))


class Maker:
    """Makes programs by dice. So much of a hundred of its forms have a wrong type or name. One program of three takes risks: it has more faults."""

    def __init__(self, dice, wrong):
        self.dice, self.wrong = dice, wrong
        self.risk = dice.choice([2, 2, 25])
        self.dialect = dice.choice([FIRST, FIRST, SECOND])

    def chance(self, percent):
        """Whether something happens that does so in so many cases of a hundred."""
        return self.dice.random() * 100 < percent

    def type(self, room, is_concrete=False):
        kind = self.dice.choice(["int", "int", "bool", "pair", "vector", "sequence", "sequence"])
        if room == 0 or kind == "int":
            return BOOL if self.chance(20) else INT
        if kind == "bool":
            return BOOL
        if kind == "pair":
            return pair(self.type(room - 1, is_concrete), self.type(room - 1, is_concrete))
        if kind == "vector" or is_concrete:
            return vector(self.type(room - 1, True))
        return sequence(self.type(room - 1))

    def number(self):
        near = self.dice.choice([self.dialect.greatest, FIRST.greatest, 3_037_000_500])
        if self.chance(3 + self.risk / 3):
            return str(near + self.dice.choice([0, 0, -1, -2, 1 if self.chance(10) else 0]))
        return ("0" if self.chance(2) else "") + str(self.dice.choice([0, 1, 1, 2, 2, 3, 3, 4, 5, 7, 10]))

    def expression(self, found, fuel, scope):
        """An expression of a type, as its text and how strongly it binds."""
        if self.chance(self.wrong):
            if self.chance(40):
                return self.dice.choice([*NAMES, "f(1)", "g(1, x)", "w"]), PRIMARY
            found = self.type(2)
        if fuel <= 0:
            return self.leaf(found, scope)
        if not self.chance(70):
            return self.any(found, fuel - 1, scope)
        if found.kind == "pair":
            return self.around("({}, {})", found.parts, fuel - 1, scope), PRIMARY
        if found.kind == "vector":
            return self.around("tab({})", [sequence(found.parts[0])], fuel - 1, scope), PRIMARY
        return {"int": self.integer, "bool": self.truth, "sequence": self.sequence}[found.kind](found, fuel - 1, scope)

    def operand(self, found, fuel, scope, strength):
        """An expression that binds so strongly at least."""
        text, its = self.expression(found, fuel, scope)
        return f"({text})" if its < strength or self.chance(4) else text

    def whole(self, found, fuel, scope):
        """An expression where any may stand."""
        return self.operand(found, fuel, scope, LOOSE)

    def shares(self, fuel, count):
        """Fuel for so many parts."""
        cuts = sorted(self.dice.randint(0, max(fuel, 0)) for _ in range(count - 1))
        return [right - left for left, right in zip([0, *cuts], [*cuts, max(fuel, 0)])]

    def around(self, text, types, fuel, scope):
        """A form around parts of these types, any of which may stand there."""
        return text.format(*(self.whole(it, share, scope) for it, share in zip(types, self.shares(fuel, len(types)))))

    def known(self, found, scope):
        """A name of a type that may be used here, or nothing."""
        fits = []
        for name, its, level in scope.names:
            if its == found and (its.is_concrete or level == scope.level or self.chance(self.wrong * 8)):
                fits.append(name)
        return self.dice.choice(fits) if fits else None

    def leaf(self, found, scope):
        name = self.known(found, scope)
        if name and self.chance(75):
            return name, PRIMARY
        if found == INT:
            return (f"-{self.number()}", PREFIXED) if self.chance(15) else (self.number(), PRIMARY)
        if found == BOOL:
            return self.dice.choice(["true", "false"]), PRIMARY
        if found.kind == "pair":
            return "({}, {})".format(*[self.leaf(it, scope)[0] for it in found.parts]), PRIMARY
        if found == sequence(INT) and self.chance(60):
            return f"iota({self.dice.choice([0, 1, 2, 3, 4, 5, 9])})", PRIMARY
        elements = [self.leaf(found.parts[0], scope)[0]]
        if self.chance(4 + self.risk / 4):
            text = f"{{{elements[0]} | false}}"
        else:
            elements += [self.leaf(found.parts[0], scope)[0] for _ in range(self.dice.randint(0, 2))]
            text = "{" + ", ".join(elements) + "}"
        return (f"tab({text})" if found.kind == "vector" else text), PRIMARY

    def any(self, found, fuel, scope):
        """A form that there is of each type."""
        makes = [self.let, self.choice, self.the, self.half, self.call, self.call]
        if found.is_concrete:
            makes.append(self.indexed)
        return self.dice.choice(makes)(found, fuel, scope)

    def let(self, found, fuel, scope):
        name, its = self.dice.choice(NAMES), self.type(2)
        first, second = self.shares(fuel, 2)
        return f"let {name} = {self.whole(its, first, scope)} in {self.whole(found, second, scope.binds(name, its))}", LOOSE

    def choice(self, found, fuel, scope):
        """`if`."""
        return self.around("if {} then {} else {}", [BOOL, found, found], fuel, scope), LOOSE

    def the(self, found, fuel, scope):
        """`the`, of one element as a rule."""
        if found.is_concrete and self.chance(self.risk / 2):
            return f"the({self.whole(sequence(found), fuel, scope)})", PRIMARY
        inner = self.whole(found, fuel, scope)
        return self.dice.choice([f"the({{{inner}}})", f"the({{{inner} | true}} ++ {{{inner} | false}})"]), PRIMARY

    def half(self, found, fuel, scope):
        """`fst` or `snd` of a pair, or a name's part."""
        its = self.type(1)
        first, second = self.shares(fuel, 2)
        if self.chance(50):
            return f"fst({self.whole(pair(found, its), first, scope)})", PRIMARY
        return f"snd(({self.whole(its, first, scope)}, {self.whole(found, second, scope)}))", PRIMARY

    def call(self, found, fuel, scope):
        """A call of a function with this result, if there is one."""
        fits = [it for it in scope.functions if it[2] == found]
        if not fits:
            return self.expression(found, fuel, scope)
        name, parameters, _ = self.dice.choice(fits)
        if self.chance(self.wrong):
            parameters = parameters[1:] or parameters * 2
        arguments = [self.whole(it, share, scope) for it, share in zip(parameters, self.shares(fuel, len(parameters)))]
        return f"{name}({', '.join(arguments)})", PRIMARY

    def indexed(self, found, fuel, scope):
        """`!`."""
        first, second = self.shares(fuel, 2)
        place = self.operand(INT, second, scope, PRIMARY) if self.chance(self.risk) else self.dice.choice("0000000001")
        place = self.dice.choice(["1", "(-1)", "(-1)"]) if self.chance(self.risk / 2) else place
        return f"{self.operand(vector(found), first, scope, INDEXED)} ! {place}", INDEXED

    def two(self, operators, found, fuel, scope, strength, right=None):
        """Two operands of a type, with an operator between them."""
        first, second = self.shares(fuel, 2)
        left = self.operand(found, first, scope, strength + (strength == COMPARISON))
        right = right or self.operand(found, second, scope, strength + 1)
        return f"{left} {self.dice.choice(operators)} {right}", strength

    def integer(self, found, fuel, scope):
        kind = self.dice.randrange(9)
        if kind < 2:
            return self.two(["+", "-"], INT, fuel, scope, SUM)
        if kind < 4:
            divisor = None if self.chance(20 + self.risk) else self.divisor(scope)
            return self.two(["/", "%"] if divisor else ["*"] if self.chance(80 - self.risk) else ["/", "%"], INT, fuel, scope, PRODUCT, divisor)
        if kind == 4:
            return f"- {self.operand(INT, fuel, scope, PREFIXED)}", PREFIXED
        if kind == 5:
            return f"length({self.whole(sequence(self.type(1)), fuel, scope)})", PRIMARY
        name = "reduce_max" if self.chance(10) else "reduce_add"
        return f"{name}({self.whole(sequence(INT), fuel, scope)})", PRIMARY

    def divisor(self, scope):
        """A small divisor, which may be zero where risks are taken."""
        name = self.known(INT, scope) if self.chance(self.risk * 3) else None
        return f"({name} % {self.dice.choice('23')})" if name else self.dice.choice([*"234789", "(-2)", "(-3)"])

    def truth(self, found, fuel, scope):
        kind = self.dice.randrange(6)
        if kind < 2:
            return self.two(["==", "<", "<=", ">", ">="], INT, fuel, scope, COMPARISON)
        if kind == 2:
            return f"not {self.operand(BOOL, fuel, scope, PREFIXED)}", PREFIXED
        if kind == 3:
            return f"{self.dice.choice(['reduce_and', 'reduce_or'])}({self.whole(sequence(BOOL), fuel, scope)})", PRIMARY
        if kind == 4:
            return self.two(["=="], BOOL, fuel, scope, COMPARISON)
        word, strength = self.dice.choice([("and", CONJUNCTION), ("or", DISJUNCTION)])
        return self.two([word], BOOL, fuel, scope, strength)

    def sequence(self, found, fuel, scope):
        element = found.parts[0]
        makes = [self.literal, ("{{{} | {}}}", element, BOOL), self.comprehension, self.comprehension, self.comprehension, self.joined]
        makes += [("concat({})", sequence(found))] + [self.ranges] * 2 * (element == INT) + [("seq({})", vector(element))] * element.is_concrete
        made = self.dice.choice([*makes, *[self.part] * 3 * (element.kind == "sequence")])
        return made(element, fuel, scope) if callable(made) else (self.around(made[0], made[1:], fuel, scope), PRIMARY)

    def literal(self, element, fuel, scope):
        count = self.dice.randint(1, 4)
        return self.around(f"{{{{{', '.join(['{}'] * count)}}}}}", [element] * count, fuel, scope), PRIMARY

    def joined(self, element, fuel, scope):
        """`++`."""
        return self.two(["++"], sequence(element), fuel, scope, JOINED)

    def ranges(self, element, fuel, scope):
        """`iota`, of a small number as a rule, or `scan_add`."""
        if self.chance(50):
            return f"scan_add({self.whole(sequence(INT), fuel, scope)})", PRIMARY
        if self.chance(10 + self.risk):
            return f"iota({self.whole(INT, fuel, scope)})", PRIMARY
        name = self.known(INT, scope) if self.chance(60) else None
        return f"iota({f'{name} % 4' if name else self.dice.randint(0, 5)})", PRIMARY

    def part(self, element, fuel, scope):
        """`part`, with ends that fit as a rule."""
        if self.chance(self.risk / 4):
            return self.around("part({}, {})", [element, sequence(BOOL)], fuel, scope), PRIMARY
        count = self.dice.randint(1, 4)
        ends = ["false"] * (count - self.chance(self.risk / 4)) + ["true"] * self.dice.randint(0, 3)
        self.dice.shuffle(ends)
        inner = self.whole(element.parts[0], fuel // 2, scope)
        elements = f"{{{inner} : w in iota({count})}}" if self.chance(50) else "{" + ", ".join([inner] * count) + "}"
        return f"part({elements}, {{{', '.join([*ends, 'true'])}}})", PRIMARY

    def comprehension(self, element, fuel, scope):
        """A comprehension, of sequences of one length as a rule."""
        count = self.dice.choice([1, 1, 1, 1, 2, 2, 3])
        body, condition, *shares = self.shares(fuel, count + 2)
        inner, binders, length = replace(scope, level=scope.level + 1), [], self.dice.randint(0, 4)
        for name, share in zip(self.dice.sample(NAMES, count), shares):
            its = self.type(1)
            if count > 1 and not self.chance(self.risk / 4 + self.wrong):
                text = f"{{{self.whole(its, share, replace(scope, level=scope.level + 1))} : w in iota({length})}}"
            else:
                text = self.whole(sequence(its), share, scope)
            name = binders[-1].split(" ")[0] if binders and self.chance(self.wrong) else name
            binders.append(f"{name} in {text}")
            inner = inner.binds(name, its)
        rest = f" | {self.whole(BOOL, condition, inner)}" if self.chance(30) else ""
        return f"{{{self.whole(element, body, inner)} : {'; '.join(binders)}{rest}}}", PRIMARY

    def value(self, found):
        """The input text of a random value."""
        if found == INT:
            return ("-" if self.chance(20) else "") + self.number()
        if found == BOOL:
            return self.dice.choice(["true", "false"])
        if found.kind == "pair":
            return "({},{})".format(*map(self.value, found.parts))
        inner = ",".join(self.value(found.parts[0]) for _ in range(self.dice.choice([0, 1, 2, 2, 3, 5])))
        return f"[{inner}]" if found.kind == "vector" else f"{{{inner}}}"

    def function(self, name, fuel, functions):
        """A function, as its text and its types."""
        parameters = [(it, self.type(2)) for it in self.dice.sample(NAMES, self.dice.randint(1, 3))]
        if self.chance(self.wrong):
            parameters.append((self.dice.choice(NAMES), Type("vector", (sequence(INT),)) if self.chance(50) else INT))
        result = self.type(2)
        scope = Scope(tuple((it, found, 0) for it, found in parameters), 0, functions)
        declared = ", ".join(f"{it} : {found.text()}" for it, found in parameters)
        text = f"function {name}({declared}) : {result.text()} = {self.whole(result, fuel, scope)};"
        return text, (name, [found for _, found in parameters], result)

    def program(self, fuel):
        lines, functions, names, values = [], (), [], []
        if self.dialect == SECOND:
            lines.append("dialect 2;")
        for name in self.dice.sample(NAMES, self.dice.choice([0, 0, 1, 1, 2])):
            name = self.dice.choice(NAMES) if self.chance(self.wrong) else name
            found = self.type(3)
            lines.append(f"input {name} : {found.text()};")
            names.append((name, found, 0))
            values.append(f"{name} = {self.value(found)}")
        for name in self.dice.choice(["", "", "f", "f", "fg", "fgh"]):
            text, types = self.function(name if not self.chance(self.wrong) else "f", fuel // 2, functions)
            lines.insert(self.dice.randint(0, len(lines)) if self.chance(self.wrong) else len(lines), text)
            functions += (types,)
        found = sequence(self.type(2)) if self.chance(60) else self.type(3)
        lines.append(self.whole(found, fuel, Scope(tuple(names), 0, functions)))
        return " ".join(lines), "; ".join(values) + self.dice.choice(["", "", ";" if values else ""])
