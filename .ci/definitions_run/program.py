"""All definitions as one program: each is compiled when it is first called."""

from .compiling import Writer
from .library import FUNCTIONS, OPERATORS, WORDS
from .looping import ended
from .matching import equations_of
from .modules import Scope
from .relations import Deriver
from .values import Built, Claim, TYPE, dropped, parted, shared, waiting


class NoEquation(Exception):
    """A value that no equation of a definition takes."""


def missing(name="an elimination"):
    """Says that no equation takes the values."""
    raise NoEquation(name)


def implicit(name):
    """Says that a definition is not run, as it takes a value in braces, which only its type tells."""
    raise NoEquation(f"the value in braces `{name}`")


class Program:
    """The definitions of the modules, ready to be called by name."""

    def __init__(self, modules):
        self.modules = modules
        self.numbers, self.read_equations, self.places, self.constants, self.constructors, self.called = {}, {}, {}, {}, {}, {}
        self.reached = bytearray()
        self.deriver = Deriver(self)
        self.space = {
            "Built": Built, "Claim": Claim, "TYPE": TYPE, "dropped": dropped, "parted": parted, "ended": ended, "shared": shared,
            "missing": missing, "implicit": implicit, "OPERATORS": OPERATORS, "REACHED": self.reached,
            **{WORDS[word]: meaning for word, (_, meaning) in FUNCTIONS.items()},
        }

    def equations(self, definition):
        if definition.key not in self.read_equations:
            self.read_equations[definition.key] = equations_of(definition)
        return self.read_equations[definition.key]

    def constant_of(self, tag):
        """The name of a constructor without arguments, of which there is one."""
        if tag not in self.constructors:
            self.constructors[tag] = f"c{len(self.constructors)}"
            self.space[self.constructors[tag]] = Built(tag)
        return self.constructors[tag]

    def place_of(self, definition, at):
        """The number by which an equation is known to have been reached."""
        place = self.places.setdefault((definition.key, at), len(self.places))
        if place >= len(self.reached):
            self.reached.extend(bytes(1024))
        return place

    def count_of(self, definition):
        """How many arguments a definition takes at once."""
        return len(definition.parameters) + max((len(one.patterns) for one in self.equations(definition)), default=0)

    def target(self, definition):
        """The name of a definition's function, and how many arguments it takes."""
        count = self.count_of(definition)
        if definition.key not in self.numbers:
            self.numbers[definition.key] = len(self.numbers)
            self.declare(definition, count)
        return self.name_of(definition), count

    def name_of(self, definition):
        """The name of a definition's function, which tells the definition."""
        letters = "".join(letter if letter.isidentifier() or letter.isdigit() else "_" for letter in definition.name)
        return f"d{self.numbers[definition.key]}_{letters}"

    def declare(self, definition, count):
        """Puts a function in place that compiles the definition when it is first called."""
        name = self.name_of(definition)

        def first_call(*given):
            if self.space[name] is first_call:
                self.compile(definition, name, count)
            return self.space[name](*given)

        self.space[name] = first_call

    def compile(self, definition, name, count):
        text = Writer(self, definition).function(name, count)
        exec(compile(text, f"{definition.module.path}:{definition.line}", "exec"), self.space)
        if count == 0:
            compute = self.space[name]
            self.space[name] = lambda: self.constant(name, compute)

    def constant(self, name, compute):
        """The value of a constant, which is computed once."""
        if name not in self.constants:
            self.constants[name] = compute()
        return self.constants[name]

    def change(self, definition, equations):
        """Gives a definition other equations, and forgets what was computed."""
        self.read_equations[definition.key] = equations
        self.constants.clear()
        if definition.key in self.numbers:
            self.declare(definition, self.count_of(definition))

    def definition(self, module, name):
        """The definition of a name in a module, `Rattle.` left out."""
        found = Scope(self.modules, self.modules["Rattle." + module]).exported("Rattle." + module, name)
        return found.what

    def call(self, module, name, *given):
        """The definition of a name in a module, given these values."""
        if (module, name) not in self.called:
            self.called[module, name] = self.target(self.definition(module, name))
        target, count = self.called[module, name]
        if len(given) < count:
            return waiting(self.space[target], count, given)
        value = self.space[target](*given[:count])
        for one in given[count:]:
            value = value(one)
        return value
