"""Modules of specifications: what each imports and declares, and what a name stands for where it is used."""

import collections
import dataclasses
import os
import pathlib

from .library import CONSTANTS, CONSTRUCTORS, FUNCTIONS, TYPES
from .tokens import FormError, lines_of

PROOF = "proof"
KEYWORDS = ("abbrev", "unfoldable", "pub")
# What opens a block of definitions that are abbreviations.
ABBREVIATIONS = ["abbrev", "mutual"]
# How the constructors of the rows of a type of Rattle begin.
ROWS = ("end_of-", "more_of-")
# What a name stands for: `kind` is definition, constructor, word, constant, type or proof.
Found = collections.namedtuple("Found", "kind what")


class NameMissing(Exception):
    """A name that stands for nothing that is known."""


@dataclasses.dataclass(eq=False)
class Definition:
    """A declared name: a function by equations (`abbrev`, `unfoldable`), a `data`, a `record`, or a proof."""

    module: object
    name: str
    kind: str
    line: int
    parameters: list
    headers: list
    signature: list
    tokens: list
    equations: list = dataclasses.field(default_factory=list)
    parts: dict = dataclasses.field(default_factory=dict)

    @property
    def key(self):
        return self.module.name, self.name

    @property
    def lines(self):
        """How many lines it has, without comments."""
        return len({token.line for token in self.tokens})

    @property
    def is_type(self):
        """Whether what it gives is a type: no value, so nothing can be computed of it."""
        if self.kind in ("data", "record"):
            return True
        return "Type" in [str(token) for token in self.signature[-2:]]

    @property
    def implicit(self):
        """The names that it and its modules bind in braces, each with whether it is a type."""
        return {**implicit_names(self.headers), **implicit_names(self.signature)}

    @property
    def place(self):
        return f"{self.module.path}:{self.line}"


class Module:
    """One file: its imports, aliases, names that it passes on, definitions and constructors."""

    def __init__(self, name, path):
        self.name, self.path = name, path
        self.imports, self.aliases, self.passed_on, self.definitions, self.constructors = {}, {}, {}, {}, {}

    def use(self, tokens):
        """Takes what stands behind a `use`. The names that it imports, each with its module and its name there."""
        path = str(tokens[0]).rstrip(".")
        if "{" not in tokens:
            self.aliases[str(tokens[-1]).split(".")[-1]] = path
            return {}
        names = " ".join(tokens[tokens.index("{") + 1:tokens.index("}")]).split(",")
        found = {words[-1]: (path, words[0]) for words in map(str.split, names) if words}
        self.imports |= found
        return found


def explicit_parameters(tokens):
    """The names that the header of a `module` binds in round brackets."""
    names, depth, is_open = [], 0, False
    for token in tokens:
        if token in ("(", "{"):
            depth += 1
            is_open = token == "(" and depth == 1
        elif token in (")", "}"):
            depth -= 1
        elif token == ":" and depth == 1:
            is_open = False
        elif is_open and depth == 1:
            names.append(str(token))
    return names


def implicit_names(tokens):
    """The names that a header or a signature binds in braces, each with whether it is a type."""
    names, start = {}, None
    for at, token in enumerate(tokens):
        if token == "{":
            start = at + 1
        elif token == ":" and start is not None:
            names.update({str(name): tokens[at + 1] == "Type" for name in tokens[start:at]})
            start = None
        elif token in ("(", "}"):
            start = None
    return names


class Reader:
    def __init__(self, name, path):
        self.module, self.headers, self.last = Module(name, path), [], None

    def fail(self, line, why):
        raise FormError(f"{self.module.path}:{line.number}: {why}: {' '.join(line.tokens[:8])}")

    def read(self, text):
        for line in lines_of(text):
            self.read_line(line)
        return self.module

    def read_line(self, line):
        while self.headers and line.indent <= self.headers[-1].indent:
            self.headers.pop()
        first = line.tokens[0]
        if first == "module" or line.tokens == ABBREVIATIONS:
            self.headers.append(line)
        elif "use" in line.tokens[:2] and first in ("use", "pub"):
            names = self.module.use(line.tokens[line.tokens.index("use") + 1:])
            self.module.passed_on |= names if first == "pub" else {}
        elif first not in ("infixl", "infixr", "infix", "mutual") and "mod" not in line.tokens[:2]:
            self.read_declaration(line)

    def read_declaration(self, line):
        """Takes a `data`, a `record`, a signature, or an equation of what has one."""
        tokens = list(line.tokens)
        words = []
        while tokens[0] in KEYWORDS:
            words.append(str(tokens.pop(0)))
        if tokens[0] in ("data", "record"):
            self.declare(line, tokens[1], str(tokens[0]), tokens)
            self.read_parts(line, tokens[0] == "data")
        elif len(tokens) > 1 and tokens[1] == ":":
            is_in_block = any(header.tokens == ABBREVIATIONS for header in self.headers)
            kind = next((word for word in words if word != "pub"), "abbrev" if is_in_block else PROOF)
            self.declare(line, tokens[0], kind, tokens[2:])
        else:
            self.read_equation(line)

    def declare(self, line, name, kind, signature):
        """Takes a new name."""
        headers = [header.tokens for header in self.headers if header.tokens != ABBREVIATIONS]
        parameters = [name for header in headers for name in explicit_parameters(header)]
        self.last = Definition(self.module, str(name), kind, line.number, parameters, sum(headers, []), signature, list(line.tokens))
        self.module.definitions[str(name)] = self.last

    def read_parts(self, line, is_data):
        """Takes the constructors of a `data`, or the fields of a `record`: lines of its body that begin with a name and a colon."""
        name = None
        for tokens in line.parts[1:]:
            words = tokens[1:] if tokens[0] == "pub" else tokens
            if len(words) > 1 and words[1] == ":" and words[0] not in ("(", "{"):
                name = str(words[0])
                self.last.parts[name] = list(words[2:])
                if is_data:
                    self.module.constructors[name] = self.last
            elif name is not None:
                self.last.parts[name] += tokens

    def read_equation(self, line):
        """Takes an equation: of the name that it begins with, of an operator, or of a proof that goes on."""
        target = self.equation_target(line)
        if target is None:
            self.fail(line, "an equation of no name")
        target.equations.append(line.tokens)
        target.tokens = target.tokens + list(line.tokens)
        self.last = target

    def equation_target(self, line):
        """The definition whose equation this is."""
        for token in line.tokens[:8]:
            for name in (str(token), f"◌{token}◌"):
                if name in self.module.definitions:
                    return self.module.definitions[name]
        return self.last if self.last is not None and self.last.kind == PROOF else None


def read_modules(root):
    """All modules in specs/ of the crates at root, by name."""
    modules = {}
    for path in sorted(pathlib.Path(root).glob("*/specs/**/*.antt")):
        name = "Rattle." + str(path.relative_to(root).with_suffix("")).replace(os.sep, ".")
        modules[name] = Reader(name, str(path)).read(path.read_text(encoding="utf-8"))
    return modules


def of_definition(definition):
    if definition.is_type:
        return Found("type", definition)
    return Found("proof" if definition.kind == PROOF else "definition", definition)


def library_word(name):
    """What a name of the library stands for, or None."""
    if name in CONSTRUCTORS:
        return Found("constructor", name)
    if name in CONSTANTS:
        return Found("constant", name)
    if name in FUNCTIONS:
        return Found("word", name)
    return Found("type", ("kit", name)) if name in TYPES else None


class Scope:
    """The names of one module, among all modules."""

    def __init__(self, modules, module):
        self.modules, self.module = modules, module

    def exported(self, path, name):
        """What a module at this path means by a name."""
        module = self.modules.get(path)
        if module is None:
            if ".declared." in path:
                is_constructor = path.endswith(".TheVariants") or name.startswith(ROWS)
                return Found("constructor", f"{path}.{name}") if is_constructor else Found("type", (path, name))
            return library_word(name) or Found("type", (path, name))
        if name in module.definitions:
            return of_definition(module.definitions[name])
        if name in module.constructors:
            return Found("constructor", f"{path}.{name}")
        if name in module.passed_on:
            return self.exported(*module.passed_on[name])
        raise NameMissing(f"{self.module.path}: {path} has no `{name}`")

    def own(self, name):
        """What this module means by a name without fields, or None."""
        if name in self.module.definitions:
            return of_definition(self.module.definitions[name])
        if name in self.module.constructors:
            return Found("constructor", f"{self.module.name}.{name}")
        if name in self.module.imports:
            return self.exported(*self.module.imports[name])
        return None

    def find(self, name):
        """What this module means by a name, and the fields that are taken of it; `None` where it is not known."""
        found = self.own(name)
        if found is not None:
            return found, []
        first, *fields = name.split(".")
        if fields and first in self.module.aliases:
            return self.exported(self.module.aliases[first], fields[0]), fields[1:]
        if fields:
            found = self.own(first)
            if found is not None:
                return found, fields
        return library_word(name), []
