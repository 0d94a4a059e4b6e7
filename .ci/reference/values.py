"""How a job may end, types (LANGUAGE.md, "Types"), and values with their text ("Output text").

A job ends in a value, a refusal or a fault: exceptions, and the line that is printed.

An int and a bool are Python's own, a pair is a tuple, a sequence a Sequence and a vector a Vector. BROKEN stands where a value never comes,
since its computation met a fault, and a Sequence is open where it is not known what comes after its elements. Neither is in a value of a
job without a fault.
"""

import dataclasses
import functools

TOO_LONG, LEX, SYNTAX, DEEP, NAME, MISMATCH, STREAMED, BAD_INPUT, TOO_BIG, BAD_CONFIG = range(1, 11)
DIVIDE, OVERFLOW, NEGATIVE_COUNT, LENGTH, PART, THE, EMPTY_MAX, INDEX, SHAPE = range(1, 10)


@dataclasses.dataclass
class Refused(Exception):
    """A job is refused: the number of the refusal, and its offset where it has one."""

    number: int
    offset: int = None

    def line(self):
        return f"refused {self.number}" + ("" if self.offset is None else f" at {self.offset}")


@dataclasses.dataclass
class Faulted(Exception):
    """The evaluation of a job met a fault: its number and its offset."""

    number: int
    offset: int


class Long(Exception):
    """A job takes more steps than the reference wants to spend on one."""


def fault_line(fault):
    """The line of a fault that is given by its number and its offset."""
    return "fault {} at {}".format(*fault)


MOST_SIZE = 256


@dataclasses.dataclass(frozen=True)
class Type:
    """A type: its kind is `int`, `bool`, `pair`, `vector` or `sequence`."""

    kind: str
    parts: tuple = ()

    @functools.cached_property
    def size(self):
        """The number of `int`, `bool`, pairs, vectors and sequences in it."""
        return 1 + sum(it.size for it in self.parts)

    @functools.cached_property
    def is_concrete(self):
        """Whether no sequence is in it."""
        return self.kind != "sequence" and all(it.is_concrete for it in self.parts)

    def part_of(self, kind):
        """What the one part is of a type of this kind, and of another kind nothing."""
        return self.parts[0] if self.kind == kind else None

    def text(self):
        inner = ",".join(it.text() for it in self.parts)
        return {"pair": f"({inner})", "vector": f"[{inner}]", "sequence": f"{{{inner}}}"}.get(self.kind, self.kind)


INT, BOOL = Type("int"), Type("bool")


def pair(first, second):
    return Type("pair", (first, second))


def vector(element):
    return Type("vector", (element,))


def sequence(element):
    return Type("sequence", (element,))


BROKEN = object()


class Sequence(list):
    """A sequence, which is open where what comes after these elements is not known."""

    def __init__(self, elements=(), is_open=False):
        super().__init__(elements)
        self.is_open = is_open


class Vector(list):
    """A vector."""


def as_sequence(value):
    """A sequence, of which nothing is known where it never comes."""
    return Sequence(is_open=True) if value is BROKEN else value


def is_whole(value):
    """Whether nothing is missing in a value."""
    if value is BROKEN or (isinstance(value, Sequence) and value.is_open):
        return False
    return not isinstance(value, (list, tuple)) or all(map(is_whole, value))


def text_of(value):
    if isinstance(value, bool):
        return "true" if value else "false"
    if isinstance(value, int):
        return str(value)
    inner = ",".join(map(text_of, value))
    if isinstance(value, tuple):
        return f"({inner})"
    return f"[{inner}]" if isinstance(value, Vector) else f"{{{inner}}}"
