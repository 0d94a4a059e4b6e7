"""Evaluation (LANGUAGE.md, "Typing and evaluation" and "Faults").

Evaluation is strict, from left to right, and ends at its first fault. A network may come to other faults as well, and names one of them.
Which one, the page leaves to the network. So there is a second way to evaluate, which goes on beside each fault: what needs the value that
never came is broken, and all else is computed. The faults that it meets are all that stand in a network, unless one of them is found by
looking at streams beside which the elements go on (Length, Part, The). Then elements meet others than they belong to, and any form may
fault as its kind can.

What operators and built-ins give of the values of their operands is a table (LANGUAGE.md, the table of forms). Each is called with the
evaluation, whose `fault` it meets, the form, and the values of the parts, some of which may be broken or open.
"""

import operator

from .values import BROKEN, DIVIDE, EMPTY_MAX, INDEX, LENGTH, NEGATIVE_COUNT, OVERFLOW, PART, SHAPE, THE
from .values import Faulted, Long, Sequence, Vector, as_sequence, is_whole
from .lexer import number_of

# How many forms are evaluated before a job counts as long.
MANY_STEPS = 1_000_000
# A longer sequence counts as long.
MOST_ELEMENTS = 20_000


def of_whole(operation):
    """An operation on operands of which none is broken; else its result is."""

    def result(evaluation, form, *operands):
        return BROKEN if any(it is BROKEN for it in operands) else operation(evaluation, form, *operands)

    return result


def plain(operation):
    """An operation without a fault."""
    return of_whole(lambda _, form, *operands: operation(*operands))


def in_range(evaluation, form, number):
    """An integer, or the fault of one that is out of the range."""
    return number if evaluation.dialect.has(number) else evaluation.fault(OVERFLOW, form)


def arithmetic(operation):
    """An operation on integers whose result may be out of the range."""
    return of_whole(lambda evaluation, form, *operands: in_range(evaluation, form, operation(*operands)))


def quotient_of(left, right):
    """The quotient, rounded towards zero."""
    found = abs(left) // abs(right)
    return found if (left < 0) == (right < 0) else -found


def iota(evaluation, form, count):
    if count is BROKEN or count < 0:
        if count is not BROKEN:
            evaluation.fault(NEGATIVE_COUNT, form)
        return Sequence(is_open=True)
    if count > MOST_ELEMENTS:
        raise Long()
    return Sequence(range(count))


def scan_add(evaluation, form, terms):
    """`scan_add`: a sum is given, and has to be in the range, only where an element stands."""
    terms, total = as_sequence(terms), 0
    found = Sequence(is_open=terms.is_open)
    for term in terms:
        if total is not BROKEN:
            total = in_range(evaluation, form, total)
        found.append(total)
        total = BROKEN if BROKEN in (total, term) else total + term
    return found


def reduce_add(evaluation, form, terms):
    """`reduce_add`: the sum of the first one, two, .. elements has to be in the range."""
    terms, total = as_sequence(terms), 0
    for term in terms:
        if term is BROKEN:
            return BROKEN
        total = in_range(evaluation, form, total + term)
        if total is BROKEN:
            return BROKEN
    return BROKEN if terms.is_open else total


def of_all(operation):
    """An operation on a sequence of which nothing is missing; else its result is broken."""
    return lambda evaluation, form, elements: operation(evaluation, form, elements) if is_whole(elements) else BROKEN


def concat(_, form, sequences):
    sequences, found = as_sequence(sequences), Sequence()
    for it in map(as_sequence, sequences):
        found.extend(it)
        if it.is_open:
            found.is_open = True
            return found
    found.is_open = sequences.is_open
    return found


def part(evaluation, form, elements, ends):
    """`part`. What is given before a fault stands in front of an open rest."""
    elements, ends = as_sequence(elements), as_sequence(ends)
    found, piece, taken = Sequence(is_open=True), Sequence(is_open=True), 0
    for end in ends:
        if end is BROKEN:
            return found
        if end:
            piece.is_open = False
            found.append(piece)
            piece = Sequence(is_open=True)
        elif taken < len(elements):
            piece.append(elements[taken])
            taken += 1
        else:
            if not elements.is_open:
                evaluation.fault(PART, form)
            break
    else:
        if not ends.is_open and taken == len(elements) and (not ends or ends[-1]):
            found.is_open = elements.is_open
            return found
        if not ends.is_open:
            evaluation.fault(PART, form)
    return Sequence([*found, *[piece] * (len(piece) > 0)], is_open=True)


def the(evaluation, form, elements):
    """`the`. Where there is more than one element, the first may be given before that is known."""
    elements = as_sequence(elements)
    if len(elements) > 1 or not (elements or elements.is_open):
        evaluation.fault(THE, form)
    return elements[0] if elements else BROKEN


def joined(_, form, left, right):
    """`++`."""
    left, right = as_sequence(left), as_sequence(right)
    return left if left.is_open else Sequence([*left, *right], right.is_open)


OPERATIONS = {
    **{sign: arithmetic(its) for sign, its in {"+": operator.add, "-": operator.sub, "*": operator.mul, "negate": operator.neg}.items()},
    "/": of_whole(lambda its, form, left, right: in_range(its, form, quotient_of(left, right)) if right else its.fault(DIVIDE, form)),
    "%": of_whole(lambda its, form, left, right: left - right * quotient_of(left, right) if right else its.fault(DIVIDE, form)),
    "==": plain(operator.eq),
    **{sign: plain(its) for sign, its in {"<": operator.lt, "<=": operator.le, ">": operator.gt, ">=": operator.ge}.items()},
    "and": plain(lambda left, right: left and right),
    "or": plain(lambda left, right: left or right),
    "not": plain(operator.not_),
    "pair": lambda _, form, first, second: (first, second),
    "fst": plain(lambda it: it[0]),
    "snd": plain(lambda it: it[1]),
    **{its.__name__: its for its in (iota, scan_add, reduce_add, concat, part, the)},
    "reduce_max": of_all(lambda its, form, terms: max(terms) if terms else its.fault(EMPTY_MAX, form)),
    "reduce_and": of_all(lambda _, form, terms: all(terms)),
    "reduce_or": of_all(lambda _, form, terms: any(terms)),
    # (it needs no element)
    "length": lambda _, form, elements: BROKEN if as_sequence(elements).is_open else len(elements),
    "tab": of_all(lambda _, form, elements: Vector(elements)),
    "seq": lambda _, form, elements: Sequence(elements) if is_whole(elements) else Sequence(is_open=True),
    "!": of_whole(lambda its, form, vector, place: vector[place] if 0 <= place < len(vector) else its.fault(INDEX, form)),
    "++": joined,
    "parentheses": lambda _, form, inner: inner,
    "literal": lambda _, form, *elements: Sequence(elements),
}


class Evaluation:
    """Evaluates forms of a program. Raises the first fault, or gathers all where it goes on."""

    def __init__(self, program, most_steps, goes_on=False):
        self.functions = {it.name.text: it for it in program.functions}
        self.dialect, self.goes_on = program.dialect, goes_on
        self.faults, self.steps_left = set(), most_steps
        # The forms, each with the calls that lead to it, that never give anything again.
        self.stuck, self.calls = set(), ()

    def fault(self, number, form):
        if not self.goes_on:
            raise Faulted(number, form.offset)
        self.faults.add((number, form.offset))
        return BROKEN

    def value(self, form, names):
        self.steps_left -= 1
        if self.steps_left < 0:
            raise Long()
        special = getattr(self, f"of_{form.kind}", None)
        if special:
            found = special(form, names)
        else:
            found = OPERATIONS[form.kind](self, form, *[self.value(it, names) for it in form.parts])
        return self.in_turn(form, found) if self.goes_on else found

    def in_turn(self, form, found):
        """A value, if all that the form gave before came. Values come in turn: none passes by one that never comes."""
        place = (*self.calls, id(form))
        if place in self.stuck:
            return BROKEN
        if found is BROKEN:
            self.stuck.add(place)
        return found

    def of_name(self, form, names):
        return names[form.text]

    def of_integer(self, form, _):
        return number_of(form.text)

    def of_true(self, form, _):
        return form.kind == "true"

    of_false = of_true

    def of_let(self, form, names):
        bound = self.value(form.parts[0], names)
        return self.value(form.parts[1], {**names, form.binders[0].text: bound})

    def of_if(self, form, names):
        """The value of one branch. The other is not evaluated."""
        condition = self.value(form.parts[0], names)
        if condition is BROKEN:
            return BROKEN
        return self.value(form.parts[1] if condition else form.parts[2], names)

    def of_call(self, form, names):
        """The value of a function's body, where the parameters stand for the arguments."""
        function = self.functions[form.text]
        arguments = [self.value(it, names) for it in form.parts]
        before, self.calls = self.calls, (*self.calls, id(form))
        try:
            return self.value(function.body, {name.text: it for (name, _), it in zip(function.parameters, arguments)})
        finally:
            self.calls = before

    def of_guard(self, form, names):
        condition = self.value(form.parts[1], names)
        if condition is BROKEN:
            return Sequence(is_open=True)
        return Sequence([self.value(form.parts[0], names)] if condition else [])

    def of_comprehension(self, form, names):
        """The sequences first; then condition and body for one place after another."""
        count = len(form.binders)
        sequences = [as_sequence(self.value(it, names)) for it in form.parts[:count]]
        self.compare_lengths(form, sequences)
        found, is_known = Sequence(), True
        for number in range(len(sequences[0])):
            elements = [it[number] if number < len(it) else BROKEN for it in sequences]
            inner = {**names, **{name.text: it for name, it in zip(form.binders, elements)}}
            condition = self.value(form.parts[count], inner) if form.has_condition else True
            if condition is BROKEN:
                is_known = False
            elif condition:
                element = self.value(form.parts[-1], inner)
                found.extend([element] * is_known)
        found.is_open = sequences[0].is_open or not is_known
        return found

    def compare_lengths(self, form, sequences):
        """Meets a fault where one sequence ends and another has more. It holds nothing back: there are as many places as the first has."""
        least = min(map(len, sequences))
        has_more = any(len(it) > least for it in sequences)
        if has_more and any(len(it) == least and not it.is_open for it in sequences):
            self.fault(LENGTH, form)


def evaluated(program, inputs, most_steps=MANY_STEPS):
    """The value of a program. Raises the first fault."""
    return Evaluation(program, most_steps).value(program.body, inputs)


# The faults of each form by its kind, but for Shape, which each may come to.
FAULTS_OF = {
    **{it: (OVERFLOW,) for it in ("+", "-", "*", "negate", "scan_add", "reduce_add")},
    **{"/": (DIVIDE, OVERFLOW), "%": (DIVIDE,), "iota": (NEGATIVE_COUNT,), "reduce_max": (EMPTY_MAX,), "!": (INDEX,)},
    **{"comprehension": (LENGTH,), "part": (PART,), "the": (THE,), "if": (THE,)},
}


def faults_below(form):
    """Each fault that a form or one below it may have by its kind."""
    found = {(number, form.offset) for number in (SHAPE, *FAULTS_OF.get(form.kind, ()))}
    return found.union(*map(faults_below, form.parts))


def standing_faults(program, inputs, most_steps=MANY_STEPS):
    """The faults that a network of the program may name, each as its number and its offset; and whether with wide edges it comes to all of them."""
    evaluation = Evaluation(program, most_steps, goes_on=True)
    evaluation.value(program.body, inputs)
    if not any(number in (LENGTH, PART, THE) for number, _ in evaluation.faults):
        return evaluation.faults, True
    return faults_below(program.body).union(*[faults_below(it.body) for it in program.functions]), False
