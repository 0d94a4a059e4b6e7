"""Relations, decided: the `data` and `record` of the definitions as rules, from which an instance is derived.

A rule's conclusion is compared with what is known, its premises are met in an order in which each has what it needs, and what is asked
for is then computed. Which arguments are asked for is told by a hole. What is found is kept. A premise of all or of some values is not
decided, nor is a conclusion that takes a known list apart at an unknown place.
"""

import collections

from .compiling import Writer, binder_variables, binds, implication_of
from .matching import Match
from .modules import explicit_parameters
from .terms import arguments_of, names_in, parsed
from .tokens import binder_names
from .values import Built, Claim, TYPE, key_of

HOLE = object()


# The claims of the kit that are decided.
KIT_CLAIMS = {
    "Unit": lambda deriver: True, "⊤": lambda deriver: True, "⊥": lambda deriver: False,
    "¬": lambda deriver, claim: not deriver.decide(claim),
    "IsTrue": lambda deriver, truth: truth, "IsFalse": lambda deriver, truth: not truth,
    "IsNumeral": lambda deriver, base, text:
        len(text) > 0 and all(48 <= it < 123 and chr(it).isalnum() and int(chr(it), 36) < base for it in text),
    "IsInRange": lambda deriver, low, high, number: low <= number <= high,
    "IsSome": lambda deriver, option: option.tag == "Some",
    "All": lambda deriver, claim, items: all(deriver.decide(claim(item)) for item in items),
    "Contains": lambda deriver, items, item: key_of(item) in [key_of(one) for one in items],
}


class Undecided(Exception):
    """A claim that is not decided here."""


# One constructor: the names that it binds, its premises, and what it concludes.
Rule = collections.namedtuple("Rule", "name variables premises conclusion")


def rules_of(definition):
    """The rules of a `data`; a record is a relation of one rule, whose premises are its fields."""
    terms = {name: parsed(tokens, definition.module.path) for name, tokens in definition.parts.items()}
    if definition.kind == "record":
        return [Rule("fields", set(), [*terms.values()], [])]
    rules = []
    for name, term in terms.items():
        premises = []
        while term[0] == "operator" and term[1] == "→":
            premises += [] if binds(term[2]) else [term[2]]
            term = term[3]
        rules.append(Rule(name, binder_names(definition.parts[name], ("(", "{")), premises, arguments_of(term)[1]))
    return rules


class Relation:
    """A `data` or a record: its parameters and rules."""

    def __init__(self, program, definition):
        self.definition = definition
        self.parameters = definition.parameters + explicit_parameters(header_of(definition))
        self.names = [("name", name) for name in self.parameters]
        self.rules = rules_of(definition)
        self.writer = Writer(program, definition)


def header_of(definition):
    """The tokens of a `data` or `record` that bind its parameters."""
    depth = 0
    for at, token in enumerate(definition.signature):
        depth += {"(": 1, "{": 1, ")": -1, "}": -1}.get(token, 0)
        if token == ":" and depth == 0:
            return definition.signature[:at]
    return definition.signature


class Deriver:
    def __init__(self, program):
        self.program, self.relations, self.kept, self.found, self.open, self.parameters = program, {}, {}, {}, set(), {}

    def once(self, what, term, compute, *key):
        """What is computed of a term, once for each key."""
        key = what, id(term), *key
        if key not in self.kept:
            # (a term that is kept has its number for itself)
            self.kept[key] = term, compute()
        return self.kept[key][1]

    def relation(self, definition):
        if definition.key not in self.relations:
            self.relations[definition.key] = Relation(self.program, definition)
        return self.relations[definition.key]

    def value(self, relation, term, bound):
        """The value of a term, where names have these values."""
        if term[0] == "name" and term[1] in bound:
            return bound[term[1]]
        names = sorted(self.names_of(term) & bound.keys())

        def written():
            inner = {name: f"b_{at}" for at, name in enumerate(names)}
            return eval(f"lambda {', '.join(inner.values())}: {relation.writer.write(term, inner)}", self.program.space)

        return self.once("value", term, written, relation.definition.key, tuple(names))(*(bound[name] for name in names))

    def is_known(self, term, rule, bound):
        """Whether all variables in a term have values."""
        if term[0] == "name" and term[1] in bound:
            return True
        return not (self.names_of(term) & rule.variables) - bound.keys()

    def names_of(self, term):
        return self.once("names", term, lambda: frozenset(names_in(term)))

    def head_of(self, relation, term):
        """What a premise begins with, and its arguments."""
        def looked():
            head, given = arguments_of(term)
            return relation.writer.scope.find(str(head[1]))[0] if head[0] == "name" else None, given

        return self.once("head", term, looked)

    def is_form(self, relation, rule, term):
        """Whether a term is made of constructors and variables alone."""
        return self.once("form", term, lambda: is_pattern(term, relation.writer.scope, rule), id(rule), len(rule.variables))

    def derive(self, definition, given):
        """The arguments of an instance whose known ones are these, or None. Holes ask for the others."""
        key = (definition.key, tuple("?" if one is HOLE else key_of(one) for one in given))
        if key in self.found:
            return self.found[key]
        if key in self.open:
            raise Undecided(f"{definition.name} rests on itself")
        self.open.add(key)
        try:
            answer = self.by_rules(definition, given)
        finally:
            self.open.discard(key)
        self.found[key] = answer
        return answer

    def by_rules(self, definition, given):
        relation = self.relation_of_record(definition) if definition.kind == "record" else self.relation(definition)
        for number, rule in enumerate(relation.rules):
            answer = self.by_rule(relation, rule, given)
            if answer is not None:
                self.program.reached[self.program.place_of(definition, number)] = 1
                return answer
        return None

    def by_rule(self, relation, rule, given):
        count = len(relation.parameters)
        bound = dict(zip(relation.parameters, given[:count]))
        for parameter in [name for name, one in bound.items() if one is HOLE]:
            rule.variables.add(parameter)
            del bound[parameter]
        later = []
        for term, one in zip(rule.conclusion[len(rule.conclusion) - len(given) + count:], given[count:]):
            if one is HOLE:
                continue
            if not self.take(relation, rule, term, one, bound, later):
                return None
        if not self.meet(relation, rule, list(rule.premises), bound):
            return None
        if any(key_of(self.value(relation, term, bound)) != key_of(one) for term, one in later):
            return None
        terms = relation.names + rule.conclusion[len(rule.conclusion) - len(given) + count:]
        return tuple(self.value(relation, term, bound) if one is HOLE else one for term, one in zip(terms, given))

    def take(self, relation, rule, term, value, bound, later):
        """Compares a term with a known value: by its form, or, where it is computed, once its variables are known."""
        if self.is_known(term, rule, bound):
            return key_of(self.value(relation, term, bound)) == key_of(value)
        if not self.is_form(relation, rule, term):
            later.append((term, value))
            return True
        return self.match(relation, term, value, bound)

    def match(self, relation, pattern, value, bound):
        """Compares a pattern with a value, and binds its names; a name that is bound has to have the same value."""
        test, parts = self.compiled(relation, pattern)
        if not test(value):
            return False
        for name, part in parts:
            one = part(value)
            if name in bound and key_of(bound[name]) != key_of(one):
                return False
            bound[name] = one
        return True

    def compiled(self, relation, pattern):
        """A pattern as a test, and the names that it binds, each with what takes its value out of a value."""
        def read():
            match = Match(relation.writer.scope)
            match.take(pattern, "value")
            of_value = lambda written: eval(f"lambda value: {written}", self.program.space)
            return of_value(" and ".join(match.tests) or "True"), [(name, of_value(path)) for name, path in match.bound.items()]

        return self.once("pattern", pattern, read, relation.definition.key)

    def meet(self, relation, rule, premises, bound):
        """Whether all premises are met, each once it has what it needs."""
        while premises:
            for at, premise in enumerate(premises):
                met = self.premise(relation, rule, premise, bound)
                if met is False:
                    return False
                if met is True:
                    premises.pop(at)
                    break
            else:
                raise Undecided(f"{relation.definition.name}, {rule.name}: a premise that lacks what it needs")
        return True

    def premise(self, relation, rule, term, bound):
        """Whether a premise is met; None where it lacks what it needs."""
        if term[0] == "operator" and term[1] == "≡":
            return self.equation(relation, rule, term, bound)
        if term[0] == "operator" and term[1] == "→" and binds(term[2]):
            return self.every(relation, rule, term, bound)
        if term[0] == "operator":
            return self.decide(self.value(relation, term, bound)) if self.is_known(term, rule, bound) else None
        found, given = self.head_of(relation, term)
        if found is None or found.kind != "type" or getattr(found.what, "kind", None) not in ("data", "record"):
            return self.decide(self.value(relation, term, bound)) if self.is_known(term, rule, bound) else None
        return self.instance(relation, rule, found.what, given, bound)

    def equation(self, relation, rule, term, bound):
        """Whether both sides are the same; one may be a pattern of what is not known yet."""
        left, right = term[2], term[3]
        if not self.is_known(left, rule, bound):
            left, right = right, left
        if not self.is_known(left, rule, bound):
            return None
        value = self.value(relation, left, bound)
        if self.is_known(right, rule, bound):
            return key_of(self.value(relation, right, bound)) == key_of(value)
        return self.match(relation, right, value, bound) if self.is_form(relation, rule, right) else None

    def every(self, relation, rule, term, bound):
        """Whether a claim holds of all values that make an equation true: those of which a known value is made, if it is."""
        names = binder_variables(term[2])
        claim = implication_of(term[3])
        if claim[0] != "operator" or claim[1] != "→" or claim[2][0] != "operator" or claim[2][1] != "≡":
            return None
        bound = {name: value for name, value in bound.items() if name not in names}
        met = self.equation(relation, rule, claim[2], bound)
        return True if met is False else met and self.premise(relation, rule, claim[3], bound)

    def instance(self, relation, rule, definition, given, bound):
        """Whether there is an instance of a relation; what is not known of it is found, where it is a pattern."""
        asked, terms = [], self.passed(relation, definition) + given
        for term in terms:
            if self.is_known(term, rule, bound):
                asked.append(self.value(relation, term, bound))
            elif self.is_form(relation, rule, term):
                asked.append(HOLE)
            else:
                return None
        # (one argument is found at most, but of those relations that give two)
        if sum(one is HOLE for one in asked) > 1 + (definition.name in ("ProgramTypes", "HasTokens")):
            return None
        answer = self.derive(definition, tuple(asked))
        if answer is None:
            return False
        return all(self.match(relation, term, one, bound) for term, one, was in zip(terms, answer, asked) if was is HOLE)

    def passed(self, relation, definition):
        """The parameters of a module, which its relations pass on to one another, as terms."""
        names = definition.parameters if definition.module is relation.definition.module else []
        return [self.parameters.setdefault(name, ("name", name)) for name in names]

    def has_instance(self, definition, given, fields):
        """Whether there is an instance of a record: its claims, where its other fields have these values."""
        relation = self.relation_of_record(definition)
        premises = [term for name, term in zip(definition.parts, relation.rules[0].premises) if name not in fields]
        return self.meet(relation, relation.rules[0], premises, dict(zip(relation.parameters, given)) | fields)

    def relation_of_record(self, definition):
        """A record as a relation, which is reached by this."""
        self.program.reached[self.program.place_of(definition, 0)] = 1
        return self.relation(definition)

    def decide(self, claim):
        if type(claim) is Claim:
            return self.decide_claim(claim)
        if type(claim) is Built and isinstance(claim.tag, tuple):
            _, path, name = claim.tag
            if name in KIT_CLAIMS:
                return KIT_CLAIMS[name](self, *claim.given)
            module = self.program.modules.get(path)
            if module is not None and name in module.definitions:
                return self.derive(module.definitions[name], claim.given) is not None
        raise Undecided("a claim of all or of some values" if claim is TYPE else repr(claim)[:60])

    def decide_claim(self, claim):
        """Whether a claim of two parts holds."""
        left, right, operator = claim.left, claim.right, claim.operator
        if operator in ("≡", "≢"):
            return (key_of(left) == key_of(right)) == (operator == "≡")
        if operator in ("<", "≤"):
            return left < right or (operator == "≤" and left == right)
        if operator in ("every", "some"):
            return (all if operator == "every" else any)(self.decide(right(number)) for number in range(left))
        if operator == "×":
            return self.decide(left()) and self.decide(right())
        if operator == "⊎":
            return self.decide(left()) or self.decide(right())
        if operator == "→":
            return not self.decide(left()) or self.decide(right())
        return self.decide(left()) == self.decide(right())


def is_pattern(term, scope, rule):
    """Whether a term is made of constructors and variables alone."""
    kind = term[0]
    if kind == "number":
        return True
    if kind == "name":
        return str(term[1]) in rule.variables or is_constructor(str(term[1]), scope)
    if kind == "apply":
        head, given = arguments_of(term)
        if head[0] != "name" or not (is_constructor(str(head[1]), scope) or str(head[1]) == "suc"):
            return False
        return all(is_pattern(one, scope, rule) for one in given)
    if kind == "operator":
        return term[1] == "∷" and is_pattern(term[2], scope, rule) and is_pattern(term[3], scope, rule)
    return kind == "tuple" and all(is_pattern(one, scope, rule) for one in term[1])


def is_constructor(name, scope):
    found, fields = scope.find(name)
    return found is not None and not fields and found.kind in ("constructor", "constant")
