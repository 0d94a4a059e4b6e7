"""From the bytes of a job to its program and inputs, by the definitions.

What the definitions say by relations is searched for here, by the functions that they name: the tokens of a text (`Tokens`, `BadAt`),
the parts of a job (`IsJob`), and what an input text spells (`InputMeans`). The tokens of an input text are those of `next`. A value is read
as its type says; the first token that cannot go on ends the reading, and its offset is that of the refusal. What was read is checked: its
tokens are those that `environment_tokens` gives.
"""

import functools
import re

from .values import Built, dropped, plain

LEXICAL = "snesl_grammar.specs.lexer.Lexical"
FIRST = "Rattle.snesl_grammar.specs.declared.lexer.lexer.Foremost.TheVariants."
TOKENS = "Rattle.snesl_values.specs.InputTokens."
TYPES = "Rattle.snesl_data.specs.Types."
VALUES = "Rattle.snesl_data.specs.Values."


class Refused(Exception):
    """A refusal, as the definitions have it."""


def refusal(name, *given):
    return Refused(Built("Rattle.snesl_data.specs.declared.refusal.Refusal.TheVariants." + name, given))


def parts_of_job(job):
    """The program and the input text: a line that is `---` parts them."""
    line = re.search(rb"(?:\A|(?<=\n))---(?:\r?\n|\Z)", job)
    return (job[:line.start()], job[line.end():]) if line else (job, b"")


class Source:
    """A program text, read by the definitions: its dialect, its tokens, its tree or the refusal of the text, and what it declares with its
    type."""

    def __init__(self, program, text):
        self.call, self.text = program.call, tuple(text)

    @functools.cached_property
    def dialect(self):
        return self.call(LEXICAL, "dialect_of", self.text)

    @functools.cached_property
    def tokens(self):
        at, found = 0, []
        while at < len(self.text):
            first = self.call(LEXICAL, "first", self.dialect, dropped(self.text, at))
            if first.tag == FIRST + "Blank":
                at += 1
            elif first.tag == FIRST + "Found":
                found.append({"kind": first.given[0], "at": at})
                at += first.given[1]
            else:
                raise refusal("Lex", at)
        return tuple(found)

    @functools.cached_property
    def tree(self):
        if len(self.text) > self.call("snesl_grammar.specs.Limits", "greatest_length"):
            raise refusal("TooLong")
        tokens = self.tokens
        reader = self.call("snesl_syntax.specs.DialectMachine", "reader")
        depth = self.call("snesl_grammar.specs.Limits", "greatest_depth")
        answer = self.call("snesl_syntax.specs.Answer", "parse_rest", reader, depth, len(self.text), reader["start"], tokens)
        return unless_refused(answer)

    @functools.cached_property
    def verdict(self):
        return self.call("snesl_types.specs.Verdicts", "program_verdict", self.text, self.tree)

    @property
    def typing(self):
        return unless_refused(self.verdict)

    def value(self, tree, environment):
        return self.call("snesl_evaluation.specs.Eval", "program_value", self.text, tree, environment)


def unless_refused(result):
    """What was answered, where it is no refusal."""
    if result.tag == "Err":
        raise Refused(result.given[0])
    return result.given[0]


class NotTheSame(Exception):
    """An environment whose tokens are not those that were read."""


class InputReader:
    def __init__(self, definitions, decide, dialect, text):
        self.call, self.decide, self.dialect, self.text, self.found = definitions.call, decide, dialect, tuple(text), []
        limit = self.call("snesl_values.specs.Inputs", "greatest_input_length")
        if len(self.text) > limit:
            raise refusal("BadInput", limit)
        self.advance(0)

    def advance(self, at):
        """Looks at the token that comes next from an offset on."""
        self.end = self.call("snesl_values.specs.InputTokens", "next_at", self.text, at)
        lexeme = self.call("snesl_values.specs.InputTokens", "next_lexeme", self.text, at)
        self.token, self.length = lexeme.given[0] if lexeme.tag == "Some" else (None, 0)

    def take(self):
        self.found.append(self.token)
        self.advance(self.end + self.length)

    def stop(self):
        """Refuses the text at the token."""
        raise refusal("BadInput", self.end)

    def is_sign(self, sign):
        return self.token is not None and self.token.tag == TOKENS + "sign" and self.token.given[0] == ord(sign)

    def sign(self, sign):
        if not self.is_sign(sign):
            self.stop()
        self.take()

    def word(self):
        """The bytes of the token, where it is a word."""
        is_word = self.token is not None and self.token.tag == TOKENS + "word"
        return bytes(plain(self.token.given[0])) if is_word else None

    def value(self, ty):
        name = ty.tag[len(TYPES):]
        return getattr(self, "value_of_" + name)(*ty.given)

    def value_of_int(self):
        """An integer of the dialect: `HasType` says that it is one."""
        if self.token is None or self.token.tag != TOKENS + "integer":
            self.stop()
        number = Built(VALUES + "an_int", (self.token.given[0],))
        if not self.decide(self.call("snesl_data.specs.Values", "HasType", self.dialect, number, Built(TYPES + "int"))):
            self.stop()
        self.take()
        return number

    def value_of_bool(self):
        word = self.word()
        if word not in (b"true", b"false"):
            self.stop()
        self.take()
        return Built(VALUES + "a_bool", (word == b"true",))

    def value_of_pair(self, first, second):
        self.sign("(")
        left = self.value(first)
        self.sign(",")
        right = self.value(second)
        self.sign(")")
        return Built(VALUES + "a_pair", (left, right))

    def value_of_vec(self, item):
        return Built(VALUES + "a_vec", (self.items("[", item, "]"),))

    def value_of_seq(self, item):
        return Built(VALUES + "a_seq", (self.items("{", item, "}"),))

    def items(self, opening, item, closing):
        """Items between two signs, with commas between them."""
        self.sign(opening)
        found = []
        while not self.is_sign(closing):
            if found:
                self.sign(",")
            found.append(self.value(item))
        self.sign(closing)
        return self.call("snesl_data.specs.Values", "values_of", tuple(found))

    def environment(self, declarations):
        """The values of the declared inputs, by name."""
        entries = []
        for name, ty in declarations:
            if entries:
                self.sign(";")
            if self.word() != bytes(plain(name)):
                self.stop()
            self.take()
            self.sign("=")
            entries.append((plain(name), self.value(ty)))
        if entries and self.is_sign(";"):
            self.take()
        if self.token is not None:
            self.stop()
        return self.checked(tuple(entries))

    def checked(self, environment):
        """The environment, whose tokens are those that were read, a semicolon at the end aside."""
        tokens = plain(self.call("snesl_values.specs.Inputs", "environment_tokens", environment))
        semicolon = self.call("snesl_values.specs.Spellings", "semicolon")
        if tuple(self.found) not in (tokens, tokens + (semicolon,)):
            raise NotTheSame(environment)
        return environment
