"""Input texts (LANGUAGE.md, "Input text")."""

import re

from .values import BAD_INPUT, Refused, Sequence, Vector
from .lexer import BLANKS, number_of

MOST_BYTES = 16_777_216
TOKEN = re.compile(r"(?P<word>[A-Za-z][A-Za-z0-9_]*)|(?P<integer>-?[0-9]+)|(?P<sign>[=;,()\[\]{}])")


def signed(token):
    number = number_of(token.lstrip("-"))
    return -number if token.startswith("-") else number


class Reader:
    """Reads values from a text, in the range of a dialect. Refuses the first token that no lawful text has there."""

    def __init__(self, text, dialect):
        self.text, self.dialect = text, dialect
        self.place, self.kind, self.token = 0, None, None
        self.after(0)

    def after(self, place):
        """Goes on to the token that stands at a place or behind blanks. It is `bad` where none does, and at last `end`."""
        self.place = BLANKS.match(self.text, place).end()
        match = TOKEN.match(self.text, self.place)
        if match:
            self.kind, self.token = match.lastgroup, match.group()
        else:
            self.kind, self.token = ("end", "") if self.place == len(self.text) else ("bad", self.text[self.place])
        if self.kind == "integer" and not self.dialect.has(signed(self.token)):
            self.kind = "bad"

    def fails(self):
        raise Refused(BAD_INPUT, self.place)

    def take(self, kind, *tokens):
        """The token that stands here, which is of this kind, and one of these where some are given."""
        if self.kind != kind or (tokens and self.token not in tokens):
            self.fails()
        token = self.token
        self.after(self.place + len(token))
        return token

    def value(self, found):
        if found.kind == "int":
            return signed(self.take("integer"))
        if found.kind == "bool":
            return self.take("word", "true", "false") == "true"
        if found.kind == "pair":
            self.take("sign", "(")
            first = self.value(found.parts[0])
            self.take("sign", ",")
            second = self.value(found.parts[1])
            self.take("sign", ")")
            return first, second
        opening, closing, kind = ("[", "]", Vector) if found.kind == "vector" else ("{", "}", Sequence)
        self.take("sign", opening)
        elements = kind()
        while self.token != closing:
            elements.append(self.value(found.parts[0]))
            if self.token != closing:
                self.take("sign", ",")
                if self.token == closing:
                    self.fails()
        self.take("sign", closing)
        return elements


def inputs_of(text, declared, dialect):
    """The values that a text gives to the declared inputs, by name."""
    if len(text) > MOST_BYTES:
        raise Refused(BAD_INPUT, MOST_BYTES)
    reader, values = Reader(text, dialect), {}
    for name, found in declared.items():
        if values:
            reader.take("sign", ";")
        reader.take("word", name)
        reader.take("sign", "=")
        values[name] = reader.value(found)
    if values and reader.token == ";":
        reader.take("sign", ";")
    reader.take("end")
    return values
