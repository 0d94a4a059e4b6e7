"""Tokens of programs, and the dialect that their first ones name (LANGUAGE.md, "Dialects" and "Tokens")."""

import re
from dataclasses import dataclass

from .values import LEX, TOO_LONG, Refused

MOST_BYTES = 65_536
BUILT_INS = "iota scan_add reduce_add reduce_max reduce_and reduce_or length concat part the tab seq fst snd".split()
RESERVED = set("input function let in if then else true false not and or int bool dialect".split()) | set(BUILT_INS)
SIGNS = ["==", "<=", ">=", "++", *"(){}[]:;,|=<>+-*/%!"]
TOKEN = re.compile(r"(?P<integer>[0-9]+)|(?P<word>[A-Za-z][A-Za-z0-9_]*)|(?P<sign>" + "|".join(map(re.escape, SIGNS)) + ")")
BLANKS = re.compile(r"[ \t\n\r]*")


@dataclass(frozen=True)
class Dialect:
    """A range of integers."""

    bits: int

    @property
    def least(self):
        return -(1 << (self.bits - 1))

    @property
    def greatest(self):
        """The greatest integer, and the greatest literal."""
        return (1 << (self.bits - 1)) - 1

    def has(self, number):
        return self.least <= number <= self.greatest


FIRST, SECOND = Dialect(64), Dialect(128)


@dataclass(frozen=True)
class Token:
    """A token. Its kind is `name`, `integer` or `end`, and of every reserved word and sign its own text."""

    kind: str
    text: str
    offset: int


def kind_of(match):
    if match.lastgroup == "integer":
        return "integer"
    text = match.group()
    return text if match.lastgroup == "sign" or text in RESERVED else "name"


def pieces(text):
    """The tokens of a text up to the first byte that begins none, which then stands as a token `bad`, and at last `end`."""
    place = BLANKS.match(text).end()
    while place < len(text):
        match = TOKEN.match(text, place)
        if not match:
            yield Token("bad", text[place], place)
            return
        yield Token(kind_of(match), match.group(), place)
        place = BLANKS.match(text, match.end()).end()
    yield Token("end", "", len(text))


def dialect_of(tokens):
    """The second dialect where the first tokens say so, else the first."""
    head = tokens[:3]
    says_so = [it.kind for it in head] == ["dialect", "integer", ";"] and number_of(head[1].text) == 2
    return SECOND if says_so else FIRST


def number_of(digits):
    """The number that digits spell. Of more than forty, the zeros before them apart, it is the first forty, which are over any dialect."""
    return int(digits.lstrip("0")[:40] or "0")


def is_over(token, dialect):
    """Whether a token is an integer over the greatest of the dialect."""
    return token.kind == "integer" and number_of(token.text) > dialect.greatest


def tokens_of(text):
    """The dialect and the tokens of a program, of which the last is `end`. Refuses the first bad byte, and what is too long."""
    if len(text) > MOST_BYTES:
        raise Refused(TOO_LONG)
    tokens = list(pieces(text))
    dialect = dialect_of(tokens)
    for token in tokens:
        if token.kind == "bad" or is_over(token, dialect):
            raise Refused(LEX, token.offset)
    return dialect, tokens
