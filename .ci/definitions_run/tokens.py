"""Lines of a specification as tokens, joined by their indentation."""

import re

TOKEN = re.compile(r'--(?=\s|$).*|"(?:[^"\\]|\\.)*"|[(){},;]|\[\]|\[|\]|[^\s(){},;\[\]"]+')
CLOSERS = (")", "}")
WORD = re.compile(r"[^\s(){},;\[\]\"]")


class FormError(Exception):
    """A form that the reader does not know, with its place."""


class Token(str):
    """A token, which knows the line that it stands in, from 1."""

    __slots__ = ("line",)

    def __new__(cls, text, line):
        token = super().__new__(cls, text)
        token.line = line
        return token


class Line:
    """A line with the lines that go on with it: those that are indented deeper."""

    def __init__(self, indent, tokens):
        self.indent, self.tokens, self.parts, self.number = indent, tokens, [tokens], tokens[0].line


def tokens_of(text, number):
    """The tokens of one line, without its comment."""
    return [Token(piece, number) for piece in TOKEN.findall(text) if not re.match(r"--(\s|$)", piece)]


def lines_of(text):
    """The joined lines of a text, and those that open blocks."""
    lines = []
    open_line = None
    for number, written in enumerate(text.split("\n"), 1):
        tokens = tokens_of(written, number)
        if not tokens:
            continue
        indent = len(written) - len(written.lstrip())
        if open_line is not None and (indent > open_line.indent or tokens[0] in CLOSERS):
            open_line.tokens = open_line.tokens + tokens
            open_line.parts.append(tokens)
            continue
        lines.append(Line(indent, tokens))
        # (deeper lines are a block of their own behind these)
        open_line = None if tokens[0] == "module" or tokens in (["mutual"], ["abbrev", "mutual"]) else lines[-1]
    return lines


def binder_names(tokens, openers=("(", "{", "λ", "let")):
    """The names that tokens bind: `(a b : T)`, `{a : T}`, `λ a b.`, `let a`."""
    names = set()
    for at, token in enumerate(tokens):
        if token in openers:
            names |= names_up_to_colon(tokens[at + 1:], token)
    return names


def names_up_to_colon(tokens, opened):
    """The names after an opening bracket that a colon ends, or after `λ` up to its point, or the one after `let`."""
    names = set()
    for token in tokens:
        if opened == "let":
            return {str(token)}
        if opened == "λ" and (token.endswith(".") or token == "("):
            return names | {str(token).rstrip(".")}
        if token == ":":
            return names
        if not WORD.match(token):
            return set()
        names.add(str(token))
    return set()
