"""Checks that the grammars of editors/ know the words, operators, built-ins and signs of the language, and no others, and that
the problem matcher reads messages.

The lexer's tables have them all, and the parser's the kinds that are operators and built-ins. Each grammar is to read each of
them whole, as what it is: a shorter sign that stands first hides a longer one. The problem matcher is to read the first line of
each message about a file in examples/*.rows, which `printed` compares with what the programs print, and no other line there: no
line of `levuttar check --json` either. The tasks of editors/README.md name it, and commands that docs/help has."""

import json
import re

from common import CRATES, ROOT, Tally, asked

EDITORS = ROOT / "editors"
TEXTMATE, VIM = EDITORS / "snesl.tmLanguage.json", EDITORS / "vim/syntax/snesl.vim"
MATCHER = json.loads((EDITORS / "package.json").read_text(encoding="utf-8"))["contributes"]["problemMatchers"][0]

WORD, OPERATOR, BUILTIN, SIGN = "word", "operator", "built-in", "sign"
# Rules of other scopes and groups, as those of numbers and names, hold no lexeme.
SCOPES = {
    "keyword.operator": OPERATOR,
    "keyword": WORD,
    "storage.type": WORD,
    "constant.language": WORD,
    "support.function": BUILTIN,
    "punctuation": SIGN,
}
GROUPS = dict.fromkeys(["Conditional", "Keyword", "Type", "Boolean"], WORD)
GROUPS |= {"Operator": OPERATOR, "Function": BUILTIN, "Delimiter": SIGN}
# What is behind the words in a rule of the TextMate grammar: no word goes on there.
WORDS_END = ")(?![A-Za-z0-9_])"


def language():
    """What each lexeme of the language is."""
    lexer = (CRATES / "snesl_grammar/src/lexer/lexer.rt").read_text(encoding="utf-8")
    words = re.findall(r'(?m)^ +b"(\w+)" => TokenKind::(\w+),', lexer)
    pairs = re.findall(r"(?m)^ +\(b'(.)', b'(.)'\) => Some\(TokenKind::(\w+)\)", lexer)
    signs = re.findall(r"(?m)^ +b'(.)' => Some\(TokenKind::(\w+)\)", lexer) + [(a + b, kind) for a, b, kind in pairs]
    parser = "".join((CRATES / "snesl_syntax/src/expressions" / it).read_text(encoding="utf-8") for it in ("operands.rt", "closings.rt"))
    families = {kind: BUILTIN for kind in re.findall(r"TokenKind::(\w+) => name_call\(", parser)}
    families |= {kind: OPERATOR for kind in re.findall(r"TokenKind::(\w+) => (?:infix|enter_prefix)\(", parser)}
    return {it: families.get(kind, other) for its, other in ((words, WORD), (signs, SIGN)) for it, kind in its}


def textmate():
    """The rules in the order in which they are tried, each with its lexemes."""
    grammar = json.loads(TEXTMATE.read_text(encoding="utf-8"))
    for include in grammar["patterns"]:
        rule = grammar["repository"][include["include"].removeprefix("#")]
        family = next((it for scope, it in SCOPES.items() if rule.get("name", "").startswith(scope + ".")), None)
        if family:
            body = rule["match"].removeprefix("(?:").removesuffix(WORDS_END)
            yield family, [re.sub(r"\\(.)", r"\1", it) for it in re.split(r"(?<!\\)\|", body)]


def vim():
    """The same of Vim's items: keywords come first, and then the matches, the last of them first."""
    text = VIM.read_text(encoding="utf-8")
    links = dict(re.findall(r"(?m)^highlight default link (\w+) (\w+)$", text))
    for group, words in re.findall(r"(?m)^syntax keyword (\w+) (.+)$", text):
        yield GROUPS[links[group]], words.split()
    for group, body in reversed(re.findall(r'(?m)^syntax match (\w+) "\\V(.+)"$', text)):
        yield GROUPS[links[group]], body.split(r"\|")


def reading(rules, text):
    """What the rules read first in the text: a word whole, of signs the first with which the text begins."""
    for family, lexemes in rules:
        for lexeme in lexemes:
            if text == lexeme or not text.isidentifier() and text.startswith(lexeme):
                return family, lexeme
    return None


def look_at_grammar(tally, path, rules, lexemes):
    """Counts what the rules of a grammar read as what it is, and what they know besides."""
    known = [(family, it) for family, its in rules for it in its]
    for it, family in lexemes.items():
        tally.that(reading(rules, it) == (family, it), f"{path.relative_to(ROOT)} does not read {it} as the {family} that it is")
    wrong = [f"knows {it}, which is no {family}" for family, it in known if lexemes.get(it) != family]
    wrong += [f"has {it} more than once" for it in {it for _, it in known} if [it for _, it in known].count(it) > 1]
    for what in wrong:
        tally.that(False, f"{path.relative_to(ROOT)} {what}")


def look_at_messages(tally):
    """Counts the lines that the programs print by examples/*.rows, and that the problem matcher reads as the messages that they
    are. Other lines count where it reads them."""
    parts = [MATCHER["pattern"][it] for it in ("file", "line", "column", "severity", "message")]
    for line in (it for table in sorted(ROOT.glob("examples/*.rows")) for it in table.read_text(encoding="utf-8").splitlines()):
        place, is_message, message = line.partition(": error: ")
        wanted = [*place.split(":"), "error", message] if is_message else None
        found = re.search(MATCHER["pattern"]["regexp"], line)
        read = found and [found[it] for it in parts]
        if not line.startswith(("$ ", "< ")) and (is_message or read != wanted):
            tally.that(read == wanted, f"the problem matcher reads '{line}' as {read}")


def look_at_tasks(tally):
    """Counts the tasks that the page shows, and that name the problem matcher and a command of the program."""
    shown = re.search(r"(?m)^    \{\n(?:(?:    .*)?\n)*?    \}\n", (EDITORS / "README.md").read_text(encoding="utf-8"))
    commands = re.findall(r"(?m)^  ([a-z]+) ", (ROOT / "docs/help/levuttar.txt").read_text(encoding="utf-8"))
    for task in json.loads(shown[0])["tasks"]:
        program, command, *_ = task["command"].split()
        is_right = (program, task["problemMatcher"]) == ("./levuttar", f"${MATCHER['name']}") and command in commands
        tally.that(is_right, f"the task {task['label']} names no command, or another problem matcher")


def main():
    asked(__doc__)
    tally, lexemes = Tally("editors"), language()
    for path, rules in ((TEXTMATE, list(textmate())), (VIM, list(vim()))):
        look_at_grammar(tally, path, rules, lexemes)
    look_at_messages(tally)
    look_at_tasks(tally)
    return tally.end()
