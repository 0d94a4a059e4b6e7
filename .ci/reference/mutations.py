"""Random jobs: programs with their input texts, cut and changed texts, texts near the limits, and words of the command line."""

import re
from dataclasses import dataclass

from .lexer import BUILT_INS, SIGNS
from .programs import NAMES, Maker

PIECE = re.compile(r"[A-Za-z][A-Za-z0-9_]*|[0-9]+|[ \t\r\n]+|==|<=|>=|\+\+|.", re.DOTALL)
WORDS = [*BUILT_INS, *SIGNS, *NAMES, *"input function let in if then else true false not and or int bool dialect f g 0 1 2 3".split()]
# Lines between a program and an input text, and lines that are none.
LINES = ["\n---\n"] * 5 + ["\r\n---\r\n", "\n---\r\n", "\n--- \n", "\n---", "\n----\n", "---\n", "\n---\n---\n"]
# What may stand for a word of the command line.
ODD_WORDS = ["0", "1", "17", "65537", "007", "+1", "-1", "1.0", "", "--", "--help", "f", "1000001", "rings", "--x", "--idle=", "--chunk=8"]
# What may stand around an expression, which is one deeper then.
WRAPPERS = ["({})", "({})", "{{{}}}", "- {}", "not {}", "1 + {}", "{} * 2", "({}, 1)", "{{1, {}}}", "iota({})", "f({}, 1)", "let x = 1 in {}"]
WRAPPERS += ["{{{} | true}}", "{{{} : x in {{1}}}}", "{{x : x in {}}}", "{{x : x in {{1}} | {}}}", "if true then {} else 1", "if {} then 1 else 1"]
WRAPPERS += ["{} ! 0", "{} and true", "{} == 1", "{{1}} ++ {}", "1 ! {}", "let x = {} in 1", "{}, 2"]


@dataclass
class Job:
    """A job, with a character for each byte, and words of the command line."""

    text: str
    words: tuple = ()

    def bytes(self):
        return self.text.encode("latin-1")


def changed(dice, text):
    """A text with one change: a piece left out, doubled, exchanged or put in, a byte changed, or a cut."""
    pieces = PIECE.findall(text) or [""]
    place, way = dice.randrange(len(pieces)), dice.randrange(8)
    if way == 0:
        del pieces[place]
    elif way == 1:
        pieces.insert(place, pieces[dice.randrange(len(pieces))])
    elif way == 2:
        pieces[place] = dice.choice(WORDS)
    elif way == 3:
        pieces.insert(place, f" {dice.choice(WORDS)} ")
    elif way == 4:
        end = place + dice.randint(1, 6)
        pieces[place:end] = pieces[place:end][::-1]
    elif way == 5:
        return text[: dice.randint(0, len(text))]
    elif way == 6:
        byte = dice.randint(0, len(text))
        return text[:byte] + chr(dice.choice([*range(256), 9, 10, 13, 32, 45, 45])) + text[byte + dice.randint(0, 1):]
    else:
        del pieces[place: place + dice.randint(2, 12)]
    return "".join(pieces)


def spaced(dice, text):
    """A text with other blanks."""
    return re.sub(" ", lambda _: dice.choice([" ", " ", "\n", "\t", "  ", "\r\n"]), text)


def joined(dice, program, given, is_plain):
    """A job of a program and an input text, with a plain line between them, or another one."""
    if not given:
        return program
    line = "\n---\n" if is_plain else dice.choice(LINES)
    return program + line + given


def deep(dice):
    """A text about as deep as it may be, whole or cut or changed."""
    text, count = dice.choice(["1", "1", "true", "{1}", "x", "f(1)", "iota(2)", "(", ""]), dice.choice([61, 62, 63, 63, 64, 65, dice.randint(1, 80)])
    some = dice.sample(WRAPPERS, dice.randint(1, 3))
    for _ in range(count):
        text = dice.choice(some).format(text, "")
    for _ in range(dice.choice([0, 0, 1, 1, 2])):
        text = changed(dice, text)
    return text


def deep_type(dice):
    """A program with a type about as deep or as big as it may be."""
    found, count = dice.choice(["int", "bool", "(int,bool)", "(int,", "x"]), dice.choice([*range(60, 67), dice.randint(0, 70)])
    some = dice.sample(["{{{}}}", "[{}]", "({},int)", "(bool,{})", "([int],{})"], dice.randint(1, 3))
    for _ in range(count):
        found = dice.choice(some).format(found)
    if dice.random() < 0.5:
        found = dice.choice(["int", "int", "[int]", "(int,bool)"])
        for _ in range(dice.choice([5, 6, 7, 7])):
            found = f"({found},{found})"
        for _ in range(dice.randint(0, 3)):
            found = dice.choice(["{{{}}}", "[{}]", "({},int)"]).format(found)
    text = dice.choice(["input x : {}; 1 + true", "function f(x : {}) : int = 1; 2", "function f(x : int) : {} = y; 1"]).format(found)
    return changed(dice, text) if dice.random() < 0.4 else text


def many(dice):
    """A program with about as many declarations, binders or forms as it may have."""
    way, count = dice.randrange(4), dice.choice([63, 64, 65])
    end = dice.choice(["1", "1 + y", "f1(1)"])
    if way == 0:
        return "".join(f"function f{it}(x : int) : int = x;" for it in range(count)) + end
    if way == 1:
        return "".join(f"input x{it} : int;" for it in range(count)) + end + "\n---\n" + "; ".join(f"x{it} = {it}" for it in range(count))
    if way == 2:
        binders = [f"x{it} in {dice.choice(['iota(1)', 'iota(1)', '{7}'])}" for it in range(dice.choice([7, 8, 9]))]
        return f"{{x{dice.randrange(9)} : {'; '.join(binders)}{dice.choice(['', ' | true', ' | x1', ';'])}}}"
    body, text = dice.choice(["let y = {0}(x) in {0}(x)", "{0}(x) + {0}(x)"]), "function f0(x : int) : int = let y = x in x;"
    for it in range(1, dice.choice([11, 12, 13])):
        text += f"function f{it}(x : int) : int = {body.format(f'f{it - 1}')};"
    return text + " + ".join([f"f{it}(1)"] * dice.randint(3, 5) + ["1"] * dice.randint(0, 4) + ["(1)"] * dice.randint(0, 2))


def options(dice, drive=None, capacity=None):
    """Lawful words of the command line."""
    threads = dice.choice([1, 2, 2, 3, 4, 16])
    chosen = {
        "drive": drive or dice.choice(["serial", "rounds", "rings"]),
        "capacity": capacity or dice.choice([1, 2, 3, 4, 6, 8, 256, 65_536]),
        "chunk": dice.choice([1, 2, 16, 1024]),
        "threads": threads,
        # More idle turns make rounds long where other work keeps the processors.
        "idle": dice.choice([1, 2, 16, 64]),
        "deal": "".join("%x" % dice.randrange(threads) for _ in range(dice.randint(1, 12))),
    }
    words = []
    for name, value in chosen.items():
        words += [f"--{name}={value}"] if dice.random() < 0.2 else [f"--{name}", str(value)]
    return tuple(words)


def changed_options(dice):
    """Words of the command line that may say no lawful configuration."""
    words = list(options(dice)[: dice.choice([2, 4, 12])])
    for _ in range(dice.randint(1, 2)):
        place, way = dice.randrange(len(words)), dice.randrange(5)
        if way == 0:
            del words[place]
            words = words or ["--"]
        elif way == 1:
            words.insert(place, dice.choice(words))
        elif way == 2:
            words[place] = dice.choice(ODD_WORDS)
        elif way == 3:
            words.append("--")
        else:
            words[place] = words[place] + dice.choice(["0", "=", " ", "f", "-"])
    return tuple(words)


def random_job(dice):
    """A job, and of which kind it is."""
    kind = dice.choices(["typed", "ill-typed", "small", "changed", "input", "deep", "type", "many", "words"], [42, 10, 15, 13, 9, 6, 2, 1, 2])[0]
    if kind == "deep":
        return kind, Job(deep(dice))
    if kind == "type":
        return kind, Job(deep_type(dice))
    if kind == "many":
        return kind, Job(many(dice))
    wrong, most = {"ill-typed": (3, 40), "small": (25, 4)}.get(kind, (0, 40))
    program, given = Maker(dice, wrong).program(min(most, dice.choice([2, 4, 6, 10, 15, 20, 30, 40])))
    if kind == "changed":
        for _ in range(dice.choice([1, 1, 2, 3])):
            program = changed(dice, program)
    if kind == "input":
        for _ in range(dice.choice([1, 1, 2])):
            given = changed(dice, given or "a = 1")
    text = joined(dice, program, given, kind in ("typed", "ill-typed", "small"))
    return kind, Job(spaced(dice, text) if dice.random() < 0.2 else text, changed_options(dice) if kind == "words" else ())
