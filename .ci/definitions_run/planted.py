"""Planted mistakes that `.ci/dev definitions` has to tell: a form or name that is not known, a list with other names, and a stale page."""

import os
import tempfile

from .modules import read_modules
from .headline import BEGIN
from .program import Program
from .tokens import FormError

HEAD = "-- A planted module.\nuse Rattle.std.specs.Prelude.{ℕ, suc}\n\n"
SIGNATURE = "abbrev pub planted : ℕ → ℕ\n"
# Each case: the lines after the head, and what is said, after the file's name.
FORMS = [
    (SIGNATURE + "planted n = n\n", None),
    ("module _ {n : ℕ} where\n  " + SIGNATURE + "  planted m = n\n", None),
    (SIGNATURE + "other n = n\n", ":5: an equation of no name"),
    (SIGNATURE + "planted n\n", ":5: an equation without `=`"),
    (SIGNATURE + "planted n = (n\n", ":5: a term that ends too early"),
    (SIGNATURE + "planted n = n )\n", ":5: what comes after a term"),
    (SIGNATURE + "planted n = unheard n\n", ":5: the name `unheard` is not known"),
]


def said_of(lines):
    """What is said of a module of these lines, or None."""
    with tempfile.TemporaryDirectory() as root:
        folder = os.path.join(root, "crate", "specs")
        os.makedirs(folder)
        with open(os.path.join(folder, "Planted.antt"), "w", encoding="utf-8") as file:
            file.write(HEAD + lines)
        try:
            program = Program(read_modules(root))
            definition = program.definition("crate.specs.Planted", "planted")
            program.compile(definition, *program.target(definition))
        except FormError as error:
            return str(error).partition("Planted.antt")[2]
    return None


def page_failures(pages):
    """The planted mistakes of docs/TRUST.md and README.md that are not told."""
    page, readme = pages.rewritten(BEGIN), pages.number
    cases = [(page, readme, 0), (page, readme.replace(" files", "9 files"), 1), (page.replace(" lines", "9 lines", 1), readme, 1),
             (page.replace("`wrote`", "`write`"), readme, 1), ("", "", 2)]
    wrong = [(text, other) for text, other, count in cases if len(pages.differ(text, other)) != count]
    return [f"planted page of {len(text)} letters and README {other!r}: not told" for text, other in wrong]


def failures(differs):
    """The planted mistakes that are not told. `differs` compares two lists of names."""
    said = []
    for lines, wanted in FORMS:
        got = said_of(lines)
        if (got is None) != (wanted is None) or (wanted and not got.startswith(wanted)):
            said.append(f"planted {lines.splitlines()[-1]!r}: got {got}, where it has to be {wanted}")
    for names, listed, count in ((["a"], ["a"], 0), (["a", "b"], ["a"], 1), (["a"], ["a", "b"], 1), (["a"], ["b"], 2)):
        if len(differs(names, listed)) != count:
            said.append(f"planted lists {names} and {listed} do not differ by {count}")
    return said
