"""Writes answers for goals of functions whose search takes long. Functions are named as checks print them below the crate.

`slow` tells which functions spend long on goals. A goal without an answer is tried by `search` first, and then by one `grind`
after another. Here each such goal stands in a module of its own, in a copy of the crate, so that its seconds show. Where one
`grind` alone closes it much sooner, an answer that says so goes into the function's Answers.antt. `rt tidy` lays the file out.
After that `.ci/wrong CRATE` must still refuse each wrong body: an answer tries less than the search did.

It takes five checks of these functions. Functions of a cycle have their answers elsewhere, and are not looked at."""

import pathlib
import re
import shutil
import sys
import tempfile

from common import asked
from functions import Code
from trials import copy_parts, leave_out_proof
from words.proving import check, crates_here, crates_named, kept_modules

# What the prover tries of a goal without an answer, and what an answer may say in its place.
SEARCH = (
    "first_of (search rules, grind (arith, common_steps) steps 2000000, grind (arith, elements) steps 2000000, "
    "grind (arith, common_steps) steps 4000000)"
)
TACTICS = ["grind (arith, common_steps)", "grind (arith, elements)", "grind (arith, common_steps) steps 4000000"]
MODULES = dict.fromkeys(["common_steps", "elements"], "Rattle.std.proofs.lemmas.Grind") | {"arith": "Rattle.std.proofs.Common"}
# The least seconds of a goal that is looked at, and the least that an answer is to save.
SLOW, WORTH = 0.6, 0.4
OFFERED = re.compile(r"(?m)^pub (\S+) : goal\.\S+\n(\S+) ([^=?\n]*\S) = \?$")


class Goals:
    """The goals of a function that have no answer: the variables of each, the answers of the others, and what all of them import."""

    def __init__(self, crate, function, room):
        self.function, self.name = function, f"Rattle.{crate.name}.proofs.{function.name.replace('::', '.')}"
        self.file = pathlib.Path(function.proofs, "Answers.antt")
        kept = pathlib.Path(crate.folder, self.file)
        self.answers = kept.read_text(encoding="utf-8") if kept.is_file() else f"use {self.name}.Goals as goal\n"
        offered = room / "offered" / f"Rattle-{crate.name}-proofs" / function.name.replace("::", "/") / "AnswersOffered.antt"
        text = offered.read_text(encoding="utf-8") if offered.is_file() else ""
        self.imports = text.partition("\n-- ")[0]
        found = {goal: variables for goal, same, variables in OFFERED.findall(text) if goal == same}
        self.variables = {it: found[it] for it in found if not re.search(rf"(?m)^pub {re.escape(it)} :", self.answers)}

    def lay_out(self, copy, said):
        """Gives each goal a module of its own, which says of it what is given, or nothing."""
        folder = copy / self.file.with_suffix("")
        folder.mkdir(parents=True, exist_ok=True)
        uses, answers = [], []
        for number, goal in enumerate(self.variables):
            own = f"\npub {goal} : goal.{goal}\n{goal} {self.variables[goal]} = {said.get((self, goal), '?')}\n"
            lemmas = "use Rattle.std.proofs.lemmas.Grind.{common_steps, elements}\nuse Rattle.std.proofs.Common.{arith}\n"
            (folder / f"G{number}.antt").write_text(f"{self.imports}\n{lemmas}{own}", encoding="utf-8")
            uses.append(f"use {self.name}.Answers.G{number} as g{number}\nmod G{number}\n")
            answers.append(f"\npub {goal} : goal.{goal}\n{goal} = g{number}.{goal}\n")
        (copy / self.file).write_text(with_imports(self.answers, "".join(uses)) + "".join(answers), encoding="utf-8")

    def write(self, crate, said):
        """Writes these answers of goals into the function's own file."""
        text = self.answers
        for word in sorted({word for it in said.values() for word in MODULES if re.search(rf"\b{word}\b", it)}):
            text = with_import(text, MODULES[word], word)
        text += "".join(f"\npub {it} : goal.{it}\n{it} {self.variables[it]} = {said[it]}\n" for it in said)
        file = pathlib.Path(crate.folder, self.file)
        file.parent.mkdir(parents=True, exist_ok=True)
        file.write_text(text, encoding="utf-8")


def with_imports(text, uses):
    """The text with further imports behind its own, each of which may take several lines."""
    end = max((it.end() for it in re.finditer(r"(?m)^use [^\n]*\n(?:[ }][^\n]*\n)*", text)), default=0)
    return text[:end] + uses + text[end:]


def with_import(text, module, word):
    found = re.search(rf"(?m)^use {re.escape(module)}\.{{([^}}]*)}}", text)
    if not found:
        return f"use {module}.{{{word}}}\n{text}"
    has = re.search(rf"(?<![\w.]){word}(?![\w.])", found[1])
    return text if has else f"{text[: found.start(1)]}{word}, {text[found.start(1) :]}"


class Looks:
    """Checks of some functions of a crate, in a copy of it where holes stand for the proofs of the others."""

    def __init__(self, crate, functions, names, room):
        self.crate, self.names, self.room, self.copy = crate, names, room, room / "copy"
        copy_parts(crate, self.copy)
        for function in functions:
            if function.has_stub and function.name not in names:
                leave_out_proof(crate, function, self.copy)

    def check(self, kept, *words):
        return check(self.crate, self.room / kept, *words, folder=self.copy).stdout

    def offer(self):
        """Has the prover write all goals of the functions into the folder `offered`."""
        said = self.check("first", *(word for it in self.names for word in ("--start", it)), "--generated", str(self.room / "offered"))
        if not (self.room / "offered").is_dir():
            sys.exit(f"{said[-2000:]}\nanswers: no goals were offered")

    def seconds(self, goals, said):
        """The seconds of each goal of which something is said, where it is proved so."""
        for its in goals:
            its.lay_out(self.copy, said)
        shutil.rmtree(self.room / "kept", ignore_errors=True)
        told = self.check("kept", *(word for it in self.names for word in ("--only", it)), "--allow-holes")
        numbered = [(its, goal, f"G{number}") for its in goals for number, goal in enumerate(its.variables)]
        places = {f"{its.file.with_suffix('')}/{number}": (its, goal) for its, goal, number in numbered}
        modules = {f"{its.name}.Answers.{number}": (its, goal) for its, goal, number in numbered}
        failed = {places.get(it) for it in re.findall(r"(?m)^(?:\./)?(proofs/\S+)\.antt:\d+:\d+: error", told)}
        spent = dict.fromkeys(modules.values(), 0.0)
        for name, seconds in [*kept_modules(self.room / "kept", 0)][1:]:
            module = name.replace("Rattle-", "Rattle.", 1).replace("-proofs.", ".proofs.", 1)
            if module in modules:
                spent[modules[module]] += seconds
        return {it: spent[it] for it in said if it not in failed}


def answers_for(looks, goals):
    """The tactic that closes each goal much sooner than the search does, and the seconds of both."""
    searched = looks.seconds(goals, {(its, goal): SEARCH for its in goals for goal in its.variables})
    slow, found = {it for it in searched if searched[it] >= SLOW}, {}
    for tactic in TACTICS:
        tried = looks.seconds(goals, {it: tactic for it in slow if it not in found})
        found |= {it: (tactic, searched[it], now) for it, now in tried.items() if now < searched[it] - WORTH}
    return found


def main():
    name, *wanted = asked(__doc__, "CRATE FUNCTION", "+").rest
    crate = crates_named(crates_here(), [name], over_libraries=True)[0]
    functions = Code(crate).functions
    chosen = [it for it in functions if it.name in wanted and it.has_stub]
    if not wanted or len(chosen) < len(wanted):
        sys.exit("answers: not all of these are functions outside a cycle, or none is named")
    with tempfile.TemporaryDirectory(prefix="answers-") as room:
        looks = Looks(crate, functions, wanted, pathlib.Path(room))
        looks.offer()
        goals = [Goals(crate, it, pathlib.Path(room)) for it in chosen]
        found = answers_for(looks, goals)
    for its in goals:
        said = {goal: found[its, goal] for goal in its.variables if (its, goal) in found}
        if said:
            its.write(crate, {goal: tactic for goal, (tactic, _, _) in said.items()})
        for goal, (tactic, was, now) in said.items():
            print(f"{its.function.name}: {goal}: {was:.1f} s, {now:.1f} s by {tactic}")
