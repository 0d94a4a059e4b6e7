"""Tries the edits of a crate: many in one check where they strike different functions, of these functions alone."""

import collections
import os
import pathlib
import re
import shutil
import signal
import subprocess
import types

from edits import batches_of
from functions import Code
from kit import LIMITS, rt
from reports import Report

# What a try comes to. The first three pass: a goal that tactics are to prove is not proved; only answers of proof files do not fit; nor do
# the tactics prove the goals without these answers.
REFUSED, BY_ANSWER, WITHOUT_ANSWER = "refused", "refused by an answer", "refused without its answer"
NOT_REFUSED, BAD, BY_NAME, UNSURE = "NOT REFUSED", "BAD EDIT", "ONLY BY A NAME", "NOT TRIED"
PASSED = {REFUSED, BY_ANSWER, WITHOUT_ANSWER}
# `goals` are those of the answers that no longer fit.
Verdict = collections.namedtuple("Verdict", "kind text goals", defaults=[()])
# A proof that is left out. The hole has a goal of its own, since what a goal says is printed, and a statement is long.
STUB = """use Rattle.{crate}.proofs.{path}.Statement as stated

left_out : {{A : Type 2}} → A
left_out = ?

pub {name}_spec : {{M : Type 1}} → stated.statement M
{name}_spec = left_out
"""
# The line that puts a function into a cycle, and that of a goal which a proof file answers.
OF_CYCLE = re.compile(r"\s*#\[cycle\(\w+\)\]")
OF_GOAL = re.compile(r"(?m)^(?:abbrev )?pub (\S+) : goal\.\1$")


def copy_parts(crate, folder):
    """Copies what a check of the crate reads."""
    for part in rt.rtlib.PARTS:
        if os.path.isdir(f"{crate.folder}/{part}"):
            shutil.copytree(f"{crate.folder}/{part}", f"{folder}/{part}")


def leave_out_proof(crate, function, copy):
    """Has a hole stand for the proof of a function in a copy of its crate."""
    folder, name = pathlib.Path(copy, function.proofs), function.name.rpartition("::")[2]
    folder.mkdir(parents=True, exist_ok=True)
    for file in ("Answers.antt", "Invariants.antt"):
        (folder / file).unlink(missing_ok=True)
    text = STUB.format(crate=crate.name, path=function.name.replace("::", "."), name=name)
    (folder / "Proof.antt").write_text(text, encoding="utf-8")


class Trials:
    """The checks of one crate. Where one is not enough, they keep what they checked in a folder of their own."""

    def __init__(self, crate, functions, room):
        self.crate, self.functions, self.copy, self.kept = crate, functions, f"{room}/copy", f"{room}/kept"
        # whether a check keeps what it checked for the next one, which costs a tenth of it
        self.is_kept = False
        # the functions whose proofs no hole can stand for, as a check told
        self.misfits = set()
        self.checks, self.seconds = 0, 0.0
        # the goals that each refused edit spoiled besides the one that refused it
        self.besides = {}
        # the goals whose answers are left out, of each edit that is tried without them
        self.unanswered = {}
        os.makedirs(self.kept)

    def verdicts(self, edits, batches, is_proved):
        """The verdict on each of these edits, which are tried in these batches. Unless the crate is known to be proved without them, a
        check is to show it."""
        made, self.is_kept = {}, len(batches) + (not is_proved) > 1
        if not is_proved:
            report = self.report(Batch([]), {it.name for it in proved_with(edits)})
            unfit = {it: unfit_for(it, report) for it in edits}
            made = {it: Verdict(UNSURE, f"without it this is not proved: {names}: {report.head()}") for it, names in unfit.items() if names}
        for batch in batches:
            made |= self.verdicts_of([it for it in batch if it not in made])
        return made

    def without_answers(self, verdicts):
        """The verdict on each of these edits where the answers that no longer fit it are left out, as the verdicts so far tell them:
        tactics are tried of their goals, and of all others that the edit spoils."""
        self.unanswered |= {it: {*verdict.goals} for it, verdict in verdicts.items()}
        for edit in verdicts:
            edit.besides = []
        made = {}
        for batch in batches_of([*verdicts]):
            made |= self.verdicts_of(batch)
        # (where a proof file cites such an answer, no check tells what the goals come to)
        return {it: made[it] if made[it].kind in PASSED | {NOT_REFUSED} else verdicts[it] for it in verdicts}

    def verdicts_of(self, edits):
        """The verdict on each edit of a batch. Only a check of one edit alone says another than that it is refused."""
        if not edits:
            return {}
        batch = Batch(edits)
        report = self.report(batch, batch.struck)
        if len(edits) == 1:
            verdict = verdict_of(edits[0], report)
            if verdict.kind not in PASSED and edits[0].besides:
                # (it may be that no other goal refuses it)
                edits[0].besides = []
                return self.verdicts_of(edits)
            self.note_besides(batch, [edits[0]] if verdict.kind in PASSED else [], report)
            return {edits[0]: self.weighed(edits[0], verdict, report, batch)}
        found = refused_in(batch, report)
        self.note_besides(batch, found or [], report)
        rest = [it for it in edits if it not in (found or ())]
        # one that does not compile keeps the others from the prover
        unread = [it for it in rest if report.unread() & batch.places[it]]
        if unread:
            parts = [*([it] for it in unread), [it for it in rest if it not in unread]]
        elif found is None:
            parts = [rest[: len(rest) // 2], rest[len(rest) // 2 :]]
        else:
            # (of many goals some may go unreported)
            parts = [rest] if found else [[it] for it in rest]
        made = {it: self.weighed(it, verdict, report, batch) for it, verdict in (found or {}).items()}
        for part in parts:
            made |= self.verdicts_of(part)
        return made

    def weighed(self, edit, verdict, report, batch):
        """The verdict, where answers were left out: a goal that had no such answer refuses the edit by itself."""
        if edit not in self.unanswered or verdict.kind != REFUSED:
            return verdict
        open_goals = {it for name in batch.names_of(edit) for it in report.searched[name]}
        return verdict._replace(kind=REFUSED if open_goals - alike(edit, self.unanswered[edit]) else WITHOUT_ANSWER)

    def note_besides(self, batch, refused, report):
        for edit in refused:
            self.besides[edit] = [goal for name in batch.names_of(edit) for goal in report.spoiled_besides(name)] if edit.has_holes else []

    def report(self, batch, struck):
        """What a check with these edits says of the functions of these names, or of the whole crate where none are given."""
        while True:
            self.lay_out(batch, struck)
            functions = Code(types.SimpleNamespace(folder=self.copy)).functions if struck else self.functions
            words = [*(word for name in sorted(struck) for word in ("--only", name)), "--allow-holes"] if struck else []
            words += ["--incremental", self.kept] if self.is_kept else []
            report = Report(self.crate, functions, *self.check(words))
            self.is_kept = True
            misfits = {it.name for it in report.misfits()} - self.misfits if struck else set()
            if not misfits:
                return report
            self.misfits |= misfits

    def lay_out(self, batch, struck):
        """Makes a copy of the crate with these edits. Where functions are struck, holes stand for the proofs of the others, which do nothing."""
        shutil.rmtree(self.copy, ignore_errors=True)
        copy_parts(self.crate, self.copy)
        hollow = self.hollow(struck | {it.name for it in self.functions if batch.is_in(it)}) if struck else []
        for path in {path for edit in batch.edits for path, _ in edit.lines} | {it.file for it in hollow}:
            text = pathlib.Path(self.copy, path).read_text(encoding="utf-8")
            now = hollowed(text, [it for it in hollow if it.file == path])
            pathlib.Path(self.copy, path).write_text(batch.laid_out(path, text, now), encoding="utf-8")
        for function, name in batch.copied:
            self.copy_proofs(function, name)
        for edit in batch.edits:
            if edit.besides and edit.has_holes:
                self.leave_out(edit.besides, *batch.names_of(edit))
            if edit in self.unanswered:
                self.drop_answers(edit, batch)
        for function in hollow:
            if function.recurs:
                shutil.rmtree(f"{self.copy}/{function.cycle_proofs}", ignore_errors=True)
            leave_out_proof(self.crate, function, self.copy)

    def hollow(self, others):
        """The functions but these for whose proofs a hole can stand. Their bodies are left out, since the prover walks over a body whatever
        its proof. Of those that call one another, all are, or none."""
        cycles = collections.defaultdict(list)
        for function in self.functions:
            cycles[function.cycle_proofs if function.recurs else function.name].append(function)
        fits = lambda it: (it.has_copy if it.recurs else it.has_stub) and it.name not in others | self.misfits
        return [it for its in cycles.values() if all(map(fits, its)) for it in its]

    def leave_out(self, goals, name):
        """Has axioms stand for these goals of a function, so that no tactic is tried on them, and nothing is printed of them."""
        file = pathlib.Path(self.copy, "proofs", name.replace("::", "/"), "Answers.antt")
        file.parent.mkdir(parents=True, exist_ok=True)
        path = f"Rattle.{self.crate.name}.proofs.{name.replace('::', '.')}"
        text = file.read_text(encoding="utf-8") if file.is_file() else f"use {path}.Goals as goal\n"
        file.write_text(text + "".join(f"\naxiom pub {it} : goal.{it}\n" for it in goals), encoding="utf-8")

    def drop_answers(self, edit, batch):
        """Leaves out the answers that no longer fit the edit."""
        goals = alike(edit, self.unanswered[edit])
        folders = [f"proofs/{it.replace('::', '/')}" for it in batch.names_of(edit)]
        folders += [it.cycle_proofs for it in edit.struck if it.recurs and edit not in batch.copies]
        for file in (pathlib.Path(self.copy, it, "Answers.antt") for it in folders):
            if file.is_file():
                parts = file.read_text(encoding="utf-8").split("\n\n")
                kept = [it for it in parts if not ((goal := OF_GOAL.search(it)) and goal[1] in goals)]
                file.write_text("\n\n".join(kept), encoding="utf-8")

    def copy_proofs(self, function, name):
        """Gives a copy of a function, of this name, the proof files of the function, which name themselves by it. Of those of a cycle it
        gets what is said of this function."""
        found = pathlib.Path(self.crate.folder, function.cycle_proofs if function.recurs else function.proofs)
        above = str(pathlib.PurePath(function.proofs).parent).replace("/", ".")
        for file in found.rglob("*.antt"):
            text = file.read_text(encoding="utf-8").replace(f".{above}.{found.name}.", f".{above}.{name}.")
            made = pathlib.Path(self.copy, function.proofs).with_name(name) / file.relative_to(found)
            made.parent.mkdir(parents=True, exist_ok=True)
            made.write_text(said_of(function, text) if function.recurs else text, encoding="utf-8")

    def check(self, words):
        """Runs a check of the copy, once more where it is killed, as for memory, and returns its status and what it said."""
        for _ in range(2):
            status, said = self.run([rt.rtlib.RATTLE, "check", *self.crate.words(["--jobs", "1"], keeps=False), *words])
            if status != -signal.SIGKILL:
                break
        return status, said

    def run(self, words):
        how = {"stdin": subprocess.DEVNULL, "stdout": subprocess.PIPE, "stderr": subprocess.STDOUT}
        with subprocess.Popen([*rt.rtlib.guarded(), *words], cwd=self.copy, **how) as process:
            said = process.stdout.read().decode(errors="replace")
            _, ended, used = os.wait4(process.pid, 0)
            process.returncode = os.waitstatus_to_exitcode(ended)
        self.checks += 1
        self.seconds += used.ru_utime + used.ru_stime
        if os.environ.get("WRONG_LOG"):
            with open(f"{os.environ['WRONG_LOG']}-{self.crate.name}", "a", encoding="utf-8") as it:
                print("==", *words, process.returncode, said, sep="\n", file=it)
        return process.returncode, said


class Batch:
    """Edits that one check tries.

    `copies` are the names of copies of functions, each for an edit whose function another edit strikes. All but one that strike a function
    get one, and where there are several edits, each that strikes a function that calls itself. `controls` are the names of further copies
    of the latter, which have no edit: where such a copy is not proved, that of an edit says nothing. `struck` are the names of the
    functions that the check proves, none for the whole crate. `places` are the lines of each edit by file and number, as they are laid out.
    `shared_cycles` are the cycles of functions that more than one edit strikes themselves.
    """

    def __init__(self, edits):
        self.edits, self.copies, self.controls, self.places = edits, {}, {}, {it: set() for it in edits}
        names = set()
        for edit in edits:
            own, recurs = {it.name for it in edit.struck}, len(edits) > 1 and edit.has_copy and edit.struck[0].recurs
            if recurs or own & names and edit.has_copy:
                self.copies[edit] = f"{edit.struck[0].name.rpartition('::')[2]}_copy{len(self.copies) + 1}"
            if recurs:
                self.controls[edit.struck[0]] = f"{edit.struck[0].name.rpartition('::')[2]}_copy0"
            names |= self.names_of(edit)
        self.struck = names | {beside(*it) for it in self.controls.items()} if all(it.struck for it in edits) else set()
        struck = collections.Counter(it for edit in edits if edit not in self.copies for it in {it.cycle for it in edit.struck})
        self.shared_cycles = {cycle for cycle, number in struck.items() if cycle and number > 1}

    @property
    def copied(self):
        """Each function that has a copy, with the copy's name."""
        return [*((edit.struck[0], name) for edit, name in self.copies.items()), *self.controls.items()]

    def names_of(self, edit):
        """The names of the functions that the edit strikes, as they are laid out."""
        if edit not in self.copies:
            return {it.name for it in edit.struck}
        return {beside(edit.struck[0], self.copies[edit])}

    def is_in(self, function):
        """Whether an edit changes a line of the function itself."""
        lines = [line for edit in self.edits if edit not in self.copies for line in edit.lines]
        return any(file == function.file and function.first <= number + 1 <= function.last for file, number in lines)

    def is_sound(self, edit, report):
        """Whether a copy that the edit strikes would be proved without it, as the copy of the same function that has no edit is."""
        return all(beside(it, name) in report.fit for it, name in self.controls.items() if edit in self.copies and it in edit.struck)

    def laid_out(self, path, text, now):
        """The text of a file as it is now, with these edits. A copy of a function, as it was in this text, stands behind the function."""
        was = text.split("\n")
        rows = [[(it, None)] for it in now.split("\n")]
        for edit in self.edits:
            lines = {number: line for (file, number), line in edit.lines.items() if file == path}
            if edit not in self.copies:
                for number, line in lines.items():
                    rows[number][0] = line, edit
            elif lines:
                function = edit.struck[0]
                own = [(lines.get(it, was[it]), edit if it in lines else None) for it in range(function.first - 1, function.last)]
                rows[function.last - 1] += renamed(own, function.name.rpartition("::")[2], self.copies[edit])
        for function, name in self.controls.items():
            if function.file == path:
                own = [(it, None) for it in was[function.first - 1 : function.last]]
                rows[function.last - 1] += renamed(own, function.name.rpartition("::")[2], name)
        made = [row for its in rows for row in its]
        for number, (_, edit) in enumerate(made):
            if edit is not None:
                self.places[edit].add((path, number))
        return "\n".join(line for line, _ in made)


def beside(function, name):
    """The whole name of a function of this name that stands beside another."""
    return function.name.rpartition("::")[0] + "::" * ("::" in function.name) + name


def renamed(rows, name, now):
    """The lines of a function with this name in place of its own, and in no cycle."""
    rows = [("" if OF_CYCLE.fullmatch(line) else line, edit) for line, edit in rows]
    head = next(number for number, (line, _) in enumerate(rows) if re.search(rf"\bfn {name}\b", line))
    line, edit = rows[head]
    return [*rows[:head], (re.sub(rf"\bfn {name}\b", f"fn {now}", line, count=1), edit), *rows[head + 1 :]]


def hollowed(text, functions):
    """The text of a file in which these functions do nothing and call nothing, on as many lines."""
    code = text.encode()
    for function in sorted(functions, key=lambda it: -it.begin):
        body = code[function.begin : function.end]
        code = code[: function.begin] + b" loop {} " + b"\n" * body.count(b"\n") + code[function.end :]
    lines = code.decode().split("\n")
    for function in functions:
        for number in range(function.first - 1, function.last):
            lines[number] = "" if OF_CYCLE.fullmatch(lines[number]) else lines[number]
    return "\n".join(lines)


def said_of(function, text):
    """What a proof file of a cycle says of this function, as if it called itself no more: it has no measure, its goals are named without
    it, and none is given what the others of the cycle promise."""
    own, kept = function.name.rpartition("::")[2], []
    for part in text.split("\n\n"):
        goal = OF_GOAL.search(part)
        if goal and (goal[1].startswith("decreases-") or function.cycle and not re.match(rf"(?:invariant-)?{own}-", goal[1])):
            continue
        if function.cycle:
            part = re.sub(rf"(goal\.|(?<![\w.-]))(invariant-)?{own}-", lambda it: it[1] + (it[2] or ""), part)
        kept.append(re.sub(rf"(?m)^({re.escape(OF_GOAL.search(part)[1])}) t ", r"\1 ", part) if goal else part)
    return "\n\n".join(kept)


def proved_with(edits):
    """The functions that a check of these edits proves: those that they strike, or none, for the whole crate, where one does not tell."""
    return {it for edit in edits for it in edit.struck} if all(it.struck for it in edits) else set()


def unfit_for(edit, report):
    """The functions that the edit strikes and that are not proved without it."""
    names = [it.name for it in edit.struck if it.name not in report.fit]
    return " ".join(names) or ("" if edit.struck or report.status == 0 else "the crate")


def refused_in(batch, report):
    """The edits of a batch that are refused, or None where the check does not tell its edits apart."""
    struck = {beside(*it) for it in batch.controls.items()}.union(*map(batch.names_of, batch.edits))
    if not report.has_ended or report.elsewhere or {*report.own} - struck or batch.shared_cycles & report.unread_cycles:
        return None
    found = {it: refusal(it, batch.names_of(it), report) for it in batch.edits if batch.is_sound(it, report)}
    return {edit: verdict for edit, verdict in found.items() if verdict}


def alike(edit, goals):
    """These goals of the functions that the edit strikes, by each name that they may have: in a cycle it begins with that of the function."""
    names = [it.name.rpartition("::")[2] for it in edit.struck]
    return {*goals, *(f"{name}-{it}" for name in names for it in goals), *(it.removeprefix(f"{name}-") for name in names for it in goals)}


def refusal(edit, struck, report):
    """The verdict where the functions of these names, which the edit strikes, are not proved; None where they are."""
    goals = goals_of(edit, struck, report)
    stale = [it for it in sorted(struck) if it in report.unproved and it in report.own]
    is_by_answer = bool(stale) and len(goals) == len(stale) and all(it in report.stale for it in stale)
    answers = tuple(goal for it in stale for goal in report.stale[it]) if is_by_answer else ()
    return Verdict(BY_ANSWER if answers else REFUSED, goals[0], answers) if goals else None


def goals_of(edit, struck, report):
    """What is said of the goals that refuse the edit: of the functions of these names, which it strikes and which are not proved, and where
    it strikes more than their bodies also of lemmas."""
    if not struck:
        return [*report.own.values(), *report.elsewhere]
    unproved = [it for it in sorted(struck) if it in report.unproved]
    own = [report.own[it] for it in unproved if it in report.own]
    return own + report.elsewhere if edit.is_apart and unproved else own


def verdict_of(edit, report):
    if report.is_bad(edit):
        return Verdict(BAD, report.head())
    if not report.has_ended:
        at_limit = report.status == 3 and LIMITS.search(report.said)
        why = "it met a limit of the prover, which says nothing of a contract" if at_limit else f"its check ended with status {report.status}"
        return Verdict(UNSURE, f"{why}: {report.head()}")
    refused = refusal(edit, {it.name for it in edit.struck}, report)
    if refused:
        return refused
    named = [line for name, line in report.by_name.items() if not edit.struck or name in {it.name for it in edit.struck}]
    if named:
        return Verdict(BY_NAME, f"only a proof file names what it took away, so no contract refuses it: {named[0]}")
    if {it.name for it in edit.struck} <= report.fit if edit.struck else report.status == 0:
        return Verdict(NOT_REFUSED, "the contract holds with this edit too")
    return Verdict(UNSURE, report.head())
