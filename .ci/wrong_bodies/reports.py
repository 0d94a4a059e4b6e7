"""What a check of a crate with edits in it says of the crate's functions."""

import collections
import os
import re

from kit import rt

PLACE = re.compile(r"(?:note: )?(?:\./)?((?:src|proofs|specs)/\S+?):(\d+):\d+: (.*)")
# Where a long line of a report goes on.
FOLD = re.compile(r"\n  (?=\S)")
GOAL = re.compile(r"^error: |it is not proved that|`search` found no proof")
# A goal that no proof file answers, and that the tactics did not prove. Not each says what it is for.
SEARCHED = re.compile(r"(?:it is not proved that .*|`search` found no proof )\(`([^`]+)`\)")
# An answer of a proof file that does not prove its goal. It may be that the edit says the same in another way, which an answer by a term
# does not fit ("the two types differ", "but this has type").
STALE = re.compile(r"error: `([^`]+)`: ")
# A proof file that names what an edit took away, and what cites such a proof (rt tells these apart too).
BY_NAME = re.compile(r"has no field|is not in scope|has no `|\(nearest: |was not admitted")
ENDED = re.compile(r"only=\d+ holes=\d+|logic=(?:not-)?proved.*")


class Report:
    """What a check said.

    `has_ended`: whether the prover came to an end. `unproved` and `fit`: the functions that it says are not proved, and those that are but
    for what holes stand for. `own`: the functions with a goal of their own that is not proved, each with what is said of the first.
    `searched`: the names of those of their goals that no proof file answers. `stale`: the names of those whose answer no longer fits, of
    the functions that have no other goal of their own that is not proved. `by_name`: those whose own proof files name what is gone.
    `unread_cycles`: the cycles of functions whose common proof files do. `elsewhere`: what is said of other goals, as those of lemmas.
    """

    def __init__(self, crate, functions, status, said):
        self.functions, self.status, self.said = functions, status, said
        self.has_ended = status in (0, 1) and bool(ENDED.fullmatch(said.rstrip("\n").split("\n")[-1]))
        lines = dict(re.findall(rf"(?m)^fn {crate.name}::(\S+): (.*)$", said))
        self.unproved = {it for it, text in lines.items() if text.startswith(("not proved", "no proof"))}
        self.fit = {it for it, text in lines.items() if text.startswith(("proved", "no holes", "depends on a hole"))}
        self.own, self.by_name, self.elsewhere, self.unread_loops, self.unread_cycles = {}, {}, [], set(), set()
        self.searched, self.answered = collections.defaultdict(list), set()
        self.stale, others = collections.defaultdict(list), set()
        for line in FOLD.sub(" ", said).split("\n"):
            place = PLACE.match(line)
            if place and GOAL.search(place[3]):
                others |= self.add(line, place[1], int(place[2]), place[3])
        self.own = {name: line for name, line in self.own.items() if name not in self.unread_loops}
        self.stale = {name: goals for name, goals in self.stale.items() if name not in others}

    def add(self, line, file, number, text):
        """Takes in what is said of a goal. The name of its function, where that is not proved for another reason than an answer that no
        longer fits."""
        function, is_code = self.owner(file, number, text), file.startswith("src/")
        is_by_name = not is_code and bool(BY_NAME.search(text))
        if is_by_name:
            last = os.path.basename(os.path.dirname(file))
            self.unread_cycles |= {last[1:]} if last.startswith("+") and "admitted" not in text else set()
            if function is not None and "admitted" not in text:
                self.by_name.setdefault(function.name, line)
                # (a loop whose invariant cannot be read has open goals for that alone)
                self.unread_loops |= {function.name} if file.endswith("/Invariants.antt") else set()
        elif function is None or is_code and not line.startswith("note: "):
            self.elsewhere.append(line)
        else:
            self.own.setdefault(function.name, line)
            goal, stale = SEARCHED.match(text), STALE.match(text) if file.endswith("/Answers.antt") else None
            if goal:
                self.searched[function.name].append(goal[1])
            else:
                self.answered.add(function.name)
            if stale is None:
                return {function.name}
            self.stale[function.name].append(stale[1])
        return set()

    def spoiled_besides(self, name):
        """The goals of a function that need not be searched for, since another one of it is not proved either: an answer of its proof
        files, or one of these goals, a single clause where there is one, which costs less than a record of them."""
        goals = [*dict.fromkeys(self.searched[name])]
        if name in self.answered or not goals:
            return goals
        kept = next((it for it in goals if "-clause-" in it), goals[0])
        return [it for it in goals if it != kept]

    def owner(self, file, number, text):
        """The function whose goal stands in this place. Functions that call one another have their answers in one file, where the name of
        a goal begins with that of its function."""
        if file.startswith("src/"):
            found = [it for it in self.functions if it.file == file and it.first <= number <= it.last]
            return found[-1] if found else None
        folder = os.path.dirname(file)
        above, _, last = folder.rpartition("/")
        if not last.startswith("+"):
            return next((it for it in self.functions if folder == it.proofs), None)
        goal = re.match(r"error: `(\w+)-", text)
        found = [it for it in self.functions if goal and it.cycle == last[1:] and it.name.rpartition("::")[2] == goal[1]]
        # one that calls itself alone has its name on the folder
        found = found or [it for it in self.functions if it.cycle is None and it.proofs == f"{above}/{last[1:]}"]
        return found[0] if len(found) == 1 else None

    def misfits(self):
        """The functions that no hole could stand for."""
        odd = {*re.findall(r"(?m)^(?:\./)?(proofs/\S+)/Proof\.antt(?::\d+:\d+)?: error", self.said)}
        return [it for it in self.functions if it.has_stub and it.proofs in odd]

    def unread(self):
        """The lines that the compiler refuses, by file and number."""
        return {(it[1], int(it[2]) - 1) for it in re.finditer(r"(?m)^(?:\./)?(\S+?):(\d+):\d+: error\[", self.said)}

    def is_bad(self, edit):
        """Whether the crate with this edit could not be compiled or read."""
        is_unread = any(rt.unread(it, edit.texts) for it in self.said.split("\n"))
        return is_unread or self.status == 1 and bool(re.search(r"\berror\[[\w-]+\]", self.said))

    def head(self):
        """What tells most of a check that went wrong."""
        lines = [it for it in self.said.split("\n") if it.strip()]
        return next((it for it in lines if "error" in it), lines[-1] if lines else f"status {self.status}")[:300]
