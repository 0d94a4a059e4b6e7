"""What edits change and which functions they strike, and which of them can be tried in one check."""

import os
import pathlib
import re

from kit import rt

CONSTANT = re.compile(r"\s*(?:pub(?:\([a-z]+\))? )?const (\w+): \w+ = ")


class Edit:
    """An edit of a crate.

    `why` says why it cannot be applied. `lines` are the new lines by file and number. `struck` are the functions that it strikes: those
    whose bodies it changes, or that name the constant it changes, or else those of its lines 'strikes: FUNCTION'. Where nothing tells them
    there are none. It is tried apart unless it changes bodies alone. `besides` are the goals of its line 'besides: GOAL ..': those that it
    spoils too, so that a try of one goal is enough.
    """

    def __init__(self, crate, file, code):
        self.file, self.label = file, f"{crate.name}/{os.path.basename(file)}"
        self.texts, self.why = rt.read_edit(file, crate.folder) if file.endswith(".edit") else (None, "its name does not end in .edit")
        self.lines, self.struck, self.is_apart = {}, [], False
        said = pathlib.Path(file).read_text(encoding="utf-8", errors="replace")
        self.besides = [it for line in re.findall(r"(?m)^besides: (.+)$", said) for it in line.split()]
        is_known = True
        for path, text in (self.texts or {}).items():
            for number, begin, end, was, now in changes(pathlib.Path(crate.folder, path).read_text(encoding="utf-8"), text):
                self.lines[path, number] = now
                struck = code.around(path, begin, end)
                if not struck:
                    struck, self.is_apart = of_constant(code, was, now), True
                is_known = is_known and bool(struck) and all(it.is_plain for it in struck)
                self.struck += [it for it in struck if it not in self.struck]
        if not is_known:
            told = re.findall(r"(?m)^strikes: (\S+)$", said)
            self.struck, self.is_apart = [it for it in code.functions if it.name in told], True
            lacking = {*told} - {it.name for it in self.struck}
            if lacking:
                self.why = self.why or f"'strikes:' names no function with a body: {' '.join(sorted(lacking))}"

    @property
    def names(self):
        return {it.name for it in self.struck}

    @property
    def has_holes(self):
        """Whether holes can stand for goals of the function that it strikes."""
        return not self.is_apart and len(self.struck) == 1 and self.struck[0].has_stub

    @property
    def has_copy(self):
        """Whether it can strike a copy of its function, so that another edit of that function fits into the same check."""
        return not self.is_apart and len(self.struck) == 1 and self.struck[0].has_copy


def write_besides(file, goals):
    """Writes into the file of an edit which goals it spoils besides."""
    text = re.sub(r"(?m)^besides: .*\n", "", pathlib.Path(file).read_text(encoding="utf-8"))
    pathlib.Path(file).write_text(text + (f"besides: {' '.join(goals)}\n" if goals else ""), encoding="utf-8")


def changes(old, new):
    """Each line that differs: its number, the bytes of the old text that are changed, and the line as it was and is."""
    at = 0
    for number, (was, now) in enumerate(zip(old.split("\n"), new.split("\n"), strict=True)):
        if was != now:
            same = len(os.path.commonprefix([was, now]))
            after = len(os.path.commonprefix([was[same:][::-1], now[same:][::-1]]))
            yield number, at + len(was[:same].encode()), at + len(was[: len(was) - after].encode()), was, now
        at += len(was.encode()) + 1


def of_constant(code, was, now):
    """The functions whose bodies name the constant whose value changes in this line, if it is one that only bodies name."""
    constant = CONSTANT.match(was)
    if not constant or was[: constant.end()] != now[: constant.end()]:
        return []
    return code.naming(constant[1])


def batches_of(edits):
    """The edits in as few batches as may be: in each no two strike one function, or all but one of these strike copies of it."""
    made = []
    for edit in sorted(edits, key=lambda it: -len(it.struck)):
        fits = lambda it: not it[1][0].is_apart and (edit.has_copy or not it[0] & edit.names)
        free = None if edit.is_apart else next(filter(fits, made), None)
        if free is None:
            made.append(free := (set(), []))
        free[0].update(edit.names)
        free[1].append(edit)
    return [batch for _, batch in made]
