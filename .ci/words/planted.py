"""Plants wrong bodies that tests are there to show, all or those of some names, and looks whether the test of each fails.

Most of them meet their contracts: none can say that threads run side by side, or that a call does not always want memory. Each is a file
crates/CRATE/planted/NAME.edit, written as those of wrong/ are (docs/TESTS.md), with one more line, which names the test that has to fail:

    fails: snesl_run_tests threads::threads_run_side_by_side

First a copy of the tree is tried as it stands, by these tests alone: each has to pass. Then each body is planted in the copy, and
its test has to fail. `rt try --test` builds the tests, with no proof: a processor minute or so for each body, and for each crate
of tests. So this is no part of the gate."""

import collections
import os
import pathlib
import re
import shutil
import subprocess
import sys
import tempfile
import types

from common import CRATES, ROOT, Tally, asked, run
from functions import OF_TESTS, blocks_of, is_function, tokens_of, words_of
from kit import rt

# A test is given so many seconds. What never ends shows nothing, as on a busy machine.
SECONDS = 240
FAILS = re.compile(r"(?m)^fails: (\w+) (\S+)$")
# What rt try says of a test, and of one that came to no end.
TOLD = r"(?m)^test {name} \.\.\. (\w+)(?:\n +checked: (no-answer))?"


class Planted:
    """A wrong body: its name, the folder of its crate, the texts of its files, the crate of the test that has to fail and its
    name; or why not."""

    def __init__(self, file):
        self.name, self.folder = file.stem, str(file.parent.parent)
        told = FAILS.search(file.read_text(encoding="utf-8"))
        self.tests, self.test = told.groups() if told else (None, None)
        self.texts, self.why = rt.read_edit(str(file), self.folder)
        self.why = self.why or (None if told else "no line 'fails:' names a test")


class Copy:
    """A copy of the tree without what was made of it."""

    def __init__(self, room):
        self.top = pathlib.Path(room, "tree")
        shutil.copytree(ROOT, self.top, ignore=shutil.ignore_patterns("out", ".git"))

    def plant(self, planted):
        for path, text in planted.texts.items():
            self.place(planted, path).write_text(text, encoding="utf-8")

    def put_back(self, planted):
        for path in planted.texts:
            shutil.copy(pathlib.Path(planted.folder, path), self.place(planted, path))

    def place(self, planted, path):
        return self.top / "crates" / os.path.basename(planted.folder) / path

    def told(self, crate, names):
        """What these tests of a crate come to: 'ok', 'FAILED' or 'no-answer', by name. All other tests are struck out, so that
        none of them is built. Beside it all that rt try said."""
        folder = ROOT / "crates" / crate
        for file, tokens in tokens_of(types.SimpleNamespace(folder=folder)).items():
            (self.top / "crates" / crate / file).write_bytes(with_tests(folder, file, tokens, names))
        how = {"seconds": None, "cwd": self.top / "crates" / crate, "stderr": subprocess.STDOUT}
        ran = run(["rt", "try", "--test", "--seconds", str(SECONDS)], **how)
        said = ran.printed.decode(errors="replace")
        found = {it: re.search(TOLD.format(name=re.escape(it)), said) for it in names}
        return {it: told[2] or told[1] for it, told in found.items() if told}, said


def with_tests(folder, file, tokens, names):
    """The text of a file with the tests of these names alone."""
    module = "::".join(it for it in pathlib.PurePath(file).with_suffix("").parts[1:] if it not in ("lib", "main", "mod"))
    text = (folder / file).read_bytes()
    for _, block, end in sorted(blocks_of(tokens), key=lambda it: -it[2].end):
        words = words_of(block)
        is_test = is_function(block) and OF_TESTS.search(" ".join(words))
        if is_test and f"{module}::{words[words.index('fn') + 1]}" not in names:
            text = text[: block.head[0].begin] + text[end.end :]
    return text


def last_of(said):
    """What tells most of a try in which a test was not run."""
    lines = [it for it in said.split("\n") if it.strip()]
    return next((it for it in lines if "error" in it), lines[-1] if lines else "nothing was said")[:300]


def stand(tally, copy, wanted):
    """Which of these tests pass as the tree stands, by crate."""
    passing = set()
    for crate, names in wanted.items():
        told, said = copy.told(crate, names)
        passing |= {(crate, it) for it in names if told.get(it) == "ok"}
        for name in sorted(it for it in names if told.get(it) != "ok"):
            tally.say(f"{crate} {name} does not pass as the tree stands: {told.get(name) or last_of(said)}")
    return passing


def verdict(copy, planted, passing):
    """What the test comes to of this body."""
    if planted.why or (planted.tests, planted.test) not in passing:
        return planted.why or "it does not pass without it"
    copy.plant(planted)
    told, said = copy.told(planted.tests, {planted.test})
    copy.put_back(planted)
    return told.get(planted.test) or f"not run: {last_of(said)}"


def main():
    names, tally = asked(__doc__, "NAME").rest, Tally("planted")
    found = {it.stem: Planted(it) for it in sorted(CRATES.glob("*/planted/*.edit"))}
    if {*names} - found.keys():
        sys.exit(f"planted: there is no {' '.join(sorted({*names} - found.keys()))}")
    chosen, wanted = [found[it] for it in names or found], collections.defaultdict(set)
    for it in chosen:
        if not it.why:
            wanted[it.tests].add(it.test)
    with tempfile.TemporaryDirectory(prefix="planted-") as room:
        copy = Copy(room)
        passing = stand(tally, copy, wanted)
        for it in chosen:
            ended = verdict(copy, it, passing)
            tally.that(ended == "FAILED", f"{it.name}: NOT SHOWN by {it.test}: {ended}")
            if ended == "FAILED":
                tally.say(f"{it.name}: shown by {it.test}")
    return tally.end() or int(not chosen)
