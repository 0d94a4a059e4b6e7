"""Builds the programs and the tests without proofs, and runs every test, table, worked row and job of examples/: minutes, where
.ci/run takes an hour. It proves nothing.

Several are built side by side (.ci/unproved), as memory and processors allow. A part that passed leaves a file in .build/test,
named by the sum of all that it reads, and is not run again while that stands, unless by --anew. What a part printed that has
failed stands above its line."""

import dataclasses
import hashlib
import os
import pathlib
import shutil
import subprocess
import sys
import threading
import time
from concurrent.futures import ThreadPoolExecutor

from common import CRATES, DATA, ROOT, Tally, asked, run, text_sum

PASSED = ROOT / ".build" / "test"
# What a build takes of memory, in gigabytes, and how many seconds a test may take.
NEEDED, LIMIT = 2.5, 300


@dataclasses.dataclass
class Part:
    """Some of what is run: its name, what is built for it (a crate, and whether its tests), the files that it reads besides, and
    the command, which is given the places of what was built."""

    name: str
    builds: list
    files: list
    command: object

    def text_sum(self):
        """A sum of all that the part reads."""
        known = [text_sum(crate) for crate, _ in self.builds]
        patterns = [".ci/dev", ".ci/common.py", ".ci/words/test.py", ".ci/unproved", *self.files]
        files = sorted(it for pattern in patterns for it in ROOT.glob(pattern) if it.is_file())
        texts = [(str(it.relative_to(ROOT)), it.read_bytes()) for it in files]
        return hashlib.sha256(repr((self.name, known, texts)).encode()).hexdigest()[:16]


def told(*words):
    """What a command has printed, where it failed, else None."""
    ran = run(words, seconds=None, cwd=ROOT, stderr=subprocess.STDOUT)
    return f"{ran.printed.decode(errors='replace')}\n(status {ran.status})" if ran.status else None


def tests(program):
    return told(pathlib.Path(os.path.realpath(shutil.which("rt"))).with_name("rattle-test"), "--seconds", LIMIT, program)


def compared(command, folder, wanted, job=b""):
    """What a program has printed and said, where it prints something else than it is to."""
    ran = run(command, job, seconds=None, cwd=folder)
    if (ran.printed, ran.status) == (wanted, 0):
        return None
    return f"{(ran.said + ran.printed).decode(errors='replace')}\n(status {ran.status})"


def stored_run(program):
    """Runs a program on its stored input, and compares what it prints with the stored output."""
    folder = next(it for it in pathlib.Path(program).parents if it.parent == CRATES)
    stdin, stdout, words = ((folder / it).read_bytes() if (folder / it).is_file() else b"" for it in ("stdin", "stdout", "args"))
    return compared([program, *words.decode().split()], folder / "data" if (folder / "data").is_dir() else folder, stdout, stdin)


def worked(program):
    """Runs the programs of the worked rows by every drive."""
    return compared([program, "worked"], DATA, (DATA / "worked.answer").read_bytes())


def word(name, *words):
    """A command that runs a word of .ci/dev."""
    return lambda *_: told(".ci/dev", name, *words)


def files_of(*names):
    return [f".ci/words/{it}.py" for it in names]


SNESL, LEVUTTAR, TOOL_RUNS = (("snesl", False), ("levuttar", False), ("tool_runs", False))
SOURCES_OF_WORDS = ["crates/snesl_grammar/src/lexer/**/*", "crates/snesl_syntax/src/expressions/**/*"]
EXAMPLES = ["README.md", "docs/*.md", "examples/**/*", "docs/help/*", "editors/levuttar.bash"]
PARTS = [
    *(Part(f"tests of {it.name}", [(it.name, True)], [], tests) for it in sorted(CRATES.glob("*_tests"))),
    Part("stored run of snesl", [SNESL], ["crates/snesl/std*"], stored_run),
    Part("stored run of levuttar", [LEVUTTAR], ["crates/levuttar/std*", "crates/levuttar/args"], stored_run),
    Part("tables", [TOOL_RUNS], ["crates/tool_runs/*", "crates/tool_runs/data/*"], stored_run),
    Part("worked rows", [TOOL_RUNS], ["crates/tool_runs/data/worked.*"], worked),
    Part("gallery", [SNESL, LEVUTTAR], [*files_of("gallery", "printed"), *EXAMPLES], word("gallery", "--unproved")),
    Part(
        "second reference",
        [SNESL],
        [*files_of("second"), ".ci/reference/*.py", ".ci/definitions_run/*.py", "docs/LANGUAGE.md", "crates/tool_runs/data/*"],
        lambda it: told(".ci/dev", "second", "--jobs", "300", it),
    ),
    Part("quoted callers", [], [*files_of("callers"), "docs/CALLING.md", "crates/*/src/**/*.rt"], word("callers")),
    Part("editors", [], [*files_of("editors"), "editors/**/*", "examples/*.rows", *SOURCES_OF_WORDS], word("editors")),
]


def lanes():
    """How many are built at a time."""
    free = next((it for it in pathlib.Path("/proc/meminfo").read_text().splitlines() if it.startswith("MemAvailable")), "0 0")
    return max(1, min(int(int(free.split()[1]) / 1048576 // NEEDED), len(os.sched_getaffinity(0))))


def built(crate, is_tests):
    """The place of what was built of a crate, and None; or None and what was said."""
    ran = run([".ci/unproved", *["--tests"] * is_tests, crate], seconds=None, cwd=ROOT, stderr=subprocess.STDOUT)
    said = ran.printed.decode(errors="replace")
    return (None, said) if ran.status else (said.splitlines()[-1], None)


def try_part(part, places, said, anew):
    """Runs a part, where it did not pass before, once what it needs is built. Returns whether it passed."""
    kept, begun = PASSED / part.text_sum(), time.monotonic()
    if kept.is_file() and not anew:
        print(f"{part.name}: passed before", flush=True)
        return True
    wanted = [places[it].result() for it in part.builds]
    wrong = next((why for place, why in wanted if place is None), None) or part.command(*(place for place, _ in wanted))
    with said:
        print(f"{wrong}\n" if wrong else "", end="")
        print(f"{part.name}: {'FAILED' if wrong else 'passed'}, {time.monotonic() - begun:.0f} s", flush=True)
    if not wrong:
        PASSED.mkdir(parents=True, exist_ok=True)
        kept.write_text(f"{part.name}\n")
    return not wrong


def main():
    anew, begun = asked(__doc__, anew=False).anew, time.monotonic()
    if not shutil.which("rt"):
        sys.exit("test: the Rattle kit is missing, which builds the programs: there is no command rt in PATH")
    wanted = [it for it in PARTS if anew or not (PASSED / it.text_sum()).is_file()]
    said, tally = threading.Lock(), Tally("test")
    with ThreadPoolExecutor(lanes()) as builders, ThreadPoolExecutor(2) as runners:
        places = {it: builders.submit(built, *it) for it in dict.fromkeys(it for part in wanted for it in part.builds)}
        for part, passed in zip(PARTS, runners.map(lambda it: try_part(it, places, said, anew), PARTS)):
            tally.that(passed, f"{part.name} failed")
    times = os.times()
    print(f"{time.monotonic() - begun:.0f} s by the clock, {times.children_user + times.children_system:.0f} s of processors")
    return tally.end()
