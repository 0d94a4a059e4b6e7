"""What the words of .ci/dev share: where things stand, the built programs, how they are run, and what is counted."""

import argparse
import collections
import hashlib
import inspect
import os
import pathlib
import re
import shutil
import subprocess
import sys

HERE = pathlib.Path(__file__).resolve().parent
ROOT = HERE.parent
CRATES = ROOT / "crates"
DATA = CRATES / "tool_runs" / "data"
# How a program is called that a compiler builds, LLVM or Rattle's own: crates/NAME/out/NAME with this behind it.
COMPILERS = {"llvm": "", "rattle": ".by-rattle"}
# With which word a program is tried once it is built.
TRIED = {"levuttar": ["run"], "tool_runs": ["plain"]}

# What a command printed and said, and its status, None where it did not end in time.
Ran = collections.namedtuple("Ran", "printed said status")


def asked(text, rest=None, most="*", **options):
    """What the words of the command line say, by the text that helps: options, each beside its default, flags where that is False, texts
    where it is one, and else numbers; and the words besides, which are called `rest` there, so many at most as argparse says."""
    parser = argparse.ArgumentParser(description=inspect.cleandoc(text), formatter_class=argparse.RawDescriptionHelpFormatter)
    for name, default in options.items():
        how = {"type": str if default == "" else int, "default": default, "metavar": "TEXT" if default == "" else "N"}
        how = {"action": "store_true"} if default is False else how
        parser.add_argument(f"--{name}", **how)
    if rest:
        parser.add_argument("rest", nargs=most, metavar=rest)
    return parser.parse_args()


class Tally:
    """Counts what is so, and prints what is not."""

    def __init__(self, name):
        self.name, self.passed, self.failed = name, 0, 0

    def that(self, holds, said):
        """Counts whether something holds; where it does not this is said."""
        self.passed, self.failed = self.passed + bool(holds), self.failed + (not holds)
        if not holds:
            self.say(said)

    def say(self, said):
        print(f"{self.name}: {said}", flush=True)

    def end(self, more=""):
        """Prints the counts, and returns the status: 1 where something failed."""
        self.say(f"{self.passed} passed, {self.failed} failed{more}")
        return int(self.failed > 0)


class Tests(Tally):
    """Counts tests, and prints each."""

    def that(self, what, holds, said=""):
        self.passed, self.failed = self.passed + bool(holds), self.failed + (not holds)
        print(f"{'passed' if holds else 'FAILED'}: {what}", *([said] if not holds and said else []), flush=True)


def run(command, job=b"", seconds=60, **how):
    how = {"stdout": subprocess.PIPE, "stderr": subprocess.PIPE, **how}
    try:
        child = subprocess.run([str(it) for it in command], input=job, timeout=seconds, check=False, **how)
    except subprocess.TimeoutExpired as late:
        return Ran(late.stdout or b"", late.stderr or b"", None)
    return Ran(child.stdout or b"", child.stderr or b"", child.returncode)


def program_of(crate, compiler="llvm"):
    """Where the program of a crate stands as a compiler builds it."""
    return str(CRATES / crate / "out" / (crate + COMPILERS[compiler]))


def build(crate):
    """Builds a program by both compilers, each under a name of its own."""
    folder, program = CRATES / crate, pathlib.Path(program_of(crate))
    for compiler in ("rattle", "llvm"):
        job = (folder / "stdin").read_bytes() if (folder / "stdin").is_file() else b""
        words = ["rt", "run", "--backend", compiler, *(["--", *TRIED[crate]] if crate in TRIED else [])]
        ran = run(words, job, seconds=None, cwd=folder, stderr=subprocess.STDOUT)
        if ran.status:
            last = b"\n".join(ran.printed.split(b"\n")[-20:]).decode(errors="replace")
            sys.exit(f"{last}\nprograms: {crate} was not built by {compiler}")
        if compiler == "rattle":
            shutil.copy(program, f"{program}.new")
    os.rename(f"{program}.new", program_of(crate, "rattle"))
    # (a build that was up to date is not written again)
    for compiler in COMPILERS:
        os.utime(program_of(crate, compiler))


def built(*crates):
    """Sees that these programs stand as both compilers build them, and returns their places by compiler and crate. The gate
    leaves them there. Where one is missing, or older than a file that it is made from, both are built."""
    files = [ROOT / "crates.txt"]
    for folder, folders, names in os.walk(CRATES):
        folders[:] = [it for it in folders if it != "out"]
        files += [pathlib.Path(folder, it) for it in names]
    newest = max(it.lstat().st_mtime_ns for it in files)
    for crate in crates:
        places = [pathlib.Path(program_of(crate, it)) for it in COMPILERS]
        if not all(it.is_file() and it.stat().st_mtime_ns >= newest for it in places):
            build(crate)
    return {compiler: {crate: program_of(crate, compiler) for crate in crates} for compiler in COMPILERS}


def text_sum(crate):
    """A sum of the code that a crate is built from: its own, that of the crates below it, what crates.txt says of them, and which
    kit builds them. Proofs and definitions are no part of it."""
    text = re.sub(r"#.*", "", (ROOT / "crates.txt").read_text(encoding="utf-8"))
    lines, below, found = {it.split()[0].removesuffix(":"): it for it in text.split("\n") if ":" in it}, [crate], set()
    while below:
        name = below.pop()
        if name in lines and name not in found:
            found.add(name)
            below += lines[name].partition(":")[2].split()
    kit = pathlib.Path(os.path.realpath(shutil.which("rt"))).parent.parent
    files = {str(it.relative_to(ROOT)): it for name in found for it in (CRATES / name / "src").rglob("*.rt")}
    sums = "".join(f"{hashlib.sha256(files[it].read_bytes()).hexdigest()}  {it}\n" for it in sorted(files))
    said = "".join(f"{lines[name]}\n" for name in lines if name in found)
    return hashlib.sha256((kit / "KIT-ID").read_bytes() + f"{said}{sums}".encode()).hexdigest()[:16]


def unproved(crate, *words):
    """Where a program stands that is built without proofs (.ci/unproved)."""
    said = subprocess.run([HERE / "unproved", *words, crate], stdout=subprocess.PIPE, text=True, check=True).stdout
    return said.splitlines()[-1]


def table(*rows):
    """The lines of a table of a page, of which the first row is its head."""
    lines = [f"| {' | '.join(map(str, row))} |" for row in rows]
    return "\n".join([lines[0], "|---" * len(rows[0]) + "|", *lines[1:]])


def clauses_in(text):
    """Each clause of a source: its name, or `requires` or `ensures` where it has none, and where it begins and ends."""
    for found in re.finditer(r"(?m)^[ \t]*(requires|ensures)\*?(?: (\w+))? ?\{", text):
        end, depth = found.end(), 1
        while depth and end < len(text):
            depth += {"{": 1, "}": -1}.get(text[end], 0)
            end += 1
        yield found[2] or found[1], found.start(), end
