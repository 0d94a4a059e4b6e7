"""The programs that `bench` and `figures` measure, each as a text over so many elements, which bench/peers has by the same names;
and how a command is measured.

    squares(4)                the text of a program over four elements
    TEXTS["squares"](4)       the same, by its name"""

import collections
import re
import resource
import shutil
import subprocess
import sys
import tempfile
import time

from common import ROOT

PEERS = ROOT / "bench" / "peers"
# How many sums `wide` and `heavy` have, and how many entries a row of `nest` and of `sparse`.
SUMS, ENTRIES, SPARSE_ENTRIES = 8, 8, 4
# How many comprehensions `deep` has, one after another.
DEPTH = 20
# `heavy` raises each element so many times to the power of so many factors, modulo a prime: its powers are within 64 bits.
POWERS, FACTORS, MODULUS = 10, 11, 47
# How many times `row` adds 1 and then multiplies by 3.
PAIRS = 10


def squares(count):
    return f"reduce_add({{x * x : x in iota({count})}})"


def wide(count):
    return " + ".join(f"reduce_add({{x * x + {k} : x in iota({count // SUMS})}})" for k in range(SUMS))


def nest(count):
    return f"reduce_add({{reduce_add({{(j + i) * (j * 3 + 1) : j in iota({ENTRIES})}}) : i in iota({count // ENTRIES})}})"


def deep(count):
    elements = f"iota({count})"
    for _ in range(DEPTH):
        elements = f"{{x + 1 : x in {elements}}}"
    return f"reduce_add({elements})"


def heavy(count):
    power = f"{' * '.join(['x'] * FACTORS)} % {MODULUS}"
    powers = f"{'power(' * POWERS}x % {MODULUS}{')' * POWERS}"
    sums = " + ".join(f"reduce_add({{powers(x + {k}) : x in iota({count // SUMS})}})" for k in range(SUMS))
    return f"function power(x : int) : int = {power};\nfunction powers(x : int) : int = {powers};\n{sums}"


def row(count):
    element = "x"
    for _ in range(PAIRS):
        element = f"({element} + 1) * 3"
    return f"reduce_add({{{element} : x in iota({count})}})"


def sparse(count):
    """A sparse matrix of so many entries times a vector as long as the matrix has rows."""
    rows = count // SPARSE_ENTRIES
    entry = f"(j + 1) * (x ! ((i * 7 + j * 13) % {rows}))"
    return f"let x = tab(iota({rows})) in reduce_add({{reduce_add({{{entry} : j in iota({SPARSE_ENTRIES})}}) : i in iota({rows})}})"


def indices(count):
    return f"let v = tab(iota({count})) in reduce_add({{v ! i : i in iota({count})}})"


MEANS = {
    "squares": "a sum of squares, reduce_add({x * x : x in iota(n)})",
    "wide": "eight sums of squares, each over an eighth of the elements, added up",
    "nest": "a matrix in rows of eight entries times a vector, both computed",
    "deep": "a sum over twenty comprehensions {x + 1 : x in ..}, each over the one before it",
    "heavy": "eight sums, each over an eighth of the elements, of chains of a hundred multiplications",
    "row": "a sum of chains of twenty operators in one comprehension, ((x + 1) * 3 + 1) * 3 ..",
    "sparse": "a matrix in rows of four entries times a vector that `tab` made",
    "indices": "a sum of the elements v ! i of a vector that `tab` made",
}
TEXTS = {text.__name__: text for text in (squares, wide, nest, deep, heavy, row, sparse, indices)}
# Those that read vectors, for which no peer has nodes.
WITH_VECTORS = ["sparse", "indices"]

# What a run takes: the seconds by the clock, and those of the processor.
Spent = collections.namedtuple("Spent", "clock processor")


def build_peers():
    subprocess.run(["cargo", "build", "--release", "--offline", "--quiet"], cwd=PEERS, check=True)


def peer(who, program, count, chunk=256, capacity=4096):
    """The command by which a peer runs a program."""
    return [PEERS / "target/release/peers", who, program, str(count), str(chunk), str(capacity)]


def ended(command, given=b"", statuses=(0, 1)):
    """A command that has ended with one of these statuses: a refusal has status 1, and is an answer. What it reads is a file."""
    with tempfile.TemporaryFile() as stdin:
        stdin.write(given)
        stdin.seek(0)
        ran = subprocess.run([str(it) for it in command], stdin=stdin, capture_output=True, text=True, check=False)
    if ran.returncode not in statuses:
        sys.exit(f"{' '.join(map(str, command))} ended with {ran.returncode}: {ran.stderr[-500:]}")
    return ran


def timed(command, given=b""):
    """The answer of a command, and what it took."""
    spent = lambda: Spent(time.perf_counter(), sum(resource.getrusage(resource.RUSAGE_CHILDREN)[:2]))
    begun, ran, after = spent(), ended(command, given), spent()
    return ran.stdout.strip(), Spent(*(its - first for its, first in zip(after, begun)))


# What counts instructions: `perf` where the machine lets it count, and else valgrind, each with what it says of them.
COUNTERS = {
    "perf": (["perf", "stat", "-x,", "-e", "instructions:u"], r"(?m)^(\d+),.*instructions"),
    "valgrind": (["valgrind", "--tool=callgrind", "--callgrind-out-file=/dev/null"], r"Collected : (\d+)"),
}


def counter():
    """The name of what counts instructions here, or None."""
    return next((it for it in COUNTERS if shutil.which(it) and instructions(it, ["true"])), None)


def instructions(name, command, given=b""):
    """The instructions of a command, or None where they were not counted."""
    before, said = COUNTERS[name]
    found = re.search(said, ended([*before, *command], given, range(-64, 256)).stderr)
    return found and int(found[1])
