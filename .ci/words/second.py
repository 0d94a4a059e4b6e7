"""Compares the built program with a second reference, which was written from docs/LANGUAGE.md alone (.ci/reference).

First the reference answers the rows of crates/tool_runs/data, where a stall and a network that is too big are no matter of that page; then
with the program its examples. Then come random jobs: typed programs with their input texts, ill-typed ones, cut and changed texts, texts
near the limits, and words of the command line. Each is answered by the reference and by a program, each of those that are named in turn, or
of both builds of crates/snesl. A lawful job is run by several drives and capacities. Its value has to be the same. Its fault has to be one
that the network may come to, and the first of them where all edges are wide; where they are small a run may stall. One of N jobs
(--definitions N) is answered by the definitions of specs/ too.

The jobs of a seed are always the same. Without --seconds so many are tried, from one seed; with it as many as the time allows, from the
clock's seed. A job that differs is made smaller and printed."""

import collections
import itertools
import os
import random
import sys
import time
from concurrent.futures import ProcessPoolExecutor

from common import DATA, ROOT, Tally, asked, built
from definitions_run.answers import on_large_stack
from definitions_run.tables import all_rows
from reference.comparison import difference_of, differing_rows, examples_of, run, shrunk
from reference.mutations import Job, random_job
from reference.values import Long

# The seed, where no word tells. After so many jobs that differ a lane ends.
SEED, MOST_DIFFERENCES = 63, 3


def differing_examples(rows, programs):
    """Examples that a program answers otherwise, where they stand, and how."""
    for row, program in itertools.product(rows, programs):
        answered = run(program, Job(row.job.decode("latin-1")), ())
        if answered != (row.fields["prints"], row.fields["status"]):
            yield row.place, f"{program} prints {answered[0]!r} with status {answered[1]}"


def kind_of(answered, expected):
    """What kind of answer a job has."""
    line, status = answered
    if line == "refused 9" and expected.is_open():
        return "a network that is too big"
    if status == 2:
        return "the fault that evaluation meets" if line == expected.line else "another fault"
    return {0: "a value", 3: "stalled"}.get(status, line.partition(" at")[0])


def tried(name, wish, asks_definitions):
    """Of what kind the answer to the job of a name is. Where another differs, what is printed of it, and nothing before it."""
    dice = random.Random(name)
    kind, job = random_job(dice)
    try:
        expected, answered, difference = difference_of(wish.programs, job, dice, asks_definitions)
    except Long:
        return "passed over", None
    if not difference:
        return kind_of(answered, expected), None
    small = shrunk(wish.programs, difference, name, asks_definitions)
    return None, f"second: job {name} ({kind}) differs; made smaller, under {' '.join(small.words)}:\n{small.job.text}\n{small.said}"


def lane(number, lanes, wish):
    """Tries each job of the seed that is one lane's. How many there are of each kind, and how many differ."""
    counts, differing = collections.Counter(), 0
    deadline = time.monotonic() + wish.seconds if wish.seconds else None
    for it in itertools.count(number, lanes) if wish.seconds else range(number, wish.jobs, lanes):
        if differing == MOST_DIFFERENCES or (deadline and time.monotonic() > deadline):
            break
        kind, said = tried(f"{wish.seed}:{it}", wish, it // lanes % wish.definitions == 0)
        if said:
            differing += 1
            print(said, flush=True)
        counts[kind] += said is None
    return counts, differing


def main():
    wish, tally = asked(__doc__, "SNESL", jobs=1000, seconds=None, seed=None, definitions=60), Tally("second")
    sys.setrecursionlimit(1_000_000)
    if wish.seed is None:
        wish.seed = int(time.time()) if wish.seconds else SEED
    wish.programs = wish.rest or [it["snesl"] for it in built("snesl").values()]
    rows, examples = all_rows([DATA]), examples_of(ROOT / "docs/LANGUAGE.md")
    differences = [*differing_rows([*rows, *examples]), *differing_examples(examples, wish.programs)]
    for place, said in differences:
        tally.that(False, f"{place}: {said}")
    tally.say(f"{len(rows)} rows of tables, {len(examples)} examples; {len(differences)} differ")
    lanes, counts = os.cpu_count(), collections.Counter()
    with ProcessPoolExecutor(lanes) as pool:
        # (the definitions need room)
        for its, differing in pool.map(on_large_stack, [lane] * lanes, range(lanes), [lanes] * lanes, [wish] * lanes):
            counts += its
            tally.failed += differing
    passed_over = counts.pop("passed over", 0)
    kinds = ", ".join(f"{count} {kind}" for kind, count in sorted(counts.items()))
    tally.say(f"jobs of seed {wish.seed}: {kinds}; {passed_over} passed over for their length")
    tally.passed = len(rows) + len(examples) - len(differences) + counts.total()
    return tally.end()
