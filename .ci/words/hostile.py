"""Runs random programs under a system that gives less than is asked for (preloaded.py), in both builds of the programs: for a minute, from
the seed that the clock gives, where no word tells.

Job number k of a seed S is that of the seed S + k (`tool_runs job SEED`). It is run undisturbed by one thread, whose answer must be that of
plain evaluation (`tool_runs plain`), a stall or a network that is too big; then under random options by a random drive, which must give the
same; and then some times more under these options:

    growth, start                       one growth of memory is refused, or one start of a thread
    read, write                         one read of standard input or write to standard output fails, and each moves few bytes
    short reads, short writes           each moves few bytes
    empty write                         one write takes no byte, and each takes few

Such a run must give the right answer, or the one refusal that is due to what was refused: 11 for memory, 13 for a start and what it takes,
14 for the reader, and 12 for the writer, which then has exactly what the calls before took. `levuttar run` is given each job too,
undisturbed and while a growth, a read and a write are refused: it prints the same values, has the same statuses, and says the same refusals
in words. All is over at the first answer that is another."""

import os
import random
import subprocess
import tempfile
import time

from common import COMPILERS, Tally, asked, built, program_of
from reference.mutations import options
from words.preloaded import Wrong, compiled, may_answer, over_seeds, run

# A job that takes longer undisturbed is passed over.
LONG = 5
VALUE, REFUSED, FAULT, STALLED = range(4)
TOO_BIG = (b"refused 9\n", b"", REFUSED)
# How levuttar says a refusal of the system, in its first line, beside the number. The last is of the words of its command line.
SENTENCES = {
    b"error: memory was refused": 11,
    b"error: the output could not be written": 12,
    b"error: a thread could not be started": 13,
    b"error: the job could not be read": 14,
    b"error: out of memory": 11,
}
# The kinds of disturbances under which levuttar is tried.
OF_PEOPLE = ("growth", "read", "write")
# Of reads and writes that fail: interrupted, broken, to be tried again, no room, and nobody there.
ERRORS = [4, 5, 11, 28, 32]
BROKEN_PIPE = 32


def calls_for(count, most):
    """How many calls move so many bytes, at most so many each."""
    return -(-count // most)


def disturbances(dice, ample, job):
    """What is refused in the runs of a job, each beside its kind, given how it ran undisturbed."""
    error, most = dice.choice(ERRORS), dice.choice([1, 2, 7, 1000])
    reads, writes = calls_for(len(job), most) + 1, max(1, calls_for(len(ample.printed), most))
    yield "growth", {"GROWTH": dice.randint(1, ample.growths)}
    yield "growth", {"GROWTH": dice.randint(1, ample.growths)}
    if ample.starts:
        yield "start", {"START": dice.randint(1, ample.starts)}
    yield "read", {"READ": dice.randint(1, reads), "READ_MOST": most, "ERROR": error}
    yield "short reads", {"READ_MOST": most}
    yield "write", {"WRITE": dice.randint(1, writes), "WRITE_MOST": most, "ERROR": error}
    yield "empty write", {"EMPTY_WRITE": dice.randint(1, writes), "WRITE_MOST": most}
    yield "short writes", {"WRITE_MOST": most}


def is_right(ran, right, in_threads, refusals):
    """Whether a run ended as it may. A writer that fails has what the calls before took."""
    failing = refusals.get("WRITE", 0) + refusals.get("EMPTY_WRITE", 0)
    if failing and ran.printed != right[0][: (failing - 1) * refusals["WRITE_MOST"]]:
        return False
    if any(kind in refusals for kind in ("READ", "WRITE", "EMPTY_WRITE")) and not ran.refused:
        return False
    return may_answer(ran, right, in_threads)


def evaluation_allows(answer, evaluated):
    """Whether one thread may answer so, by what plain evaluation prints."""
    printed, said, status = answer
    if said or status not in (VALUE, FAULT, STALLED):
        return answer == TOO_BIG
    return {VALUE: printed == evaluated, FAULT: evaluated == b"fault\n", STALLED: printed == b"stalled\n"}[status]


def as_for_scripts(ran, right):
    """What snesl would have answered where levuttar came out so. It says in words, on standard error, what snesl prints of a run
    without a value, and of a refusal of the system."""
    if ran.status == 4:
        number = SENTENCES.get(ran.said.partition(b"\n")[0])
        return ran._replace(said=b"refused %d\n" % number) if number else ran
    if ran.status == right[2] != VALUE and not ran.printed and ran.said.startswith(b"error: "):
        return ran._replace(printed=right[0], said=b"")
    return ran


def tried_for_people(of, dice, right, job):
    """Runs a job by levuttar, undisturbed and under some disturbances, and gives the kind of each run. `of` runs it, and `right`
    is what snesl answers. A writer fails only where there is a value, since nothing else is printed."""
    ample = of()
    if as_for_scripts(ample, right).answer() != right:
        raise Wrong(f"levuttar comes out as {ample}, and the answer is {right}")
    yield "undisturbed, for people"
    for kind, refusals in disturbances(dice, ample, job):
        if kind not in OF_PEOPLE or (kind == "write" and right[2] != VALUE):
            continue
        ran = as_for_scripts(of(**refusals), right)
        if ran.status == 4 and not ran.said and "WRITE" in refusals and refusals["ERROR"] == BROKEN_PIPE:
            # Where nobody reads any more it ends without a word.
            ran = ran._replace(said=b"refused 12\n")
        if not is_right(ran, right, ample.starts > 0, refusals):
            raise Wrong(f"levuttar under {refusals} {ran}, where the right answer is {right}")
        yield f"{kind}, for people"


def tried_for_scripts(of, dice, words, capacity, job, library):
    """Runs a job by snesl, alone, under these options, and under disturbances, and gives the kind of each run, with the right
    answer. `of` runs it. It is passed over where it takes long undisturbed."""
    alone = ["--drive", "serial", "--capacity", str(capacity)]
    right = of(alone, seconds=LONG).answer()
    evaluated = run(program_of("tool_runs"), ["plain"], job, library, seconds=LONG).printed
    ample = of(words, seconds=LONG)
    if not evaluation_allows(right, evaluated):
        raise Wrong(f"one thread answers {right}, and evaluation {evaluated}")
    if ample.answer() != right:
        raise Wrong(f"the answer is {ample}, and that of one thread {right}")
    yield "undisturbed", right
    for kind, refusals in disturbances(dice, ample, job):
        try:
            ran = of(words, **refusals)
        except subprocess.TimeoutExpired:
            raise Wrong(f"no end under {refusals}, where the right answer is {right}") from None
        if not is_right(ran, right, ample.starts > 0, refusals):
            raise Wrong(f"under {refusals} {ran}, where the right answer is {right}")
        yield kind, right


def tried(seed, library):
    """Runs the job of a seed, and gives the kind of each run. An error where one ends otherwise than it is to."""
    dice = random.Random(seed)
    compiler, capacity = dice.choice([*COMPILERS]), dice.choice([*range(1, 9), 256])
    words = options(dice, dice.choice(["serial", "rounds", "rings", "rings"]), capacity)
    job = subprocess.check_output([program_of("tool_runs"), "job", str(seed)])
    if not job:
        return
    by = lambda crate: lambda words, **how: run(program_of(crate, compiler), words, job, library, **how)
    of_people = lambda **refusals: by("levuttar")(["run", *words], seconds=LONG, **refusals)
    try:
        for kind, right in tried_for_scripts(by("snesl"), dice, words, capacity, job, library):
            yield {kind: 1}
        for kind in tried_for_people(of_people, dice, right, job):
            yield {kind: 1}
    except subprocess.TimeoutExpired:
        yield {"passed over for their length": 1}
    except Wrong as wrong:
        raise Wrong(f"by the build of {compiler} under {words}:\n{job.decode()}\n{wrong}") from None


def main():
    wish, tally = asked(__doc__, seconds=60, seed=int(time.time())), Tally("hostile")
    built("snesl", "levuttar", "tool_runs")
    with tempfile.TemporaryDirectory() as folder:
        library = compiled(folder, "hostile")
        counts = over_seeds("hostile", lambda seed: tried(seed, library), wish.seed, wish.seconds, os.cpu_count())
    tally.failed, long = counts.pop("wrong", 0), counts.pop("passed over for their length", 0)
    tally.passed = counts.total()
    tally.failed = tally.failed or int(not counts)
    kinds = ", ".join(f"{count} {kind}" for kind, count in sorted(counts.items()))
    tally.say(f"from seed {wish.seed}: {kinds or 'nothing'}; {long} programs passed over for their length")
    return tally.end()
