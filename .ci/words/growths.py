"""Refuses each growth of memory in turn, in the programs as both compilers build them.

Each job below is run by `snesl` with ample memory, and then once for each of its growths, of which that one is refused (preloaded.py). Such
a run must end in the job's own answer, or in nothing on standard output, `refused 11` on standard error and status 4. Of a job in threads a
growth may be part of a thread's start, which is `refused 13`; over rings its number may belong to another growth in each run. Of a job that
is no worked row and has more than 1,000 growths so many are tried, evenly spread.

Of the worked rows growth n is refused for each n from 1 on, until a run meets no refusal, in one thread and in rounds; over rings for n
from 1 to 200. There `refused 13` is only right where the growth was part of a start: one of the last that the first thread makes before it
starts another, as many as lie between two starts of one round.

The nodes that take memory while they run are driven by `tool_runs nodes`, message by message: a node to which memory is refused goes on as
with ample memory. So are those that share vectors, and none of their calls is refused. `tool_runs inputs` reads an input text with one
inner sequence and with a thousand: the same number of refusals ends the reading as out of memory, and none is refused to a source that was
made. `levuttar` runs, checks, lays out, sizes and draws a job as with ample memory, or prints nothing and says in words, with status 4,
that memory was refused.

--quick tries at most 100 growths of each job, of those in threads 40; and any refusal of a start is right in threads."""

import collections
import itertools
import os
import sys
import tempfile
from concurrent.futures import ThreadPoolExecutor

from common import COMPILERS, ROOT, Tally, asked, built, program_of
from words import deepest
from words.preloaded import A_GROWTH, compiled, may_answer, run

# The words for the drive of one thread, and for those of several.
ALONE = [b"--drive", b"serial"]
THREADED = {drive: [b"--drive", drive.encode(), b"--capacity", b"4"] for drive in ("rounds", "rings")}
# How many threads there are where no word tells (docs/LANGUAGE.md).
THREADS = 2
MOST, MOST_OF_QUICK, MOST_OF_QUICK_IN_THREADS = 1000, 100, 40
# Over rings, where each run has growths of its own, so many are tried of a worked row.
MOST_OVER_RINGS = 200
# The nodes that only share the vectors which they write: they take no memory while they run.
SHARING = {"source", "fork", "dist"}
# What `tool_runs` says where memory is refused to anything but a node: to the words of its command line, and to all else.
NO_MEMORY = b"Error: out of memory\n", b"Error: memory allocation failed\n"
# What `tool_runs inputs` prints: where reading was refused memory, and where it was not. Of how many inner sequences an input
# text is made, and how many messages its three sources write then.
READING_REFUSED = b"read_inputs: out of memory\n"
SOURCES = b"read_inputs: 1, sources: %d messages, calls refused: 0\n"
SEQUENCES = {1: 8, 1000: 4004}

# Each job beside what it prints and its status.
JOBS = {
    "nested": (b"{{iota(y) : y in iota(x)} : x in iota(3)}", b"{{},{{}},{{},{0}}}\n", 0),
    "every form": (
        b"function f(x : int) : int = let y = x * x in if y < 3 then y else -y;"
        b"{(tab({f(a), b}) ! 0, {a | a == b}) : a in iota(3) ++ {4}; b in concat(part({0, 1, 2, 3},"
        b" {false, true, false, false, true, false, true})) | not (a == 1 and b == 1)}",
        b"{(0,{0}),(-4,{2}),(-16,{})}\n",
        0,
    ),
    "reductions": (
        b"(scan_add({2, 1, 3}), (reduce_max(seq(tab(iota(9)))), reduce_or({x > 2 : x in iota(4)})))",
        b"({0,2,3},(8,true))\n",
        0,
    ),
    "input": (
        b"input xs : {{int}}; input v : ([bool], int); ({length(x) : x in xs}, fst(v))\n"
        b"---\nxs = {{},{1,2,3},{4}}; v = ([true,false],-7)\n",
        b"({0,3,1},[true,false])\n",
        0,
    ),
    "forks": (
        b"input xs : {int}; input rows : {{(int, bool)}}; let s = reduce_add(xs) in"
        b" ({(x + s, {fst(e) * x : e in r | snd(e)}) : x in xs; r in rows}, xs ++ xs)\n"
        b"---\nxs = {1,2}; rows = {{(3,true),(4,false)},{(5,true)}}\n",
        b"({(4,{3}),(5,{10})},{1,2,1,2})\n",
        0,
    ),
    "inputs of each shape": (
        b"dialect 2; input a : {{([int], (bool, int))}}; input b : [(int, [bool])]; (a, (b, length(concat(a))))\n"
        b"---\na = {{},{([1,2],(true,170141183460469231731687303715884105727))}}; b = [(1,[]),(2,[true])]\n",
        b"({{},{([1,2],(true,170141183460469231731687303715884105727))}},([(1,[]),(2,[true])],1))\n",
        0,
    ),
    "fault": (b"{1 / (x - 2) : x in iota(4)}", b"fault 1 at 3\n", 2),
    "fault of an index": (b"tab({7, 8}) ! 2", b"fault 8 at 12\n", 2),
    "too long": (b" " * 65_537, b"refused 1\n", 1),
    "bad token": (b"1 # 2", b"refused 2 at 2\n", 1),
    "syntax": (b"1 < 2 < 3", b"refused 3 at 6\n", 1),
    "deep": (b"(" * 64 + b"1" + b")" * 64, b"refused 4\n", 1),
    "name": (b"{y : x in iota(2)}", b"refused 5 at 1\n", 1),
    "mismatch": (b"1 + iota(2)", b"refused 6 at 2\n", 1),
    "streamed": (b"{{reduce_add(x) : y in x} : x in {iota(a) : a in iota(3)}}", b"refused 7 at 13\n", 1),
    "bad input": (b"input n : int; n\n---\nn == 5", b"refused 8 at 3\n", 1),
    "too big": (
        b"".join(b"function f%d(x : int) : int = f%d(f%d(x));" % (k, k - 1, k - 1) for k in range(1, 18)).replace(b"f0", b"-")
        + b"f17(1)",
        b"refused 9\n",
        1,
    ),
}


# What stands on standard error where the words are no settings, and there is memory for them (`printed` compares it).
HELP = b"""snesl reads a job from standard input, and takes options, as `--chunk 256`
(docs/LANGUAGE.md). `levuttar run FILE` runs a file, `levuttar --help` helps.
"""
SUM_FIRST = b"let xs = iota(9) in {reduce_add(xs)} ++ xs"
# Jobs with words on the command line. The first two are refused for them, one of which is no UTF-8; in the others a sum
# is wanted before the numbers are, which wait in an edge, as many as its capacity.
JOBS |= {
    "a word": (b"1", b"refused 10\n", 1, [b"word"]),
    "bytes": (b"1", b"refused 10\n", 1, [b"\xff"]),
    "stall": (SUM_FIRST, b"stalled\n", 3, [*ALONE, b"--capacity", b"4", b"--chunk", b"1"]),
    "no stall": (SUM_FIRST, b"{36,0,1,2,3,4,5,6,7,8}\n", 0, [*ALONE, b"--capacity", b"64"]),
}
# Some jobs in threads as well.
for name, (drive, words) in itertools.product(("nested", "input", "fault", "stall"), THREADED.items()):
    JOBS[f"{name}, by {drive}"] = (*JOBS[name][:3], words)
# Worked rows, each by every drive and with no limit to how many growths are tried: the first over edges of one message, each
# node in a thread of its own, and the last in both of its endings.
TWICE = b"let s = iota(100) in s ++ s"
HUNDRED = b",".join(b"%d" % number for number in range(100))
WORKED = {
    "sum": ((b"reduce_add(iota(5))", b"10\n", 0), b"--capacity 1 --chunk 1 --threads 16 --deal 0123456789abcdef"),
    "sums": ((b"{reduce_add({x + y : y in iota(x)}) : x in iota(4)}", b"{0,1,5,12}\n", 0), b""),
    "part": ((b"part({3,1,4,1,5,9}, {false,false,true,false,true,true,false,false,false,true})", b"{{3,1},{4},{},{1,5,9}}\n", 0), b""),
    "vector": ((b"let v = tab(iota(3)) in {reduce_add(seq(v)) : x in iota(2)}", b"{3,3}\n", 0), b""),
    "twice": ((TWICE, b"{%s,%s}\n" % (HUNDRED, HUNDRED), 0), b""),
    "twice, too small": ((TWICE, b"stalled\n", 3), b"--capacity 4"),
}
for (name, (row, words)), drive in itertools.product(WORKED.items(), ("serial", "rounds", "rings")):
    JOBS[f"{name}, {drive}"] = (*row, [b"--drive", drive.encode(), *words.split()], True)
# Of the deepest programs the one that takes the most stack, and one whose network has about as many nodes as there may be.
for form in ("literal_then_where_source", "binary_left"):
    line = f"{deepest.answer(form)}\n".encode()
    JOBS[form] = (deepest.program(form).encode(), line, int(line.startswith(b"refused")))
# A job: what it prints and its status, its words, and whether all of its growths are tried.
Job = collections.namedtuple("Job", "text line status words is_whole", defaults=[ALONE, False])
JOBS = {name: Job(*it) for name, it in JOBS.items()}


# What `levuttar` is asked for over a job, beside what it prints and how what it says begins, and its status. What `size` prints
# is taken from its run with ample memory.
PRIMES = [(ROOT / "examples" / f"primes.{ending}").read_bytes() for ending in ("snesl", "network")]
UNBOUND = b'{"file":null,"line":1,"column":2,"end":3,"severity":"error","message":"there is no value `y` here","hint":null}\n'
PEOPLE = {
    "run": (ALONE, JOBS["forks"][0], JOBS["forks"][1], b"", 0),
    "run of a fault": (ALONE, JOBS["fault"][0], b"", b"error: ", 2),
    "run of a mismatch": (ALONE, JOBS["mismatch"][0], b"", b"error: ", 1),
    "check": ([], JOBS["forks"][0], b"", b"", 0),
    "check of a mismatch": ([], JOBS["mismatch"][0], b"", b"error: ", 1),
    "check of a name, as an object": ([b"--json"], JOBS["name"][0], UNBOUND, b"", 1),
    "fmt": ([], b"1+  1\n---\n \xff", b"1 + 1\n---\n \xff", b"", 0),
    "fmt of no program": ([], JOBS["syntax"][0], b"", b"error: ", 1),
    "fmt that is to check": ([b"--check"], b"1+1", b"", b"error: ", 1),
    "size": ([], JOBS["nested"][0], None, b"", 0),
    "draw": ([b"--text", b"--traffic", *ALONE], *PRIMES, b"", 0),
}
# How it begins to say that memory was refused: the second where that was to the words of its command line.
OF_MEMORY = b"error: memory was refused\n", b"error: out of memory\n"


def numbers_of(job, count, quick):
    """The numbers of the growths of a job that are refused in turn, where it has so many."""
    count = MOST_OVER_RINGS if job.is_whole and b"rings" in job.words else count
    most = count if job.is_whole else MOST
    if quick:
        most = MOST_OF_QUICK if job.words == ALONE else MOST_OF_QUICK_IN_THREADS
    return range(1, count + 1, max(1, -(-count // max(most, 1))))


def threads_of(words):
    return int(words[words.index(b"--threads") + 1]) if b"--threads" in words else THREADS


def growths_of_a_start(compiler, library):
    """How many growths the first thread makes for a start before it asks the system for the thread: those between two starts of a round."""
    job = JOBS["sum, rounds"]
    before = run(program_of("snesl", compiler), job.words, job.text, library).before_starts[: threads_of(job.words)]
    found = {after - at for at, after in zip(before, before[1:])}
    if len(found) != 1:
        sys.exit(f"growths: built by {compiler}, the starts of one round have growths of these numbers: {found}")
    return found.pop()


def is_of_a_start(ran, ample, words, most):
    """Whether the refused growth, an own one, was among the last so many before a start of a thread, as the run with ample memory has them.

    Over rings there may be more epochs than in that run. So there the growth is looked for behind the last start, between two
    that stand at the same places among the threads of an epoch."""
    own, before, made = ran.refused_own, ample.before_starts, len(ran.before_starts)
    if b"rings" not in words or not made:
        return made < len(before) and before[made] - most < own <= before[made]
    turn = threads_of(words)
    gaps = {after - at for number, (at, after) in enumerate(zip(before, before[1:]), 1) if number % turn == made % turn}
    since = own - ran.before_starts[-1]
    return any(gap - most < since <= gap for gap in gaps)


def tried(tally, compiler, name, library, pool, quick, of_a_start):
    """Counts the runs of a job that end as they must."""
    text, line, status, words, is_whole = JOBS[name]
    answer, job = (line, b"", status), f"{name}, built by {compiler}"

    def of(number):
        ran = run(program_of("snesl", compiler), words, text, library, GROWTH=number)
        return ran._replace(said=ran.said.replace(HELP, b""))

    ample = of(0)
    if ample.answer() != answer or not ample.growths:
        tally.that(False, f"{job}, with ample memory: {ample}")
        return
    in_threads, before = ample.starts > 0, tally.passed + tally.failed
    # Behind the last growth none is refused.
    numbers = [*numbers_of(JOBS[name], ample.growths, quick), ample.growths + 1]
    of_whole = is_whole and not quick
    for number, ran in runs(numbers, pool, of, of_whole and b"rings" not in words):
        comes = number <= ample.growths
        is_due = in_threads and (not of_whole or ran.refused != A_GROWTH or is_of_a_start(ran, ample, words, of_a_start))
        is_right = may_answer(ran, answer, is_due) and (in_threads or bool(ran.refused) == comes)
        tally.that(is_right, f"{job}, growth {number} of {ample.growths} refused: {ran}")
    if of_whole:
        tally.say(f"{job}: {tally.passed + tally.failed - before} growths refused in turn")


def runs(numbers, pool, of, goes_on):
    """The run for each of these growths, and if it goes on for those behind them, until a run meets no refusal."""
    ran = None
    for number, ran in zip(numbers, pool.map(of, numbers)):
        yield number, ran
    while goes_on and ran is not None and ran.refused:
        number += 1
        ran = of(number)
        yield number, ran


def refused_call(ran, ample):
    """The node of which a call was refused, where a growth was: the one whose line says so. None where the growth was of something else,
    which ends the program. It is an error where anything else differs from what the nodes do with ample memory."""
    lines, wanted = (text.decode().splitlines() for text in (ran.printed, ample.printed))
    told = [number for number, line in enumerate(lines) if line != wanted[number]]
    if not told and ran.refused == A_GROWTH and ran.said in NO_MEMORY and ran.status == 1:
        return None
    if len(told) != 1 or ran.status != 0 or lines[told[0]] != wanted[told[0]].replace("refused: 0", "refused: 1"):
        raise ValueError
    return lines[told[0]].partition(":")[0]


def tried_nodes(tally, compiler, library, pool):
    """Counts the calls of nodes to which memory was refused and that left the node as it was."""
    of = lambda number: run(program_of("tool_runs", compiler), [b"nodes"], b"", library, GROWTH=number)
    ample, job = of(0), f"nodes, built by {compiler}"
    refused = {line.partition(":")[0]: 0 for line in ample.printed.decode().splitlines()}
    if not refused:
        tally.that(False, f"{job}: there are none")
    numbers = range(1, ample.growths + 1)
    for number, ran in zip(numbers, pool.map(of, numbers)):
        try:
            node = refused_call(ran, ample)
        except (ValueError, IndexError):
            tally.that(False, f"{job}, growth {number} of {ample.growths} refused: {ran}")
            continue
        if node:
            refused[node] += 1
            tally.passed += 1
    for node, count in refused.items():
        if (count > 0) == (node in SHARING):
            tally.that(False, f"{node}, built by {compiler}: calls that were refused: {count}")
    tally.say(f"{job}, calls that were refused: {', '.join(f'{node} {count}' for node, count in refused.items()) or 'none'}")


def tried_inputs(tally, compiler, library, pool):
    """Counts the runs that end as they must while an input text is read and its sources are made and driven, and whether it takes
    as many growths for few values as for many."""
    program, counts, job = program_of("tool_runs", compiler), [], f"inputs, built by {compiler}"
    for count, messages in SEQUENCES.items():
        of = lambda number: run(program, [b"inputs", b"%d" % count], b"", library, GROWTH=number)
        ample, reading = of(0), 0
        if ample.answer() != (SOURCES % messages, b"", 0) or not ample.growths:
            tally.that(False, f"{job}, {count} sequences, with ample memory: {ample}")
            return
        for number, ran in enumerate(pool.map(of, range(1, ample.growths + 1)), 1):
            is_reading = ran.answer() == (READING_REFUSED, b"", 0)
            is_right = is_reading or (not ran.printed and ran.said in NO_MEMORY and ran.status == 1)
            tally.that(is_right, f"{job}, {count} sequences, growth {number} refused: {ran}")
            reading += is_reading
        counts.append((ample.growths, reading))
    said = "; ".join(f"{count} sequences {made} growths, {read} of them to read" for count, (made, read) in zip(SEQUENCES, counts))
    tally.say(f"{job}: {said}")
    tally.that(len(set(counts)) == 1 and counts[0][1] > 0, f"{job}: these are not the same numbers, or none are to read")


def tried_people(tally, compiler, name, library, pool, quick):
    """Counts the runs of `levuttar` that end as they must."""
    words, text, printed, said, status = PEOPLE[name]
    job = f"levuttar {name}, built by {compiler}"
    of = lambda number: run(program_of("levuttar", compiler), [name.split()[0].encode(), *words], text, library, GROWTH=number)
    ample = of(0)
    printed = ample.printed if printed is None and b"least capacity: " in ample.printed else printed
    is_right = lambda ran: (ran.printed, ran.status) == (printed, status) and ran.said.startswith(said) and bool(ran.said) == bool(said)
    if not is_right(ample) or not ample.growths:
        tally.that(False, f"{job}, with ample memory: {ample}")
        return
    step = max(1, ample.growths // (MOST_OF_QUICK if quick else MOST))
    numbers = range(1, ample.growths + 1, step)
    for number, ran in zip(numbers, pool.map(of, numbers)):
        is_refused = ran.said.startswith(OF_MEMORY) and (ran.printed, ran.status) == (b"", 4)
        tally.that(ran.refused and (is_refused or is_right(ran)), f"{job}, growth {number} of {ample.growths} refused: {ran}")


def main():
    quick, tally = asked(__doc__, quick=False).quick, Tally("growths")
    built("snesl", "levuttar", "tool_runs")
    with tempfile.TemporaryDirectory() as folder, ThreadPoolExecutor(os.cpu_count()) as pool:
        library = compiled(folder, "hostile")
        of_a_start = {it: 0 if quick else growths_of_a_start(it, library) for it in COMPILERS}
        for compiler, name in itertools.product(COMPILERS, JOBS):
            tried(tally, compiler, name, library, pool, quick, of_a_start[compiler])
        for look, compiler in itertools.product((tried_nodes, tried_inputs), COMPILERS):
            look(tally, compiler, library, pool)
        for compiler, name in itertools.product(COMPILERS, PEOPLE):
            tried_people(tally, compiler, name, library, pool, quick)
    return tally.end()
