"""Prints the figures of docs/TIMES.md, of the programs as LLVM builds them: what an element of a sum of squares takes as a
network, beside the same network built by hand and beside the plain evaluation; how much memory a network and an evaluation take;
how long programs take that are as great as they may be; what the longest input texts take of memory and time in one thread; what
an element of a vector takes where it is read by its index, beside plain Rust (bench/peers); and what the drives take beside one
another, on several threads. What is not the program's is done by tool_runs.

    dev figures                     all of it
    dev figures vectors [PROGRAM]   vectors alone, by this program in place of the proved snesl

It needs what counts instructions, perf or valgrind, and GNU time, which tells the memory of a program. All of it takes some
minutes. For vectors it needs cargo, and takes two. Instructions and seconds of an element are those of one run less those of a
shorter one, so that what each run begins with does not count. Seconds are the least of several runs."""

import math
import os
import sys

from common import asked, built, program_of, table
from words import deepest
from words.measured import SPARSE_ENTRIES, build_peers, counter, ended, indices, instructions, peer, sparse, squares, timed

COUNTED = 20_000, 40_000
TIMED = 200_000, 1_200_000
RUNS = 5
FEW, MANY = 1_000, 10_000_000
ELEMENTS = 1_000_000
LONGEST_TEXT, LONGEST_INPUT = 65_536, 16_777_216
# The network built by hand is driven at so many chunks, one after the other.
CHUNKS = 3
# Vectors are read over edges where a visit moves as much as it may at the settings of `levuttar run` and of the table of peers.
FOR_SPEED = ["--drive", "serial", "--chunk", "256", "--capacity", "4096"]
INDICES = 1_000_000
SPARSE = 4_000, 40_000, 400_000
# How long the vectors of a vector of vectors are, and how many elements vectors have whose elements are not scalars.
INNER, NESTED = 4, (1_000, 2_000, 4_000)


def network(drive="serial"):
    return [program_of("snesl"), "--drive", drive]


def plain():
    return [program_of("tool_runs"), "plain"]


def least(command, job, clock="clock", runs=RUNS):
    """The least seconds of some runs of a command."""
    return min(getattr(timed(command, job)[1], clock) for _ in range(runs))


def megabytes(command, job):
    return f"{int(ended(['/usr/bin/time', '-f', '%M', *command], job).stderr.split()[-1]) / 1024:,.1f}"


def elements():
    """What an element takes, at each of the drives that a run makes."""
    by_text = lambda command: lambda count: (command, squares(count).encode())
    by_hand = lambda count: ([program_of("tool_runs"), "graph", str(count)], b"")
    ways = {"network": by_text(network()), "network built by hand": by_hand, "plain evaluation": by_text(plain())}
    counted_by, rows = counter(), []
    for row, run in ways.items():
        beyond = lambda measure, small, great, run=run: (measure(*run(great)) - measure(*run(small))) / (great - small)
        found = [beyond(lambda *it: instructions(counted_by, *it), *COUNTED), beyond(least, *TIMED) * 1e9]
        rows.append([row, *(f"{it / (CHUNKS if run is by_hand else 1):,.0f}" for it in found)])
    print(table(["sum of squares", "instructions an element", "nanoseconds an element"], *rows))


def memory():
    # The sum of so many squares is over 64 bits.
    jobs = [f"dialect 2; {squares(count)}".encode() for count in (FEW, MANY)]
    ways = {"network": network(), "plain evaluation": plain()}
    rows = [[row, *(megabytes(command, job) for job in jobs)] for row, command in ways.items()]
    print("\n" + table(["most memory, MB", f"{FEW:,} elements", f"{MANY:,} elements"], *rows))


def tree():
    """Functions each of which calls the one before it three times: 1,093 calls, of which 729 make four steps."""
    lines = ["function f0(x : int) : int = x * x - x * x + x;"]
    lines += [f"function f{k}(x : int) : int = " + " + ".join([f"f{k - 1}(x)"] * 3) + ";" for k in range(1, 7)]
    return "\n".join([*lines, "f6(1)"]).encode()


def long_text():
    """A program of the greatest length: 64 functions, of which a short one is called."""
    line, call = "function f%02d(x : int) : int = length({%s});\n", "f00(1)"
    short = line % (0, "x")
    room = (LONGEST_TEXT - len(short + call)) // 63 - len(line % (0, ""))
    body = "x" + ",x" * ((room - 1) // 2)
    text = short + "".join(line % (k, body) for k in range(1, 64))
    return (text + " " * (LONGEST_TEXT - len(text + call)) + call).encode()


def long_input(program, front, piece, end):
    """A program before the greatest input text: as many of a piece as fit between these."""
    text = front + piece * ((LONGEST_INPUT - len(front + end)) // len(piece)) + end
    return f"{program}\n---\n{text.ljust(LONGEST_INPUT)}".encode()


SUMS, COUNT = "input xs : {{int}}; reduce_add({reduce_add(x) : x in xs})", "input xs : [int]; length(seq(xs))"
# Sequences of up to 9 numbers.
ROW = ",".join("{" + ",".join(str(7 * k) for k in range(n)) + "}" for n in range(10)) + ","


def great_programs():
    jobs = {
        # 64 functions that call each other in a chain, each a sum of some sixty terms.
        "a chain of 64 calls, some 4,000 nodes": deepest.program("binary_left").encode(),
        "a tree of 1,093 calls, some 3,700 nodes": tree(),
        "a program text of 65,536 bytes": long_text(),
        "an input text of 16,777,216 bytes": long_input(SUMS, "xs = {", ROW, "{}}"),
    }
    ways, rows = [network(), network("rounds"), network("rings"), plain()], []
    for row, job in jobs.items():
        answers = {timed(it, job)[0] for it in ways}
        if len(answers) > 1:
            sys.exit(f"figures: {row}: the answers differ: {answers}")
        rows.append([row, *(f"{least(it, job):.3f}" for it in ways), *answers])
    print("\n" + table(["seconds", "network", "in rounds", "by rings", "plain evaluation", "answer"], *rows))


def inputs():
    """Input texts of the greatest length, each behind its program: a long inner sequence, as many short ones as fit, a long vector."""
    jobs = {
        "one inner sequence of ones": (SUMS, "xs = {{1", ",1", "}}"),
        "one inner sequence of numbers of six digits": (SUMS, "xs = {{1", ",123456", "}}"),
        "inner sequences `{1,2,3}`": (SUMS, "xs = {{1,2,3}", ",{1,2,3}", "}"),
        "one long vector": (COUNT, "xs = [1", ",1", "]"),
    }
    made = ((row, long_input(*parts)) for row, parts in jobs.items())
    rows = [[row, megabytes(network(), job), f"{least(network(), job):.3f}"] for row, job in made]
    print("\n" + table([f"an input text of {LONGEST_INPUT:,} bytes, one thread", "most memory, MB", "seconds"], *rows))


def without_indices(count):
    """The loop of `indices`, of which one element alone is read."""
    return f"let v = tab(iota({count})) in reduce_add({{i : i in iota({count})}}) + v ! 0"


def growth(run, sizes):
    """Of each size the answer, the nanoseconds of an element beyond a run of one element, and the exponent by which the time grows."""
    begun, made, before = least(*run(1), "processor"), [], None
    for count in sizes:
        spent = max(least(*run(count), "processor") - begun, 1e-6)
        grown = math.log(spent / before[1]) / math.log(count / before[0]) if before else None
        made.append((timed(*run(count))[0], spent * 1e9 / count, grown))
        before = count, spent
    return made


def grown(title, unit, made):
    """A row of a table, with the exponents that grow between its sizes."""
    exponents = ", ".join(f"{exponent:.2f}" for _, _, exponent in made if exponent is not None)
    return [f"{title}, nanoseconds {unit}", *(f"{spent:,.1f}" for _, spent, _ in made), exponents]


def agreed(*tables):
    """Ends where two of these answer otherwise."""
    for answers in zip(*([answer for answer, _, _ in made] for made in tables)):
        if len(set(answers)) > 1:
            sys.exit(f"figures: the answers differ: {answers}")


def vectors(program):
    build_peers()
    by_text = lambda make: lambda count: ([program, *FOR_SPEED], make(count).encode())
    head = lambda title, sizes: [title, *(f"{count:,}" for count in sizes), "exponents"]

    def beside_peers(name, make, sizes):
        """What the network takes, and its peers."""
        made = {"network": growth(by_text(make), sizes)}
        for who, said in {"plain": "a loop over a slice", "vectors": "whole vectors"}.items():
            made[said] = growth(lambda count, who=who: (peer(who, name, count), b""), sizes)
        agreed(*made.values())
        return made

    rows = [grown(said, "an entry", made) for said, made in beside_peers("sparse", sparse, SPARSE).items()]
    print("\n" + table(head(f"a sparse matrix of n entries, {SPARSE_ENTRIES} a row, times a vector, n is", SPARSE), *rows))
    made, without = beside_peers("indices", indices, (INDICES,)), growth(by_text(without_indices), (INDICES,))
    agreed(made["network"], without)
    rows = [grown(said, "an index", its) for said, its in {**made, "network, the same loop without `!`": without}.items()]
    rows.append(grown("network, `tab` alone", "an element", growth(by_text(lambda n: f"let v = tab(iota({n})) in v ! 0"), (INDICES,))))
    print("\n" + table(head("indices into a vector that `tab` made, n is", (INDICES,)), *rows))
    name = counter()
    ours, others = ([instructions(name, *by_text(make)(count)) for count in COUNTED] for make in (indices, without_indices))
    few, many = (its - other for its, other in zip(ours, others))
    print(f"\nAn index takes the network {made['network'][0][1] - without[0][1]:,.0f} ns", end=" ")
    print(f"and {(many - few) / (COUNTED[1] - COUNTED[0]):,.0f} instructions beyond the loop.")
    made = {
        "vectors of pairs": lambda n: f"let v = tab({{(i, i + 1) : i in iota({n})}}) in reduce_add({{fst(v ! i) : i in iota({n})}})",
        "vectors of vectors":
            lambda n: f"let v = tab({{tab(iota({INNER})) : i in iota({n})}}) in reduce_add({{(v ! i) ! 1 : i in iota({n})}})",
    }
    rows = [grown(said, "an index", growth(by_text(make), NESTED)) for said, make in made.items()]
    print("\n" + table(head("elements that are not scalars, read by as many indices, n is", NESTED), *rows))


def main():
    words = asked(__doc__, "WORD").rest
    if words[:1] not in ([], ["vectors"]) or len(words) > 2:
        sys.exit(__doc__)
    if words[1:]:
        return vectors(os.path.abspath(words[1]))
    built("snesl", "tool_runs")
    if not words:
        for it in (elements, memory, great_programs, inputs):
            it()
    vectors(program_of("snesl"))
    if not words:
        print(f"\nThe drives, over {ELEMENTS:,} elements:\n")
        print(timed([program_of("tool_runs"), "drives", str(ELEMENTS)])[0])
