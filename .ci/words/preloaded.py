"""Runs programs under a library that is preloaded to them: hostile.c, a system that gives less than is asked for, or delays.c.

    library = compiled(folder, "hostile")
    ran = run(program, [b"--drive", b"serial"], b"1 + 2", library, GROWTH=3)

The names of the words behind the library are those of hostile.c without what they begin with."""

import collections
import itertools
import os
import pathlib
import struct
import subprocess
import sys
import tempfile
import threading
import time
from concurrent.futures import ThreadPoolExecutor

HERE = pathlib.Path(__file__).parent
SECONDS = 60
# The counts, `enum word` of hostile.c, with the words behind them for all starts; and what was refused, `enum refused`.
WORDS, ALL_WORDS = struct.Struct("7q"), 65536
A_GROWTH, A_GROWTH_IN_A_START, A_GROWTH_OF_A_WORKER, A_START, A_READ, A_WRITE = (1 << bit for bit in range(6))


class Wrong(Exception):
    """A run that ended otherwise than it is to."""


class Ran(collections.namedtuple("Ran", "printed said status growths starts reads writes refused own_growths refused_own before_starts")):
    """What a program printed and said, and its status; its calls by kind, and what was refused to it.

    Own growths are those of its first thread, but for those made within the start of another. `refused_own` is the number of the
    refused one among them, and `before_starts` has for each start how many of them came before it."""

    def answer(self):
        return self[:3]


def says_refused(number, printed=b""):
    """The answer of a refusal of the system: nothing but a line on standard error, and status 4. Where the writer failed a
    beginning of the line was printed."""
    return printed, b"refused %d\n" % number, 4


def may_answer(ran, right, in_threads):
    """Whether a run gave the right answer, or in its place the refusal that is due to what was refused."""
    no_memory, no_thread = says_refused(11), says_refused(13)
    allowed = {
        0: [right],
        # A growth before the thread is made may be a part of its start, and is then refused as that.
        A_GROWTH: [right, no_memory, no_thread] if in_threads else [right, no_memory],
        A_GROWTH_OF_A_WORKER: [right, no_memory],
        A_GROWTH_IN_A_START: [no_thread],
        A_START: [no_thread],
        A_READ: [says_refused(14)],
        A_WRITE: [says_refused(12, ran.printed)],
    }
    return ran.answer() in allowed[ran.refused] and right[0].startswith(ran.printed)


def compiled(folder, name):
    """The path of a preloaded library, which the kit's C compiler makes of the file of this name."""
    path = os.path.join(folder, f"{name}.so")
    kit = os.path.dirname(subprocess.check_output(["rt", "doc"], text=True).strip())
    compiler = os.path.join(kit, "toolchain", "bin", "clang")
    if not os.access(compiler, os.X_OK):
        sys.exit(f"the kit has no C compiler {compiler}, so nothing was tried")
    words = ["-O1", "-w", "-fno-builtin", "-shared", "-fPIC", "-nostdlib", "-fuse-ld=lld", "-o", path]
    subprocess.run([compiler, *words, HERE / f"{name}.c"], check=True)
    return path


def counted(command, job, library, seconds, room, words):
    """What came of a command under a library with these words, and its counts, for which there is room for so many bytes.

    The job is read from a file: what a read of a pipe gives, and so how often memory grows, is a matter of luck."""
    name = pathlib.Path(library).stem.upper()
    with tempfile.TemporaryFile() as file, tempfile.TemporaryFile() as counts:
        counts.truncate(room)
        file.write(job)
        file.seek(0)
        number = counts.fileno()
        environment = {"LD_PRELOAD": library, f"{name}_COUNTS": str(number), **{f"{name}_{key}": str(its) for key, its in words.items()}}
        how = {"stdin": file, "capture_output": True, "pass_fds": [number], "timeout": seconds}
        return subprocess.run(command, env=environment, check=False, **how), os.pread(number, room, 0)


def run(program, words, job, library, seconds=SECONDS, **refusals):
    """What came of a program with these words, and this job on standard input."""
    child, words = counted([program, *words], job, library, seconds, 8 * ALL_WORDS, refusals)
    counts = WORDS.unpack_from(words)
    before_starts = tuple(it for (it,) in struct.iter_unpack("q", words[WORDS.size : WORDS.size + 8 * counts[1]]))
    return Ran(child.stdout, child.stderr, child.returncode, *counts, before_starts)


def over_seeds(name, tried, first, seconds, lanes):
    """Tries seeds from the first on, by so many lanes, until the time is over or one of them has gone wrong, which is printed.
    What `tried` gives of each is summed up; `wrong` is how many have gone wrong."""
    seeds, stop, deadline = itertools.count(first), threading.Event(), time.monotonic() + seconds
    is_over = lambda: time.monotonic() > deadline or stop.is_set()

    def lane(_):
        counts = collections.Counter()
        while not is_over():
            seed = next(seeds)
            try:
                for it in tried(seed):
                    counts.update(it)
                    if is_over():
                        break
            except Wrong as wrong:
                stop.set()
                counts["wrong"] += 1
                print(f"{name}: the job of seed {seed}:\n{wrong}")
        return counts

    with ThreadPoolExecutor(lanes) as pool:
        return sum(pool.map(lane, range(lanes)), collections.Counter())
