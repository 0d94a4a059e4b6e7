"""Runs great jobs over rings in several threads, while random ones of these sleep at random moments (delays.c), and compares each run with
that of one thread without rings: for half a minute, from the seed that the clock gives, where no word tells. The programs SNESL and
LEVUTTAR are tried, or the proved ones, in both builds. Where SNESL stands alone no messages are counted.

Job number k of a seed S is that of the seed S + k; the shapes of programs come by turns. A job has a capacity of 1,024 to 65,536, and sends
100,000 messages and more over its edges; some have a small one. Each runs some times in 2 to 16 threads, with random chunks and idle turns,
nodes dealt in turn or by a random list, and mostly with delays. What comes out is that of one thread at the same capacity: what snesl
prints, what it says, and its status; and the same of `levuttar draw --text --traffic`, which has how many messages went over each edge. All
is over at the first answer that is another or does not come."""

import collections
import os
import random
import re
import struct
import subprocess
import tempfile
import time

from common import Tally, asked, built
from words.preloaded import Wrong, compiled, counted, over_seeds

# A job that takes longer in one thread is passed over; a run over rings that takes longer has no end.
LONG, ENDLESS = 20, 300
# What is sent at least at a capacity of at least this, and how often a job runs over rings by each program.
LEAST_MESSAGES, LEAST_GREAT, GREATEST = 100_000, 1_024, 65_536
RUNS = {"snesl": 3, "levuttar": 1}
WORDS_BEFORE = {"snesl": [], "levuttar": ["draw", "--text", "--traffic"]}
# At most so many microseconds are between two strokes, and at most so many a struck thread sleeps.
PAUSES, SLEEPS = [50, 500, 5_000], [50, 500, 5_000]
# After how many turns without a step a thread ends: soon after one, so that many are started, and far more at a small capacity.
IDLE = [1, 64, 64, 1_000, 10_000]
# The counts, `enum word` of delays.c.
COUNTS = struct.Struct("2q")
# The messages over an edge, in the line of the node that writes it.
MESSAGES = re.compile(rb"-> \d+ [a-z]+ (\d+)")
# Programs that send 100,000 messages and more, each beside the N that does. INPUT stands for N rows, and HELD for how many
# elements an edge is to hold, which is about as many as it can.
SHAPES = {
    "squares": (15_000, "reduce_add({x * x : x in iota(N)})"),
    "wide": (12_000, " + ".join(f"reduce_add({{x * x + {k} : x in iota(N / 8)}})" for k in range(8))),
    "nest": (6_000, "reduce_add({reduce_add({(j + i) * (j * 3 + 1) : j in iota(8)}) : i in iota(N / 8)})"),
    "deep": (1_500, "reduce_add(" + "{x + 1 : x in " * 20 + "iota(N)" + "}" * 20 + ")"),
    "sums": (8_000, "let s = {x % 10 : x in iota(N)} in reduce_max({a * b : a in s; b in scan_add(s)})"),
    "kept elements": (6_000, "{(x, x % 7 == 0) : x in iota(N) | x % 3 == 0}"),
    "one vector": (12_000, "let v = tab({x * x : x in iota(1000)}) in reduce_add({v ! (x % 1000) : x in iota(N)})"),
    "many vectors": (2_500, "{tab({x * j : j in iota(x % 5 + 1)}) ! (x % 3 * (x % 5) / 4) : x in iota(N)}"),
    "rows": (4_000, "{{j * i : j in iota(i % 6)} : i in iota(N)}"),
    "rows of rows": (1_500, "{{{k : k in iota(j)} ++ {i} : j in iota(i % 3 + 1)} : i in iota(N)}"),
    "parts": (1_000, "{reduce_add(r) : r in part(iota(3 * N), concat({{false,true,false,false,true,true} : i in iota(N)}))}"),
    "rows of the input": (15_000, "input rows : {{int}}; {reduce_add(row) : row in rows}\n---\nrows = INPUT"),
    "great integers": (3_000, "dialect 2; {reduce_add({x * 1000000000000000000007 : x in iota(i % 9)}) * i : i in iota(N)}"),
    "a late division": (12_000, "length({1000 / (N - x) : x in iota(N + 1)})"),
    "a late overflow": (9_000, "reduce_add({9223372036854775807 / N + x - x : x in iota(N + 2)})"),
    "a late index": (12_000, "let v = tab(iota(N)) in length({v ! x : x in iota(N + 1)})"),
    "unequal lengths": (15_000, "length({a + b : a in iota(N); b in iota(N + 1)})"),
    "several faults": (6_000, "(reduce_add({1000 / (N - x) : x in iota(N + 1)}), (reduce_max({x : x in iota(N) | x > N}), the(iota(N))))"),
    "held at once": (15_000, "let s = iota(HELD) in length(s ++ s) + reduce_add({x * x : x in iota(N)})"),
    "held late": (9_000, "let s = {x : x in iota(N + HELD) | x >= N} in length(s ++ s)"),
}


class Ran(collections.namedtuple("Ran", "printed said status starts delays")):
    """What a program printed and said, and its status; how many threads it started, and how often one slept."""

    def answer(self):
        return self[:3]

    def messages(self):
        """How many went over all edges, where a program told."""
        return sum(int(it) for it in MESSAGES.findall(self.printed))


def text_of(shape, dice, capacity):
    """The job of a shape: of more elements where the capacity is great."""
    least, text = SHAPES[shape]
    count = least * dice.randint(1, 8 if capacity >= LEAST_GREAT else 1)
    rows = "{" + ",".join(f"{{{k},{k % 7}}}" if k % 3 else "{}" for k in range(count)) + "}" if "INPUT" in text else ""
    held = capacity + dice.choice([-1, 0, 1, 1])
    return text.replace("INPUT", rows).replace("HELD", str(held)).replace("N", str(count)).encode()


def random_capacity(dice):
    if dice.random() < 0.2:
        return dice.choice([1, 2, 5, 16, 64, 256])
    return dice.choice([LEAST_GREAT, GREATEST, dice.randint(LEAST_GREAT, GREATEST)])


def ring_words(dice, capacity):
    threads, chunk = dice.randint(2, 16), dice.randint(1, dice.choice([1, 16, 256, 1_024]))
    idle = dice.choice(IDLE if capacity >= LEAST_GREAT else IDLE[1:])
    words = ["--capacity", capacity, "--drive", "rings", "--threads", threads, "--chunk", chunk, "--idle", idle]
    if dice.random() < 0.5:
        words += ["--deal", "".join("%x" % dice.randrange(threads) for _ in range(dice.randint(1, 64)))]
    return [str(it) for it in words]


def random_delays(dice):
    """How threads are delayed in a run, in the words of delays.c without what they begin with. One run of four has no delays."""
    if dice.random() < 0.25:
        return {}
    return {"SEED": dice.randrange(1 << 32), "PAUSE": dice.choice(PAUSES), "SLEEP": dice.choice(SLEEPS)}


def run(command, job, library, seconds, delays):
    """What came of a command with this job on standard input."""
    child, counts = counted(command, job, library, seconds, COUNTS.size, delays)
    return Ran(child.stdout, child.stderr, child.returncode, *COUNTS.unpack(counts))


def try_rings(command, capacity, job, library, dice, right):
    """Runs a command once over rings, and gives what came of it, and whether it was delayed."""
    words, delays = [*command, *ring_words(dice, capacity)], random_delays(dice)
    try:
        ran = run(words, job, library, ENDLESS, delays)
    except subprocess.TimeoutExpired:
        raise Wrong(f"{' '.join(words)}\nunder the delays {delays} has no end") from None
    if ran.answer() != right:
        raise Wrong(f"{' '.join(words)}\nunder the delays {delays} comes out as {shown(ran.answer())}\nand in one thread as {shown(right)}")
    if not ran.starts:
        raise Wrong(f"{' '.join(words)} starts no thread")
    return ran, bool(delays)


def shown(answer):
    """An answer, of which the texts are cut."""
    printed, said, status = answer
    return f"{printed[:300]}.. of {len(printed)} bytes, {said[:300]}, status {status}"


def tried(seed, library, programs):
    """Runs the job of a seed, and gives what is to be counted after each run. An error where one ends otherwise than it is to."""
    dice = random.Random(seed)
    shape, capacity = [*SHAPES][seed % len(SHAPES)], random_capacity(dice)
    job = text_of(shape, dice, capacity)
    alone = ["--drive", "serial", "--capacity", str(capacity)]
    commands = {name: [program, *WORDS_BEFORE[name]] for name, program in dice.choice(programs).items()}
    try:
        right = {name: run([*it, *alone], job, library, LONG, {}) for name, it in commands.items()}
    except subprocess.TimeoutExpired:
        yield {"long": 1}
        return
    messages = max(it.messages() for it in right.values())
    if "levuttar" in right and capacity >= LEAST_GREAT and messages < LEAST_MESSAGES:
        raise Wrong(f"{job[:200].decode()}\nsends {messages} messages alone at the capacity {capacity}")
    yield {"jobs": 1}
    for name in (it for it in commands for _ in range(RUNS[it])):
        ran, is_delayed = try_rings(commands[name], capacity, job, library, dice, right[name].answer())
        sums = {"runs": 1, "delayed": is_delayed, "threads": ran.starts, "messages": messages, "delays": ran.delays}
        yield {**sums, ("shape", shape): 1, ("status", ran.status): 1}


def told(seed, counts):
    """Two lines on what was run."""
    shapes = ", ".join(f"{shape} {counts['shape', shape]}" for shape in SHAPES)
    ends = ", ".join(f"{counts['status', status]} {name}" for status, name in enumerate(("values", "refusals", "faults", "stalls")))
    yield f"{shapes}; {ends}; {counts['long']} jobs passed over for their length"
    sums = ", ".join(f"{counts[it]:,} {it}" for it in ("threads", "messages", "delays") if counts[it])
    yield f"from seed {seed}: {counts['jobs']} jobs, {counts['runs']} runs over rings, {counts['delayed']} with delays; {sums}"


def main():
    wish, tally = asked(__doc__, "PROGRAM", seconds=30, seed=int(time.time())), Tally("load")
    given = dict(zip(RUNS, map(os.path.abspath, wish.rest)))
    programs = [given] if given else [*built(*RUNS).values()]
    with tempfile.TemporaryDirectory() as folder:
        library = compiled(folder, "delays")
        # Each job has threads of its own.
        lanes = max(1, (os.cpu_count() or 1) // 2)
        counts = over_seeds("load", lambda seed: tried(seed, library, programs), wish.seed, wish.seconds, lanes)
    for line in told(wish.seed, counts):
        tally.say(line)
    tally.passed, tally.failed = counts["runs"], counts["wrong"] or int(not counts["delays"])
    return tally.end()
