"""Measures the program `snesl`, or SNESL where it is named, beside its peers of bench/peers, all in one sitting and by turns, and prints a
table. It takes some ten minutes.

The peers are plain Rust, which cargo builds here: an unproved twin of the drive, whole vectors, a plain loop, and a thread a node over
channels. All answers have to be the same. The twin and the threads have no nodes for vectors, so two programs have no figures of theirs.
Times are nanoseconds an element: what a run takes beyond a run of a few elements. They are of the processor for what runs in one thread,
and by the clock for what runs in several or over rings. Instructions are counted by `perf` where it can count, and else by valgrind, at
fewer elements.

With --threads the product is measured by rings of so many threads too, at the defaults, and with capacity 4,096 at chunk 256 and 1,024; for
more than one thread with neighbours apart, and by `levuttar`, or LEVUTTAR where it is named, which deals the nodes by a cut. A last table
tells when threads pay: the best of each number beside one thread without rings, all by the clock. --svg FILE draws what the product takes
in one thread and with the defaults of snesl, and its peers. Each is run --runs times."""

import collections
import itertools
import math
import os
import pathlib
import statistics
import sys
from concurrent.futures import ThreadPoolExecutor
from typing import NamedTuple

from common import asked, built, table
from words.measured import MEANS, TEXTS, WITH_VECTORS, build_peers, counter, instructions, peer, timed

PROGRAMS = list(TEXTS)
# Chunk and capacity; and those over rings, the defaults and those for speed.
SETTINGS = [(16, 256), (256, 256), (16, 4_096), (256, 4_096), (1_024, 1_024)]
RING_SETTINGS = [(16, 256), (256, 4_096), (1_024, 4_096)]
PRODUCT, TWIN, VECTORS, PLAIN, THREADS = "product", "twin", "vectors", "plain", "threads"
TITLES = {PRODUCT: "Levuttar", TWIN: "unproved twin", VECTORS: "whole vectors", PLAIN: "plain loop", THREADS: "a thread a node"}
# A sum of squares of more than 3,000,000 elements is over 64 bits. The first elements touch all memory that a run has, so a long run
# is many times as long as what edges hold.
FEW, MANY_IN_LOOPS = 1_000, {it: 400_000 if it == "heavy" else 2_400_000 for it in PROGRAMS}
MANY = dict.fromkeys(PROGRAMS, 2_400_000) | {"deep": 1_600_000, "heavy": 640_000} | dict.fromkeys(WITH_VECTORS, 1_600_000)
# An element takes longer in short visits, and far longer where each node waits for others in a thread of its own.
FEWER_IN_SHORT_VISITS, FEWER_IN_THREADS = 10, 100
# Instructions are counted at these two, since valgrind is slow.
COUNTED = {"squares": (10_000, 30_000), "wide": (10_000, 30_000), "nest": (10_000, 20_000), "deep": (6_000, 10_000)}
COUNTED |= {"heavy": (4_000, 8_000), "row": (10_000, 20_000), **dict.fromkeys(WITH_VECTORS, (20_000, 40_000))}
# How nodes are dealt out to threads: all in one thread without rings, over rings in turn, or over rings by a cut.
ALONE, APART, CUT = "alone", "apart", "by a cut"
# The picture: as many programs as stand beside one another on a page.
DRAWN = ["squares", "wide", "nest", "deep"]
# Who runs the programs, each in a colour that is seen on white and on black.
COLOURS = {"product": "#d9772b", "twin": "#4a8ad4", "vectors": "#35995f", "plain": "#9873cf", "threads": "#84888e"}
INK, GRID = "#797d83", "#797d8355"
LEFT, COLUMN, HEAD, LINE, GAP = 410, 160, 62, 20, 8
# The room in a column for bars, the rest being for numbers behind them.
BARS = 112


class Programs(NamedTuple):
    """Where the two programs of the product lie."""

    snesl: str
    levuttar: str


class Variant(NamedTuple):
    """One way to run the programs: who runs them, at which chunk and capacity (None where they change nothing), in how many
    threads, and how nodes are dealt out to them."""

    who: str
    chunk: int | None
    capacity: int | None
    threads: float = 1
    dealt: str = ALONE

    @property
    def is_beside(self):
        """Whether nodes wait for others between threads or over rings."""
        return self.threads > 1 or self.dealt != ALONE

    def runs(self, program):
        """Whether it has what a program needs."""
        return program not in WITH_VECTORS or self.who not in (TWIN, THREADS)

    def many(self, program):
        """Over how many elements it is timed."""
        if self.who in (VECTORS, PLAIN):
            return MANY_IN_LOOPS[program]
        fewer = FEWER_IN_THREADS if self.who == THREADS else FEWER_IN_SHORT_VISITS if self.chunk == 16 else 1
        return MANY[program] // fewer

    def command(self, programs, program, count):
        """The words of a run, and what it reads."""
        chunk, capacity = self.chunk or 256, self.capacity or 256
        if self.who != PRODUCT:
            return peer(self.who, program, count, chunk, capacity), b""
        words = ["--drive", "serial" if self.dealt == ALONE else "rings", "--chunk", str(chunk), "--capacity", str(capacity)]
        if self.dealt != ALONE:
            words += ["--threads", str(self.threads)]
        its = [programs.levuttar, "run"] if self.dealt == CUT else [programs.snesl]
        return [*its, *words], TEXTS[program](count).encode()

    def title(self):
        words = [TITLES[self.who]]
        words += [f"rings, {in_threads(self.threads)}"] if self.dealt != ALONE else []
        words += [CUT] if self.dealt == CUT else []
        words += [f"chunk {self.chunk}"] if self.chunk else []
        return ", ".join(words + ([f"capacity {self.capacity:,}"] if self.capacity else []))


# The nanoseconds of an element, of several runs.
Times = collections.namedtuple("Times", "least median")
# The times of an element, those by the clock, and its instructions (None where they were not counted).
Figure = collections.namedtuple("Figure", "times by_clock instructions")


def variants(threads):
    """All variants; the product by rings of each of these numbers of threads too."""
    made = [Variant(PRODUCT, *setting) for setting in SETTINGS]
    for count in threads:
        for dealt in (APART, CUT) if count > 1 else (APART,):
            made += [Variant(PRODUCT, *setting, count, dealt) for setting in RING_SETTINGS]
    made += [Variant(TWIN, *setting) for setting in SETTINGS] + [Variant(VECTORS, None, None), Variant(PLAIN, None, None)]
    # As many threads as nodes.
    return made + [Variant(THREADS, None, capacity, math.inf) for capacity in sorted({most for _, most in SETTINGS})]


def times(programs, cells, runs):
    """For each variant and program what its runs took, by numbers of elements, in as many turns over all of them."""
    spent, answers = collections.defaultdict(lambda: collections.defaultdict(list)), {}
    for _ in range(runs):
        for variant, program in cells:
            for count in (FEW, variant.many(program)):
                answer, took = timed(*variant.command(programs, program, count))
                if answers.setdefault((program, count), answer) != answer:
                    sys.exit(f"bench: {program} of {count}: {variant.title()} answers {answer}, others {answers[program, count]}")
                spent[variant, program][count].append(took)
    return spent


def an_element(spent, clock):
    """The times of an element by this clock: of long runs, from which the least of the short ones is taken off."""
    (few, begun), (great, whole) = sorted((count, [getattr(it, clock) for it in runs]) for count, runs in spent.items())
    # A run that takes no longer is taken for one that takes a nanosecond longer.
    return Times(*(max((of(whole) - min(begun)) * 1e9, 1) / (great - few) for of in (min, statistics.median)))


def counts(programs, cells):
    """The name of what counts instructions, and those of an element of each variant of one thread and program. It counts some
    side by side."""
    name, alone = counter(), [cell for cell in cells if not cell[0].is_beside]

    def count(cell):
        few, great = COUNTED[cell[1]]
        found = [instructions(name, *cell[0].command(programs, cell[1], size)) for size in (few, great)]
        return (found[1] - found[0]) / (great - few) if all(found) else None

    with ThreadPoolExecutor(max(1, (os.cpu_count() or 1) // 2)) as pool:
        return name, dict(zip(alone, pool.map(count, alone))) if name else {}


def sitting(programs, threads, runs):
    """What counted instructions, and the figure of each variant and program: by the clock where nodes wait, and else of the processor."""
    cells = [(variant, program) for variant in variants(threads) for program in PROGRAMS if variant.runs(program)]
    spent = times(programs, cells, runs)
    name, found = counts(programs, cells)
    figures = {}
    for cell in cells:
        by_clock, by_processor = (an_element(spent[cell], it) for it in ("clock", "processor"))
        figures[cell] = Figure(by_clock if cell[0].is_beside else by_processor, by_clock, found.get(cell))
    return name, figures


def in_threads(count):
    return f"{count} thread{'s' * (count > 1)}"


def short(number):
    return f"{number:.1f}" if number < 9.95 else f"{number:,.0f}"


def both(numbers):
    return ", ".join(map(short, numbers))


def spelled(figure):
    """A cell, which is empty where there is no figure."""
    if figure is None:
        return ""
    return both(figure.times) + ("" if figure.instructions is None else f" ({short(figure.instructions)})")


def best(figures, program, fits, kind="times"):
    """The times of an element at the best of the variants that fit, or None where none of them runs the program."""
    found = [getattr(it, kind) for (variant, of), it in figures.items() if fits(variant) and of == program]
    return Times(*map(min, zip(*found))) if found else None


def in_one_thread(who):
    return lambda variant: variant.who == who and not variant.is_beside


def ratios(figures):
    """How many times as long as each peer of one thread the product takes."""
    for it in (TWIN, VECTORS, PLAIN):
        pairs = [[best(figures, program, in_one_thread(who)) for who in (PRODUCT, it)] for program in PROGRAMS]
        yield [TITLES[it], *(short(ours.least / its.least) if its else "" for ours, its in pairs)]


def multiple(its, one):
    """How many times as long as one it takes, unless either is no more than an error of measure."""
    return "?" if "0.0" in (short(its), short(one)) else short(its / one)


def when_threads_pay(figures, threads):
    """What an element takes by the clock in one thread without rings, and over rings of each number of threads, with both multiples."""
    alone = [best(figures, program, in_one_thread(PRODUCT), "by_clock") for program in PROGRAMS]
    yield ["one thread without rings", *map(both, alone)]
    for count in threads:
        over_rings = lambda variant, count=count: variant.dealt != ALONE and variant.threads == count
        beside = [best(figures, program, over_rings, "by_clock") for program in PROGRAMS]
        multiples = [", ".join(map(multiple, *pair)) for pair in zip(beside, alone)]
        yield [f"rings, {in_threads(count)}", *(f"{both(it)} ({by})" for it, by in zip(beside, multiples))]


def spans(figures):
    """The least and the greatest power of ten of the axis, with the shortest bar in sight unless it is an error of measure."""
    times = [max(it.times.least, 0.2) for it in figures.values()]
    return math.floor(math.log10(min(times) / 2)), math.ceil(math.log10(max(times)))


def written(x, y, words, extra=""):
    return f'<text x="{x:.0f}" y="{y:.0f}" {extra}>{words}</text>'


def axis(column, low, high, bottom):
    """The head of a column, and a line for each power of ten."""
    left = LEFT + column * COLUMN
    parts = [written(left, 38, DRAWN[column], 'font-weight="bold"')]
    for power in range(low, high + 1):
        x = left + BARS * (power - low) / (high - low)
        parts.append(f'<line x1="{x:.1f}" x2="{x:.1f}" y1="{HEAD - 4}" y2="{bottom}" stroke="{GRID}"/>')
        if power in (low, (low + high) // 2, high):
            parts.append(written(x, HEAD - 8, f"{10.0**power:,.{max(0, -power)}f}", 'font-size="10" text-anchor="middle"'))
    return parts


def bar(column, y, who, least, low, high):
    left = LEFT + column * COLUMN
    long = BARS * max(math.log10(least) - low, 0) / (high - low)
    number = f"{least:.1f}" if least < 9.95 else f"{least:,.0f}"
    return [
        f'<rect x="{left}" y="{y}" width="{long:.1f}" height="{LINE - 6}" rx="2" fill="{COLOURS[who]}"/>',
        written(left + long + 4, y + LINE - 9, number, 'font-size="11"'),
    ]


def marked(variant, defaults):
    """A variant in words, and which program does so where no option says otherwise."""
    if variant not in defaults:
        return variant.title()
    return f'<tspan font-weight="bold">{defaults[variant]}</tspan>, without options: {variant.title().partition(", ")[2]}'


def picture(figures, defaults, what):
    """The figures of variants and programs as the text of an SVG file. `what` is what they are of."""
    figures = {cell: it for cell, it in figures.items() if cell[1] in DRAWN}
    low, high = spans(figures)
    parts, y, before = [], HEAD, None
    for variant in dict.fromkeys(variant for variant, _ in figures):
        y += GAP if before not in (None, variant.who) else 0
        before = variant.who
        parts.append(written(LEFT - 10, y + LINE - 9, marked(variant, defaults), 'text-anchor="end"'))
        for column, program in enumerate(DRAWN):
            parts += bar(column, y, variant.who, figures[variant, program].times.least, low, high)
        y += LINE
    parts = [part for column in range(len(DRAWN)) for part in axis(column, low, high, y)] + parts
    for number, program in enumerate(DRAWN, 1):
        parts.append(written(10, y + LINE * number, f'<tspan font-weight="bold">{program}</tspan>: {MEANS[program]}', 'font-size="11"'))
    width, height = LEFT + COLUMN * len(DRAWN), y + LINE * (1 + len(DRAWN))
    head = f'<svg xmlns="http://www.w3.org/2000/svg" viewBox="0 0 {width} {height}" width="{width}" height="{height}"'
    head += f' font-family="sans-serif" font-size="12" fill="{INK}">'
    title = f"{what}: nanoseconds an element, the least of several runs. Each line to the right is ten times as long."
    return "\n".join([head, f"<title>{title}</title>", written(10, 16, title), *parts, "</svg>", ""])


def main():
    words = asked(__doc__, "PROGRAM", threads="", runs=9, svg="")
    build_peers()
    named = itertools.zip_longest(words.rest[:2], Programs._fields)
    places = [os.path.abspath(it) if it else built(name)["llvm"][name] for it, name in named]
    what = f"The program {os.path.basename(places[0])} beside its peers" if words.rest else "The proved program beside its peers"
    runs, threads = max(1, words.runs), [int(it) for it in words.threads.split(",") if it]
    counted_by, figures = sitting(Programs(*places), threads, runs)
    counted = f"; in brackets instructions an element, by {counted_by}" if counted_by else ""
    print(f"{what}: nanoseconds an element, the least and the median of {runs} runs{counted}.\n")
    made = dict.fromkeys(variant for variant, _ in figures)
    rows = [[it.title(), *(spelled(figures.get((it, program))) for program in PROGRAMS)] for it in made]
    print(table(["nanoseconds an element", *PROGRAMS], *rows))
    print("\nA cell is empty where the peer has no nodes for vectors. The programs:\n")
    print("\n".join(f"- {program}: {means}" for program, means in MEANS.items()))
    print(f"\nIn one thread, either at its best:\n\n{table([f'{TITLES[PRODUCT]} as a multiple of', *PROGRAMS], *ratios(figures))}")
    if threads:
        print("\nWhen threads pay, each at its best; in brackets as multiples of one thread without rings:\n")
        print(table(["nanoseconds an element, by the clock", *PROGRAMS], *when_threads_pay(figures, threads)))
    if words.svg:
        # What the programs do where no option says otherwise.
        defaults = {Variant(PRODUCT, 1_024, 1_024): "levuttar run", Variant(PRODUCT, 16, 256, 2, APART): "snesl"}
        drawn = {cell: it for cell, it in figures.items() if cell[0].dealt == ALONE or cell[0] in defaults}
        pathlib.Path(words.svg).write_text(picture(drawn, defaults, what), encoding="utf-8")
