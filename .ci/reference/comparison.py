"""The answers of the reference beside those of the rows of crates/tool_runs/data and the examples of docs/LANGUAGE.md, which are its own
test, and beside those of the built program and of the definitions; and smaller jobs whose answers differ too."""

import itertools
import random
import re
import time
from dataclasses import dataclass

import common
from definitions_run import answers
from definitions_run.tables import Row

from .values import Long
from .jobs import answer
from .mutations import PIECE, Job, options

# No edge of a job that the reference answers at all holds more messages than this, so with such edges nothing stalls.
AMPLE = 65_536
MOST_STEPS = 20_000
# A network is too big for a program of so many forms at least, with its calls written out.
LEAST_BIG = 200
# How many seconds a run may take, and making a job smaller.
MOST_SECONDS = 60
OPENING, CLOSING = "([{", ")]}"
STALLED, TOO_BIG = ("stalled", 3), ("refused 9", 1)
# A row of the table under "Examples": a program, perhaps an input text, and what is printed.
EXAMPLE = re.compile(r"\| `([^`]*)`(?: with the input text `([^`]*)`)? \| `([^`]*)` \|")


def difference(row):
    """How the reference's answer differs from that of a row, or nothing. A stall and a network that is too big are no matter of the page."""
    job, prints, *words = (it.decode("latin-1") for it in (row.job, row.line_of("prints"), *row.words))
    found, plain, status = answer(job, words), row.line_of("plain"), int(row.fields.get("status", 0))
    if found.is_open() and prints in ("stalled", "refused 9"):
        return None
    if prints in found.faults and plain in (None, found.line.encode()):
        return None
    if (found.line, found.status) == (prints, status):
        return None
    return f"the row has {prints[:200]} with status {status}, and the reference {found.line[:200]} with {found.status}"


def examples_of(page):
    """The rows of the last section of the page."""
    rows, lines = [], page.read_text(encoding="utf-8").replace("\\|", "|").split("\n")
    for number, line in enumerate(lines, 1):
        match = EXAMPLE.fullmatch(line)
        if match and number > lines.index("## Examples"):
            program, given, printed = match.groups()
            status = {"refused": 1, "fault": 2}.get(printed.split(" ")[0], 0)
            job = [program, "---", given] if given else [program]
            rows.append(Row(f"{page.name}:{number}", job, fields={"prints": printed, "status": status}))
    return rows


def differing_rows(rows):
    """Where rows stand that the reference answers otherwise, and how it differs."""
    return [(row.place, it) for row in rows if (it := difference(row))]


@dataclass
class Difference:
    """A job whose answers differ, under which words, and how."""

    job: object
    words: tuple
    said: str


def run(program, job, words):
    """What the built program prints for a job under these words, without its line feed, and its status."""
    ran = common.run([program, *words], job.bytes(), MOST_SECONDS)
    if ran.status is None:
        return f"nothing within {MOST_SECONDS} seconds", None
    printed = ran.printed.decode("latin-1")
    if not printed.endswith("\n") or (ran.said and printed != "refused 10\n"):
        printed += f" and says {ran.said.decode('latin-1')!r}\n"
    return printed[:-1], ran.status


def place_of(line):
    """A fault's offset and its number, by its line."""
    _, number, _, offset = line.split()
    return int(offset), int(number)


def is_allowed(answered, expected, is_ample):
    """Whether the program may answer so, by the reference. It may stall where an edge is not ample; else of all faults it names the first,
    which stands before that of evaluation or is the same."""
    if answered == STALLED:
        return expected.is_open() and not is_ample
    if answered == TOO_BIG and expected.size >= LEAST_BIG:
        return True
    if not expected.faults:
        return answered == (expected.line, expected.status)
    line, status = answered
    if line not in expected.faults or status != 2:
        return False
    first = min(expected.faults, key=place_of) if expected.are_all_met else line
    return not is_ample or (line == first and place_of(line) <= place_of(expected.line))


def configurations(dice, job, expected):
    """The words of the runs of a job, each with whether its edges are ample. Where the network has no say there is one run."""
    if job.words:
        return [(job.words, False)]
    if not expected.is_open():
        return [(options(dice), False)]
    capacity = dice.choice([1, 1, 2, 3, 4, 6, 8, 256])
    others = [(options(dice, drive, capacity), False) for drive in ("serial", dice.choice(["rounds", "rings"]))]
    return [*others, (options(dice, dice.choice(["serial", "rounds", "rings"]), AMPLE), True)]


def by_definitions(job, expected):
    """How the definitions answer a job otherwise than the reference, or nothing. Words of the command line are no matter of theirs."""
    line = expected.line if job.words else answers.answer_of(job.bytes()).decode("latin-1")
    if line == expected.line or (line == "refused 9" and expected.size):
        return None
    return f"by the definitions it is {line!r}, and by the page {expected.line!r}"


def difference_of(programs, job, dice, asks_definitions):
    """The answers of the reference and of the program, and how one differs, or nothing. Long where the reference passes the job over."""
    expected = answer(job.text, job.words, MOST_STEPS)
    met = []
    for words, is_ample in configurations(dice, job, expected):
        answered = run(dice.choice(programs), job, words)
        if not is_allowed(answered, expected, is_ample):
            named = f", or one of {sorted(expected.faults, key=place_of)}" if expected.are_all_met else ""
            said = f"prints {answered[0]!r} with status {answered[1]}; by the page it is {expected.line!r} with {expected.status}{named}"
            return expected, answered, Difference(job, words, said)
        met.append(answered)
    if len(met) == 3 and met[0] != met[1]:
        return expected, met[0], Difference(job, words, f"two drives at one capacity end as {met[0]} and {met[1]}")
    said = by_definitions(job, expected) if asks_definitions else None
    return expected, met[-1], said and Difference(job, (), said)


def differs(programs, job, dice, asks_definitions):
    """How the answers to a job differ, or nothing, where it is passed over too."""
    try:
        return difference_of(programs, job, dice, asks_definitions)[2]
    except Long:
        return None


def matching(pieces, place):
    """The place behind the bracket that closes the one at a place, or nothing."""
    depth = 0
    for other in range(place, len(pieces)):
        depth += (pieces[other] in OPENING) - (pieces[other] in CLOSING)
        if depth == 0:
            return other + 1
    return None


def declarations(pieces):
    """The places of declarations, each with the place behind it."""
    begins = [place for place, piece in enumerate(pieces) if piece in ("input", "function")]
    return [(place, pieces.index(";", place) + 1) for place in begins if ";" in pieces[place:]]


def hoisted(pieces):
    """Lists of what stands in some brackets alone, from the shortest on."""
    ends = [(place, matching(pieces, place)) for place, piece in enumerate(pieces) if piece in OPENING]
    for place, end in sorted((it for it in ends if it[1]), key=lambda it: it[1] - it[0]):
        yield pieces[place:end]
        yield pieces[place + 1: end - 1]


def smaller(pieces):
    """Lists of pieces that are smaller: a part alone, without a declaration or a run of pieces, or with less where something stands in brackets."""
    plain = [" " if piece.isspace() else piece for piece in pieces]
    if plain != pieces and "---" not in "".join(pieces):
        yield plain
    yield from hoisted(pieces)
    for place, end in declarations(pieces):
        yield pieces[:place] + pieces[end:]
    for place, piece in enumerate(pieces):
        end = matching(pieces, place) if piece in OPENING else None
        if end:
            yield from (pieces[:place] + [text] + pieces[end:] for text in ("1", "true", "{1}") if end - place > 1 + len(text))
            yield pieces[:place] + pieces[place + 1: end - 1] + pieces[end:]
    length = len(pieces) // 2
    while length:
        for place in range(0, len(pieces) - length + 1, max(1, length // 2)):
            yield pieces[:place] + pieces[place + length:]
        length //= 2


def shrunk(programs, difference, seed, asks_definitions):
    """A difference of a job that is as small as some tries make it. Each try is made by the same dice."""
    deadline, other = time.monotonic() + MOST_SECONDS, difference
    while other:
        difference = other
        texts = (it for it in map("".join, smaller(PIECE.findall(difference.job.text))) if it != difference.job.text)
        jobs = (Job(it, difference.job.words) for it in itertools.takewhile(lambda _: time.monotonic() <= deadline, texts))
        other = next(filter(None, (differs(programs, it, random.Random(seed), asks_definitions) for it in jobs)), None)
    return difference
