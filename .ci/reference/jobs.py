"""Jobs and the words of the command line (LANGUAGE.md, "The program `snesl`"), and what may be answered to them."""

import re
from dataclasses import dataclass, field

from .values import BAD_CONFIG, Faulted, Refused, fault_line, text_of
from .checker import checked
from .evaluator import MANY_STEPS, evaluated, standing_faults
from .grammar import program_of
from .inputs import inputs_of
from .lexer import number_of, tokens_of

SEPARATOR = re.compile(r"^---(?:\n|\r\n|\Z)", re.MULTILINE)
NUMBERS = {"capacity": (1, 65_536), "chunk": (1, 1024), "threads": (1, 16), "idle": (1, 1_000_000)}
DRIVES = ("serial", "rounds", "rings")
DEFAULT_THREADS = "2"


@dataclass
class Answer:
    """What a job is answered: a line, how evaluation ends, and the faults that a network may name."""

    line: str
    status: int
    faults: set = field(default_factory=set)
    # Whether with wide edges the network comes to all of these.
    are_all_met: bool = False
    # How many forms there are with all calls written out, where nothing is refused.
    size: int = 0

    def is_open(self):
        """Whether the network comes in: as a stall, as one that is too big, or by the fault that it names."""
        return self.size > 0


def split(job):
    """The program and the input text of a job."""
    line = SEPARATOR.search(job)
    return (job, "") if line is None else (job[: line.start()], job[line.end():])


def named_words(words):
    """The options and their values. Refuses a word that is none, one that stands twice, and one without a value. `--` may stand last."""
    words, options = list(words), {}
    while words and words != ["--"]:
        word, equals, value = words.pop(0).partition("=")
        name = word[2:]
        if not word.startswith("--") or name not in (*NUMBERS, "drive", "deal") or name in options:
            raise Refused(BAD_CONFIG)
        if not equals:
            if not words:
                raise Refused(BAD_CONFIG)
            value = words.pop(0)
        options[name] = value
    return options


def check_words(words):
    """Refuses words of the command line that say no lawful configuration."""
    options = named_words(words)
    for name, (least, most) in NUMBERS.items():
        value = options.get(name, str(least))
        if not re.fullmatch("[+]?[0-9]+", value) or not least <= number_of(value.lstrip("+")) <= most:
            raise Refused(BAD_CONFIG)
    if options.get("drive", "serial") not in DRIVES:
        raise Refused(BAD_CONFIG)
    threads = number_of(options.get("threads", DEFAULT_THREADS).lstrip("+"))
    deal = options.get("deal", "0")
    if not re.fullmatch("[0-9a-f]{1,64}", deal) or any(int(digit, 16) >= threads for digit in deal):
        raise Refused(BAD_CONFIG)


def answer(job, words=(), most_steps=MANY_STEPS):
    """What a job, with a character for each byte, is answered under the words of the command line."""
    try:
        check_words(words)
        text, given = split(job)
        program = program_of(*tokens_of(text))
        declared, _, size = checked(program)
        inputs = inputs_of(given, declared, program.dialect)
    except Refused as refused:
        return Answer(refused.line(), 1)
    try:
        return Answer(text_of(evaluated(program, inputs, most_steps)), 0, size=size)
    except Faulted as fault:
        faults, are_all_met = standing_faults(program, inputs, most_steps)
        return Answer(fault_line((fault.number, fault.offset)), 2, set(map(fault_line, faults)), are_all_met, size)
