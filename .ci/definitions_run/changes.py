"""Changed definitions: which changes the rows tell.

First each row is answered as the definitions stand, and the equations and rules that it reaches are noted. Then a definition of the
headline is changed in one that some row reaches, and all rows that reach it are answered, the cheapest first, until one is answered
otherwise, stops, or does not end. A change that no row tells needs a reason why no row can.
"""

import os
import random
import resource
import time
import typing

from common import HERE

from .answers import definitions, on_large_stack
from .edits import changes_of, sides_of, taken_fields
from .gate import collect_seldom, in_processes, rows_to_try, unknown_forms
from .headline import whole_headline
from .trials import Trial

# A row does not end where it takes so many times what it took before, and so many processor seconds more.
TIMES, SECONDS_MORE = 8, 4
# Rows of so many processor seconds are tried of a change that has a reason.
SECONDS_WITH_REASON = 5
MOST_MEMORY = 6 << 30
PROGRESS = 50
TOLD, STOPPED, REFUSED, LIVES = 10, 11, 12, 13


class Reached(typing.NamedTuple):
    """A row that is answered as it tells: what it cost, and the places of the equations that it reached."""

    row: object
    seconds: float
    reached: bytes

    def reaches(self, place):
        return place is not None and place < len(self.reached) and self.reached[place] == 1


def answered(program, trial, row):
    """What a row reaches, or None where it is not answered as it tells."""
    program.constants.clear()
    trial.ruled.clear()
    trial.deriver.found.clear()
    program.reached[:] = bytes(len(program.reached))
    started = time.process_time()
    try:
        said = trial.differs(row)
    except Exception:
        return None
    return None if said else Reached(row, time.process_time() - started, bytes(program.reached))


def with_change(program, change):
    program.deriver.found.clear()
    if change.definition.kind in ("data", "record"):
        name, tokens = change.equation
        change.definition.parts[name] = tokens
        program.deriver.relations.pop(change.definition.key, None)
        return
    equations = list(program.equations(change.definition))
    equations[change.at] = change.equation
    program.change(change.definition, equations)


def verdict(program, change, rows):
    """Whether a row tells a change, in this process: its status."""
    try:
        with_change(program, change)
        trial = Trial(program)
        for one in rows:
            most = int(time.process_time() + TIMES * one.seconds) + SECONDS_MORE
            resource.setrlimit(resource.RLIMIT_CPU, (most, resource.RLIM_INFINITY))
            if trial.differs(one.row) is not None:
                return TOLD
        return LIVES
    except (AttributeError, TypeError):
        # a value of another type than what takes it: the change is one that a checker refuses
        return REFUSED
    except Exception:
        return STOPPED


def verdict_apart(program, change, rows):
    """The same in a process of its own, which ends where a row does not end."""
    child = os.fork()
    if child == 0:
        resource.setrlimit(resource.RLIMIT_AS, (MOST_MEMORY, MOST_MEMORY))
        os._exit(verdict(program, change, rows))
    _, status = os.waitpid(child, 0)
    code = os.waitstatus_to_exitcode(status)
    return code if code in (TOLD, REFUSED, LIVES) else STOPPED


def changes_reached(program, places):
    """The changes of equations of the headline at these places, but for those of fields that are not taken."""
    fields = taken_fields(sides_of(program, places))
    closure = whole_headline(program.modules)
    return [change for one in closure.found.values()
            for change in changes_of(program, one) if (one.key, change.at) in places and change.fields <= fields]


class Rows:
    """The rows of all tables, of which is known what they reach. They are answered in this process, so that all is compiled before each
    change has a process of its own."""

    def __init__(self, program):
        self.program = program
        trial = Trial(program)
        collect_seldom()
        found = on_large_stack(lambda: [answered(program, trial, row) for row in rows_to_try()[0]])
        self.reached = sorted((one for one in found if one is not None), key=lambda one: one.seconds)

    def places(self):
        """The places that some row reaches."""
        return {place for place, number in self.program.places.items() if any(one.reaches(number) for one in self.reached)}

    def near(self, change):
        """The rows that reach a change, the cheapest first."""
        place = self.program.places.get((change.definition.key, change.at))
        return [one for one in self.reached if one.reaches(place)]

    def for_change(self, change, has_reason):
        near, seconds = self.near(change), 0
        for count, one in enumerate(near):
            seconds += one.seconds
            if has_reason and seconds > SECONDS_WITH_REASON:
                return near[:count]
        return near


def run(seed, first, most, texts, seconds, processes):
    """Tries the changes of an order from the first-th on, so many at most, and of these such as have one of the texts in their names, for so
    many seconds, and prints those that live without a reason; 1 where there are such."""
    program = definitions()
    unknown_forms(program, whole_headline(program.modules))
    rows = Rows(program)
    changes = changes_reached(program, rows.places())
    lines, started = (HERE / "definitions_alike").read_text(encoding="utf-8").splitlines(), time.time()
    known = {line.partition(" -- ")[0] for line in lines if not line.startswith("#")}
    idle = known - {change.name for change in changes}
    random.Random(seed).shuffle(changes)
    some = [change for change in changes[first - 1:][:most] if any(text in change.name for text in texts)]
    print(f"seed {seed}: {len(some)} of {len(changes)} changes that {len(rows.reached)} rows reach", flush=True)

    def tried(item):
        """What becomes of a change, or None where the time is over."""
        number, change = item
        if seconds is not None and time.time() > started + seconds:
            return None
        status = verdict_apart(program, change, rows.for_change(change, change.name in known))
        if (status == LIVES) != (change.name in known):
            print("lives:" if status == LIVES else "has a reason, and is told:", change.name, flush=True)
        if number % PROGRESS == 0:
            print(f"{number} begun, {time.time() - started:.0f} s", flush=True)
        return status

    found = in_processes(tried, list(enumerate(some, 1)), processes)
    return summed(some, found, known, idle)


def summed(changes, found, known, idle):
    """Prints how many were told, but for those that a checker refuses; idle reasons are of no change."""
    told, stopped, refused = found.count(TOLD), found.count(STOPPED), found.count(REFUSED)
    tried = len(found) - found.count(None) - refused
    alike = sum(status == LIVES and change.name in known for change, status in zip(changes, found))
    lives = found.count(LIVES) - alike
    for name in sorted(idle):
        print(f"has a reason, and is no change: {name}")
    print(f"a row stops or does not end by {stopped} of those told; a checker refuses {refused} others")
    print(f"{told + stopped} told, {alike} with a reason, {lives} live of {tried}")
    print(f"{tried - lives} passed, {lives + len(idle)} failed")
    return 1 if lives or idle else 0
