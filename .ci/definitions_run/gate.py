"""What `.ci/dev definitions` tries: the rows, the forms, the list of what is not run, and the page."""

import collections
import gc
import multiprocessing
import os
import textwrap
import time
from concurrent.futures import ProcessPoolExecutor

from common import DATA, HERE

from . import planted
from .answers import definitions, on_large_stack
from .headline import Pages, one_name, whole_headline
from .tables import all_rows
from .tokens import FormError
from .trials import Trial

UNREAD, TABLES = HERE / "definitions_unread", (DATA, HERE / "definitions_rows")
LONGEST, WIDEST = 20_000, 139
DEAR = 4
# What is answered of a text that is too long as a whole, which is not read.
TOO_LONG = (b"refused 1", b"refused 8 at 16777216")
# What a process does, as a function, and of which items.
WORK = []


def collect_seldom(*work):
    """Has Python look seldom for values that hold each other: few do. The work is what this process has to do."""
    WORK[:] = work
    gc.freeze()
    gc.set_threshold(200_000, 20, 100)


def worked(number):
    function, items = WORK
    return on_large_stack(function, items[number])


def in_processes(function, items, count):
    """What the function gives of each item, in order, by so many processes, with stacks for deep recursion. It is an error where one
    ends badly."""
    with ProcessPoolExecutor(count, multiprocessing.get_context("fork"), collect_seldom, (function, items)) as pool:
        return [*pool.map(worked, range(len(items)))]


def rows_to_try():
    """The rows of all tables, and those that are passed over for the time that they take: those over 20,000 bytes that are read."""
    tried, passed_over = [], []
    for row in all_rows(TABLES):
        is_dear = len(row.job) > LONGEST and row.line_of("prints") not in TOO_LONG
        (passed_over if is_dear else tried).append(row)
    return tried, passed_over


def tried(program, rows, processes):
    """What is said of each row, how many were answered by evaluation alone, and the places of the equations that any reached."""
    trial, known = Trial(program), set()

    def said(row):
        """What is said of a row, and of its cost where that is great; and the equations that this process reached by it first."""
        started, alone = time.process_time(), trial.by_evaluation_alone
        try:
            answer = trial.differs(row)
        except Exception as error:  # a definition that takes no value is said, like any other difference
            answer = f"stops: {error!r}"[:200]
        seconds = time.process_time() - started
        if seconds > DEAR:
            print(f"{row.place} took {seconds:.1f} processor seconds", flush=True)
        reached = {place for place, number in program.places.items() if program.reached[number]} - known
        known.update(reached)
        return answer, trial.by_evaluation_alone - alone, reached

    answers, alone, reached = zip(*in_processes(said, rows, processes))
    return answers, sum(alone), set().union(*reached)


def unknown_forms(program, closure):
    """The functions of the headline that cannot be read."""
    failures = []
    for one in closure.definitions:
        if one.kind in ("abbrev", "unfoldable") and not one.is_type:
            try:
                program.compile(one, *program.target(one))
            except FormError as error:
                failures.append(str(error))
    return failures


def other_names(names, listed):
    """What is said of names that a list lacks, and of those that it should not have."""
    return [f"no row runs it, and .ci/definitions_unread lacks it: {name}" for name in sorted(set(names) - set(listed))] + [
        f"it is run, or no longer there, and .ci/definitions_unread has it: {name}" for name in sorted(set(listed) - set(names))]


def listed():
    lines = [line.split() for line in UNREAD.read_text(encoding="utf-8").splitlines() if not line.startswith("#")]
    return [f"{path} {name}" for path, *names in lines for name in names]


def write_list(names):
    """Writes .ci/definitions_unread anew: lines that have a file, and names of it."""
    files = collections.defaultdict(list)
    for path, name in map(str.split, names):
        files[path].append(name)
    lines = [f"{path} {some}" for path, its in files.items() for some in textwrap.wrap(" ".join(its), WIDEST - len(path))]
    UNREAD.write_text("\n".join(["# What the headline rests on and no row runs.", *lines, ""]), encoding="utf-8")


def page():
    """Whether the page has the numbers of the definitions as they stand; 1 where it has not."""
    pages = Pages(definitions().modules, set(listed()))
    said = pages.differ_now() + planted.page_failures(pages)
    print(*said, f"{int(not said)} passed, {len(said)} failed", sep="\n")
    return 1 if said else 0


def run(write, processes):
    """Tries all, and prints what failed; 1 where something did."""
    program = definitions()
    closure = whole_headline(program.modules)
    forms = unknown_forms(program, closure)
    rows, passed_over = rows_to_try()
    answers, alone, reached = tried(program, rows, processes)
    failures = [f"{row.place}: {said}" for row, said in zip(rows, answers) if said]
    run_keys = {key for key, _ in reached}
    names = sorted(one_name(one) for one in closure.found.values() if one.key not in run_keys)
    pages = Pages(program.modules, set(names))
    if write:
        write_list(names)
        pages.write()
    lists = other_names(names, listed())
    mistakes = planted.failures(other_names) + planted.page_failures(pages) + pages.differ_now()
    for line in failures + forms + lists + mistakes:
        print(line)
    print(f"{len(rows)} rows, {alone} of them by evaluation alone, {len(passed_over)} passed over:", *[row.place for row in passed_over])
    print(f"{len(closure.found)} definitions of the headline, {len(closure.found) - len(names)} run, {len(names)} listed")
    print(f"{sum(os.times()[:4]):.0f} processor seconds")
    failed = len(failures) + len(forms) + len(lists) + len(mistakes)
    print(f"{len(rows) - len(failures) + len(closure.found) - len(names)} passed, {failed} failed")
    return 1 if failed else 0
