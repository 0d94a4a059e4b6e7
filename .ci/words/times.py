"""Runs a command, and prints what its checks took: the processor minutes of each crate, and which crates took twice their bar.

The columns are the proof of the crate, that of its tests, the two checks that its must-fail edits begin and end with, these
edits, the batches in which its other wrong bodies are tried, the sum, and the bar (.ci/bars: the sum from nothing that the crate
is to keep). Under the table stand the must-fail edits that took most, in processor seconds.

The checks are the processes of the prover below the command, for crates that stand here. They are looked at once a second; so a
figure is short by a second or two a check. What an earlier run kept takes nothing. The status is that of the command."""

import collections
import inspect
import os
import pathlib
import subprocess
import sys
import time

from common import CRATES, HERE, table

TICKS = os.sysconf("SC_CLK_TCK")
PARTS = ["proof", "tests", "base", "edits", "batches"]
# A crate that takes so many times its bar is named.
FAR_BEYOND = 2
# How many of the slowest must-fail edits are named.
NAMED = 10


def processes():
    """The parent, the words and the processor seconds of each process, its ended children's among them."""
    found = {}
    for folder in pathlib.Path("/proc").iterdir():
        if folder.name.isdigit():
            try:
                fields = (folder / "stat").read_text().rpartition(")")[2].split()
                words = (folder / "cmdline").read_bytes().decode(errors="replace").split("\0")
                place = os.readlink(folder / "cwd")
            except OSError:
                continue
            found[int(folder.name)] = int(fields[1]), words, place, sum(map(int, fields[11:15])) / TICKS
    return found


def is_below(found, process, top):
    while process in found and process != top:
        process = found[process][0]
    return process == top


def name_of(crate, edit):
    names = sorted(it.stem for it in (CRATES / crate / "must-fail").glob("*.edit"))
    return names[edit] if edit < len(names) else str(edit)


def edit_of(words):
    """The number of the edit that is tried, from 0 on, or None where the crate is checked as it stands: before its edits, which
    begin with what that check kept, and after them, to see that it still holds.

    The name of the folder of kept work tells. An edit that is tried from nothing counts as the first: a crate's only edit is.
    """
    if "--incremental" not in words:
        return 0
    kept = pathlib.Path(words[words.index("--incremental") + 1]).name
    return int(kept) if kept.isdigit() else None


def checks(found, top):
    """The checks that run below a process: each with its crate, its part, its edit and its processor seconds."""
    for process, (parent, words, place, seconds) in sorted(found.items()):
        if "--crate-name" not in words or not is_below(found, process, top):
            continue
        if parent in found and "--crate-name" in found[parent][1]:
            continue
        crate = words[words.index("--crate-name") + 1]
        if not (CRATES / crate).is_dir():
            # (one of the small repository that .ci/wrong_tests makes)
            continue
        if "--allow-holes" in words:
            yield process, crate, "batches", None, seconds
        elif "rt-edit-" in place:
            edit = edit_of(words)
            yield process, crate, "base" if edit is None else "edits", edit, seconds
        else:
            yield process, crate, "tests" if "--test" in words else "proof", None, seconds


def bars():
    """The processor minutes that each crate is to keep within."""
    rows = (line.split() for line in (HERE / "bars").read_text(encoding="utf-8").splitlines() if line and not line.startswith("#"))
    return {crate: float(minutes) for minutes, *crates in rows for crate in crates}


def watched(command):
    """The status of the command, the processor minutes of each crate and part, and the seconds of each must-fail edit."""
    child = subprocess.Popen(command)
    spent = {}
    while child.poll() is None:
        for process, crate, part, edit, seconds in checks(processes(), child.pid):
            spent[process, crate, part, edit] = seconds
        time.sleep(1)
    minutes, edits = collections.Counter(), collections.Counter()
    for (_, crate, part, edit), seconds in spent.items():
        minutes[crate, part] += seconds / 60
        if edit is not None:
            edits[crate, edit] += seconds
    return child.returncode, minutes, edits


def show(minutes, edits, elapsed):
    """Prints the table, the crates that are far beyond their bars, and the slowest must-fail edits."""
    bar, crates = bars(), sorted({crate for crate, _ in minutes})
    numbers = {crate: [*(minutes[crate, part] for part in PARTS), bar.get(crate, 0)] for crate in crates}
    numbers["all"] = [*(sum(minutes[crate, part] for crate in crates) for part in PARTS), sum(bar.values())]
    rows = [[crate, *(f"{it:.1f}" for it in (*its[:-1], sum(its[:-1]), its[-1]))] for crate, its in numbers.items()]
    print(table(["crate", *PARTS, "sum", "bar"], *rows))
    print(f"{elapsed / 60:.0f} minutes by the clock")
    for crate in crates:
        its, most = sum(numbers[crate][:-1]), numbers[crate][-1]
        if its > FAR_BEYOND * most:
            print(f"slow: {crate} took {its:.1f} processor minutes, and its bar is {most:.1f}")
    for (crate, edit), seconds in edits.most_common(NAMED):
        print(f"{seconds:.0f} s {crate}: {name_of(crate, edit)}")


def command_of(text):
    """The command that the words of the command line give."""
    if not sys.argv[1:] or sys.argv[1] in ("-h", "--help"):
        sys.exit(inspect.cleandoc(text))
    return sys.argv[1:]


def main():
    command = command_of(__doc__)
    begun = time.monotonic()
    status, minutes, edits = watched(command)
    show(minutes, edits, time.monotonic() - begun)
    return status


def idle():
    """Runs a command that takes only the time that nothing else wants, as beside the gate.

    `chrt -i 0` alone is not enough: the system gives each session of processes its share, however idle it is. So the command gets
    a session of its own, whose share is the least."""
    least = 'if [ -w /proc/self/autogroup ]; then echo 19 > /proc/self/autogroup; fi; exec chrt -i 0 "$@"'
    return subprocess.run(["sh", "-c", least, "idle", *command_of(idle.__doc__)], start_new_session=True, check=False).returncode
