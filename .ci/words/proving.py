"""What crates are proved by: the kit's crates, checks that keep their modules, and the words that prove what changed, or all anew."""

import collections
import copy
import functools
import os
import pathlib
import re
import subprocess
import sys
import tempfile
import time

from common import ROOT, Tally, asked
from kit import is_built, rt

PARTS = {"Lts": "walk", "Tie": "tie", "Proof": "goals", "Answers": "answers", "Goals": "rest"}
# What the prover calls the modules of one function's proof begins so, each with numbers or names behind it.
OF_FUNCTION = re.compile(
    "(Lts|Tie|Proof|Answers|Goals|Invariants|Carried|Code|Kinds|Layout|Met|Mir|Named|Reads|Statement|Symbol|TheLink|Given|View)(-|$)"
)
# How many functions and lemmas are named, and the least seconds of a part that is.
NAMED, LEAST = 20, 0.05


def crates_here():
    """The crates of this repository by name, as the kit reads them."""
    os.chdir(ROOT)
    # (its first call sets a signal's handler, which only the main thread may)
    rt.rtlib.guarded()
    return {it.name: it for it in rt.rtlib.crates_below(os.getcwd())}


def crates_named(crates, names, over_libraries=False):
    """The crates of these names. It is an error where there is none, and if asked for where a library below one is not built."""
    unknown = {*names} - crates.keys()
    if unknown:
        sys.exit(f"no crate here has the name {' '.join(sorted(unknown))}")
    unfit = [it.name for name in names for it in crates[name].below() if over_libraries and not is_built(it)]
    if unfit:
        sys.exit(f"not built, or of another text: {' '.join(dict.fromkeys(unfit))}. `.ci/dev changed` builds them")
    return [crates[it] for it in names]


def check(crate, kept, *words, folder=None, tests=False):
    """A check of a crate, or of what stands in another folder, that keeps each module in a folder once it has checked it."""
    whole = [rt.rtlib.RATTLE, "check", *crate.words(["--jobs", "1"], tests=tests, keeps=False), "--incremental", str(kept), *words]
    how = {"stdout": subprocess.PIPE, "stderr": subprocess.STDOUT, "errors": "replace"}
    return subprocess.run([*rt.rtlib.guarded(), *whole], cwd=folder or crate.folder, check=False, **how)


def kept_modules(kept, begun):
    """The modules that a check kept, in turn: the name of each, and the seconds since the one before it, or since the check began."""
    files = sorted((it.stat().st_mtime, it.name) for it in pathlib.Path(kept).rglob("*.oantt"))
    for at, name in files:
        yield name.removesuffix(".oantt").removesuffix(".decls"), at - begun
        begun = at


def prove(crate, given):
    """Whether the crate is proved, given which of those below it are."""
    if not all(given[it.name, "proof"] for it in crate.below()):
        return False
    if crate.makes_rlib() and crate.is_built():
        return True
    begun, own = time.monotonic(), copy.copy(crate)
    os.makedirs(f"{crate.folder}/out", exist_ok=True)
    with open(f"{crate.folder}/out/changed.log", "w", encoding="utf-8") as own.out:
        try:
            failed = own.build_rlib(["--jobs", "1"], anew=False) if own.makes_rlib() else own.check(["--jobs", "1"])
        except SystemExit:
            failed = True
    print(f"{crate.name}: {'NOT PROVED' if failed else 'proved'}, {time.monotonic() - begun:.0f} s", flush=True)
    return not failed


def changed():
    """Proves the crates that changed and builds their libraries, many side by side, over what earlier checks kept in their out/:
    crates that are named and all below them, or all.

    It is for the time between two runs of the gate: tests, wrong bodies and what `rt ci` refuses besides are not looked at. Several
    `rt` in one tree wait for one another, and each sums up all that a crate stands on many times over; so this does in one process
    what `rt lib` does of a library and `rt check` of a program. What a check says is in crates/CRATE/out/changed.log. RT_JOBS is the
    number of checks at a time, if not what processors and memory allow. It prints a line for each crate that was not as it stands."""
    names = asked(changed.__doc__, "CRATE").rest
    rt.rtlib.Crate.stamp = functools.cache(rt.rtlib.Crate.stamp)
    crates = crates_here()
    wanted = {it.name for crate in crates_named(crates, names or [*crates]) for it in [crate, *crate.below()]}
    tasks, tally = {}, Tally("changed")
    for crate in sorted((crates[it] for it in wanted), key=lambda it: (len(it.below()), it.name)):
        waits = [(it.name, "proof") for it in crate.below()]
        tasks[crate.name, "proof"] = (waits, crate.count(rb"\n"), rt.need(crate), lambda given, jobs, it=crate: prove(it, given))
    for (name, _), is_proved in rt.in_lanes(tasks).items():
        tally.that(is_proved, f"{name} is not proved")
    return tally.end()


def place_of(module, crate):
    """The function or lemma that a module of the crate belongs to, and the part of its proof that it is."""
    path = module.removeprefix(f"Rattle-{crate}-proofs.")
    if path == module:
        return "what is stated, and the libraries below", "rest"
    names = path.split(".")
    at = next((at for at, name in enumerate(names) if OF_FUNCTION.match(name)), None)
    if at is None:
        return path, "lemma"
    return "::".join(names[:at]), PARTS.get(OF_FUNCTION.match(names[at])[1], "rest")


def show(crate, tests):
    """Proves a crate, and prints what its functions and their parts took."""
    spent, begun = collections.defaultdict(collections.Counter), time.time()
    with tempfile.TemporaryDirectory(prefix="slow-") as room:
        ran, ended = check(crate, room, tests=tests), time.time()
        for module, seconds in kept_modules(room, begun):
            place, part = place_of(module, crate.name)
            spent[place][part] += seconds
    if ran.returncode:
        sys.exit(f"{ran.stdout[-2000:]}\nslow: {crate.name} is not proved")
    spent["the verdict, after the last module"]["rest"] = ended - begun - sum(it.total() for it in spent.values())
    print(f"{crate.name}: {ended - begun:.0f} s")
    for place, parts in sorted(spent.items(), key=lambda it: -it[1].total())[:NAMED]:
        told = ", ".join(f"{part} {its:.1f}" for part, its in parts.most_common() if its >= LEAST)
        print(f"{parts.total():7.1f} {place}: {told}")


def slow():
    """Proves crates from nothing, over the libraries that stand, or with --test with their tests, and prints where the time went: the
    functions and lemmas that took most seconds by the clock.

        walk      the steps of the code, with each value that is let go
        tie       what joins these steps to the goals
        goals     the goals that have no answer in proofs/, which are searched
        answers   the goals that have one
        lemma     a file of lemmas, and what it stands on
        rest      statements, layouts and the like

    The prover keeps each module of a proof once it has checked it. So the time between two of them is taken for what the later one
    took: what was loaded for it counts too, as the code of the libraries below, and the first function that needs that pays for all.
    Beside other work the seconds are more."""
    wish = asked(slow.__doc__, "CRATE", "+", test=False)
    for crate in crates_named(crates_here(), wish.rest, over_libraries=True):
        show(crate, wish.test)
