"""What there is: wrong bodies, the definitions that a clause rests on, built programs, names, and what is long or stands often."""

import collections
import fnmatch
import itertools
import os
import re
import textwrap

from common import COMPILERS, CRATES, HERE, ROOT, Tally, asked, built, clauses_in
from definitions_run.headline import VALUE, clauses, counts, rests_on, short_path
from definitions_run.modules import PROOF, read_modules

# The folders of wrong bodies, each with the mark of its names.
FOLDERS = {"must-fail": "*", "planted": "+", "wrong": ""}
# What a reason begins with, and an item of a source.
REASONS = ("same", "field", "rename")
ITEM = re.compile(r"(?m)^pub (?:fn|struct|enum|trait|type|const) (\w+)")
COLUMNS, LINE, OFTEN = 100, 200, 2
# What the tools of .ci read.
TABLES = ("*/*.jobs", "definitions_[au]*", "names_allowed", "counts", "bars")


def edits():
    """Prints the names of the wrong bodies by crate, all or those of some. A name says what the body does.

    A * marks those of must-fail/, a + those of planted/, which a test must show; the prover must refuse all others."""
    count, lines = 0, textwrap.TextWrapper(118, subsequent_indent="  ", break_long_words=False, break_on_hyphens=False)
    for crate in asked(edits.__doc__, "CRATE").rest or sorted(it.name for it in CRATES.iterdir()):
        names = sorted(it.stem + mark for folder, mark in FOLDERS.items() for it in (CRATES / crate / folder).glob("*.edit"))
        count += len(names)
        if names:
            print(lines.fill(f"{crate} ({len(names)}): {', '.join(names)}."))
    print(f"{count} in all")


def print_whole(closure):
    """Each definition as it stands, with its file and line."""
    for one in closure.definitions:
        with open(one.module.path, encoding="utf-8") as file:
            text = file.read().split("\n")
        lines = [text[number - 1] for number in sorted({token.line for token in one.tokens})]
        print(f"-- {short_path(one.module.path)}:{one.line}", *lines, "", sep="\n")


def print_names(closure):
    """A line for each file, with the names of its definitions."""
    for path, its in itertools.groupby(closure.definitions, lambda one: one.module.path):
        print(f"{short_path(path)}: {', '.join(one.name for one in its)}")


def trust():
    """Prints what clauses rest on: their definitions, in reading order, with file and line, and how many there are.

    dev trust                              what the value that `run` writes rests on: clause `value` dev trust CRATE FUNCTION [CLAUSE ..]
    all clauses of a public function's contract, or some of them dev trust --names ..                   names alone, a line for each file"""
    wish = asked(trust.__doc__, "CRATE FUNCTION CLAUSE", names=False)
    crate, function, *names = wish.rest or VALUE
    modules = read_modules(CRATES)
    if not [*clauses(modules, crate, function, *names)]:
        print("no such clause")
        return 1
    closure = rests_on(modules, crate, function, *names)
    (print_names if wish.names else print_whole)(closure)
    print(f"{counts(closure)}, {len(closure.declared)} types of Rattle, {len(closure.kit)} words of the kit")
    return 0


def programs():
    """Sees that programs stand built by both compilers, over what stands in the crates now, and prints their places: of snesl, or
    of these."""
    places = built(*(asked(programs.__doc__, "CRATE").rest or ["snesl"]))
    print(*(place for compiler in COMPILERS for place in places[compiler].values()), sep="\n")


def of_specs():
    """Each public definition: its name, crate and place."""
    for module in read_modules(str(CRATES)).values():
        for definition in module.definitions.values():
            if "pub" in definition.tokens[:3] and definition.kind != PROOF:
                yield definition.name, module.name.split(".")[1], definition.place


def of_sources():
    """Each public item that other crates can name: its name, crate and place."""
    for library in sorted(CRATES.glob("*/src/lib.rt")):
        for name, place in of_part(library, library.parent):
            yield name, library.parent.parent.name, place


def of_part(root, folder):
    """Each item that can be named of a crate or of a part of one, by the file that passes names on, and the folder: its name and place."""
    text = root.read_text(encoding="utf-8")
    passed_on = {word for use in re.findall(r"(?m)^pub use ([^;]*);", text) for word in re.findall(r"\w+", use)}
    opened = re.findall(r"(?m)^pub mod (\w+);", text)
    for file in sorted({root, *folder.glob("*.rt")}):
        part = file.with_suffix("")
        if file != root and file.stem in opened and part.is_dir():
            yield from of_part(file, part)
            continue
        for inner in [file, *sorted(part.rglob("*.rt"))] if file != root else [file]:
            code = inner.read_text(encoding="utf-8")
            for item in ITEM.finditer(code):
                if item[1] in passed_on or file == root or file.stem in opened:
                    yield item[1], f"{inner}:{code.count(chr(10), 0, item.start()) + 1}"


def places():
    """The places of each name, by crates, of the crates on which others stand."""
    listed = re.findall(r"(?m)^([a-z][^:\n]*):(.*)", (ROOT / "crates.txt").read_text(encoding="utf-8"))
    below, found = {word for crate, others in listed if not crate.split()[0].endswith("_tests") for word in others.split()}, {}
    for name, crate, place in (*of_specs(), *of_sources()):
        if crate in below:
            found.setdefault(name, {}).setdefault(crate, []).append(os.path.relpath(place, ROOT))
    return found


def allowed():
    """The lines of the list: the names of each, its crates and its reason."""
    for line in (HERE / "names_allowed").read_text(encoding="utf-8").splitlines():
        if line and not line.startswith("#"):
            names, crates, reason = line.split(" : ", 2)
            yield names.split(), set(crates.split()), reason


def names():
    """Checks that no name stands for two ideas in two crates, but for those that .ci/names_allowed has; or prints where names are defined.

    Looked at are what other crates can name: public definitions of crates/*/specs that are no proofs, and public types, functions and
    constants of crates/*/src that lib.rt passes on or has in a public module. Methods are not, since their type tells them apart; nor
    are crates on which, by crates.txt, none stands but those of tests. A line of the list has names, the crates that have them, and a
    reason, which begins with a word:

        same      they say the same, each of its own type or of what it stands on
        field     words of the field or of the interface, which docs/GLOSSARY.md tells apart
        rename    they say different things: one of them should get another name"""
    wanted, found = asked(names.__doc__, "NAME").rest, places()
    for name in wanted:
        print("\n".join(f"{name}: {place}" for crate in found.get(name, {}).values() for place in crate))
    if wanted:
        return 0
    several = {name: set(crates) for name, crates in found.items() if len(crates) > 1}
    lines, tally, renamed = list(allowed()), Tally("names"), 0
    listed = [name for its, _, _ in lines for name in its]
    others = several.keys() - set(listed)
    for its, crates, reason in lines:
        word = reason.partition(",")[0]
        for name in its:
            matched = fnmatch.filter(others, name) if crates == {"any"} else [name] * (several.get(name) == crates)
            others -= set(matched)
            tally.passed, renamed = tally.passed + len(matched), renamed + len(matched) * (word == "rename")
            if not matched or word not in REASONS or listed.count(name) > 1:
                its = " ".join(sorted(several.get(name, ["one crate, or none"])))
                tally.that(False, f"the list has {name}, which stands in {its}: {reason}")
    for name in sorted(others):
        tally.that(False, f"{name} stands in {' '.join(sorted(several[name]))}")
    return tally.end(f", {renamed} to be renamed")


def clauses_of(crate):
    for file in sorted((crate / "src").rglob("*.rt")):
        text = file.read_text(encoding="utf-8")
        for _, begin, end in clauses_in(text):
            yield " ".join(text[begin:end].split()), f"{file.relative_to(ROOT)}:{text.count(chr(10), 0, begin) + 1}"


def often(found):
    """The clauses that stand word for word in more than two functions of a crate, with how often."""
    counts = collections.Counter(clause for clause, _ in found)
    return {clause: count for clause, count in counts.items() if count > OFTEN}


def lines_of(*patterns):
    """All lines of the files of patterns."""
    for file in {it for pattern in patterns for it in ROOT.glob(pattern)}:
        if file.is_file() and not {"out", "__pycache__"} & {*file.relative_to(ROOT).parts}:
            yield from file.read_text(encoding="utf-8").splitlines()


def print_crate(name):
    """The clauses of a crate that break the rules."""
    found = list(clauses_of(CRATES / name))
    for clause, place in found:
        if len(clause) > COLUMNS:
            print(f"{place}: {len(clause)} columns: {clause}")
    for clause, count in often(found).items():
        print(f"{name}: {count} times: {clause}")


def print_numbers():
    """The numbers of the tree, a line each."""
    found = {it.name: list(clauses_of(it)) for it in sorted(CRATES.iterdir()) if (it / "src").is_dir()}
    texts = [clause for of_crate in found.values() for clause, _ in of_crate]
    proofs = list(lines_of("crates/*/proofs/**/*.antt"))
    logic = proofs + list(lines_of("crates/*/specs/**/*.antt"))
    words = re.findall(r"(?m)\S*\w\S*", "\n".join(lines_of("README.md", "docs/*.md", "crates/*/README.md")))
    tools, tables = (sum(1 for _ in lines_of(*its)) for its in ([".ci/**/*"], [f".ci/{it}" for it in TABLES]))
    print(f"{len(found)} crates")
    print(f"{len(texts)} clauses, {sum(len(it) > COLUMNS for it in texts)} over {COLUMNS} columns")
    print(f"{sum(len(often(it)) for it in found.values())} clauses stand in more than {OFTEN} functions of a crate")
    print(f"{len(proofs)} lines of proofs; {sum(len(it) > LINE for it in logic)} of specs and proofs over {LINE} columns")
    print(f"{len(words)} words of pages")
    print(f"{tools} lines of .ci, {tables} of them of lists and tables")
    worst = sorted(((sum(len(c) > COLUMNS for c, _ in it), name) for name, it in found.items()), reverse=True)
    print("over", COLUMNS, "columns:", ", ".join(f"{name} {count}" for count, name in worst if count))


def house():
    """Prints how the house stands: what is long, and what stands more often than it should.

    Of crates that are named it prints the clauses that are over 100 columns, or stand in more than two functions; without a name the
    numbers of the whole tree. A clause is counted as one line, its words apart by one blank, from `requires` or `ensures` to its end.
    Words of pages have a letter or a digit. Of .ci what the tools read is counted apart, as lists and tables."""
    crates = asked(house.__doc__, "CRATE").rest
    for name in crates:
        print_crate(name)
    if not crates:
        print_numbers()
