"""Checks that docs/CALLING.md names callers that are proved, and contracts that stand; or prints the callers of some files of
crates/callers/src, and the clauses on which they rest.

In the block of the page that begins with ```text a line names a file of crates/callers/src, and a line below it, `FUNCTION, FILE:
CLAUSE ..`, a function of a file of crates/, with the clauses of it on which the callers rest: by their names, or by `requires` or
`ensures` where they have none. Each file of crates/callers/src has its lines, so that no caller is forgotten. A block that begins
with ```rust stands word for word in one of them, from the beginning of a line to the end of one."""

import re
import sys

from common import CRATES, ROOT, Tally, asked, clauses_in

PAGE = ROOT / "docs" / "CALLING.md"
# The files of callers by name, but for the roots of the crate and of its part, which hold none.
ROOTS = {"lib.rt", "strangers.rt"}
SOURCES = {it.name: it.read_text(encoding="utf-8") for it in sorted((CRATES / "callers" / "src").glob("*.rt")) if it.name not in ROOTS}


def blocks(fence):
    """The blocks of the page that begin with the fence."""
    return re.findall(rf"(?ms)^{fence}\n(.*?)\n```$", PAGE.read_text(encoding="utf-8"))


def named():
    """The clauses that the page names: a file of callers, a function, its file, and the clause's name."""
    callers = None
    for line in "\n".join(blocks("```text")).split("\n"):
        if line.startswith(" "):
            function, _, rest = line.strip().partition(", ")
            file, _, names = rest.partition(": ")
            yield from ((callers, function, file, name) for name in names.split() or [None])
        else:
            callers = line


def clauses_of(function, file):
    """The clauses of a function of a file of crates/ by their names, each with its text."""
    path, found = CRATES / file, {}
    # Each function goes from its name to where the next one begins.
    for part in re.split(r"(?=\bfn \w)", path.read_text(encoding="utf-8")) if path.is_file() else []:
        if re.match(rf"fn {function.split('::')[-1]}\b", part):
            for name, begin, end in clauses_in(part):
                found.setdefault(name, part[begin:end].strip("\n"))
    return found


def check():
    """Says what is not so, and how much is."""
    tally, entries = Tally("callers"), list(named())
    for callers, function, file, name in entries:
        stands = callers in SOURCES and name in clauses_of(function, file)
        tally.that(stands, f"{function} of {file} has no such clause, or there is no file {callers}: {name}")
    for name in SOURCES.keys() - {it[0] for it in entries}:
        tally.that(False, f"{PAGE.name} names nothing on which {name} rests")
    for block in blocks("```rust"):
        whole = re.compile(rf"^{re.escape(block)}$", re.MULTILINE)
        stands = any(whole.search(text) for text in SOURCES.values())
        tally.that(stands, f"no file of crates/callers/src has the block of {PAGE.name} that begins with {block[:60]!r}")
    return tally.end()


def show(name):
    """Prints the callers of a file, and the clauses on which they rest."""
    print(SOURCES.get(f"{name}.rt") or sys.exit(f"callers: there is no file of callers {name}"))
    before = None
    for callers, function, file, clause in named():
        if callers == f"{name}.rt":
            if (function, file) != before:
                print(f"{function}, crates/{file}")
            before = function, file
            print(clauses_of(function, file)[clause])


def main():
    names = asked(__doc__, "FILE").rest
    for name in names:
        show(name)
    return 0 if names else check()
