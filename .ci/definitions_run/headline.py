"""What clauses rest on: the closure of the names that they cite. The clauses of the headline, and docs/TRUST.md and README.md, which count."""

import collections
import contextlib
import os
import re

from common import CRATES, ROOT, clauses_in, table

from .modules import PROOF, Definition, Found, Module, NameMissing, Scope
from .terms import equation_parts
from .tokens import WORD, FormError, binder_names, tokens_of

HEADLINE = (("snesl_run", "run"), ("snesl_flatten", "drive_program"))
# What the value that `run` writes rests on, which the pages count.
VALUE = ("snesl_run", "run", "value")
BEGIN, END = "<!-- `.ci/dev definitions` writes this -->\n", "<!-- up to here -->\n"
PAGE, README = ROOT / "docs/TRUST.md", ROOT / "README.md"

# A clause of a function's contract, as a scope of names and the tokens that it cites.
Clause = collections.namedtuple("Clause", "name scope tokens")


class GhostModule(Module):
    """The names that a file of Rattle imports for its contracts."""

    def __init__(self, path, text):
        super().__init__(path, path)
        for written in re.findall(r"^ghost use ([^;]*);", text, re.MULTILINE):
            self.use(tokens_of(written, 0))


def clauses(modules, crate, function, *names):
    """The clauses that a public function ensures, all or those of these names."""
    head = re.compile(rf"(?ms)^pub fn {function}\b.*?^\{{")
    files = [(it, it.read_text(encoding="utf-8")) for it in sorted((CRATES / crate / "src").rglob("*.rt"))]
    path, text, found = next(((it, text, head.search(text)) for it, text in files if head.search(text)), (None, None, None))
    if found is None:
        raise FormError(f"{crate} has no function `{function}`")
    scope = Scope(modules, GhostModule(str(path), text))
    for name, begin, end in clauses_in(text):
        keyword, _, claim = text[begin:end - 1].partition("{")
        if found.start() < begin < found.end() and "ensures" in keyword and name in (names or (name,)):
            yield Clause(name, scope, tokens_of(claim.replace("\n", " "), text.count("\n", 0, begin) + 1))


class Closure:
    """All definitions that names rest on, in the order in which they are met."""

    def __init__(self, modules):
        self.modules, self.found, self.kit, self.declared, self.waiting = modules, {}, set(), set(), []

    def add_tokens(self, scope, tokens, bound=()):
        """Adds what the tokens cite, but for the names that they bind."""
        bound = set(bound) | binder_names(tokens)
        for token in tokens:
            name = str(token).rstrip(".") or str(token)
            if WORD.match(name) and name not in bound and name.split(".")[0] not in bound:
                self.add_name(scope, name)

    def add_name(self, scope, name):
        """Adds what a name stands for: it alone, an operator, or a name whose fields are taken."""
        for one in (name, f"◌{name}◌", name.split(".")[0]):
            with contextlib.suppress(NameMissing):
                found = scope.own(one) or (scope.find(one)[0] if "." in one else None)
                if found is not None:
                    return self.add(found, scope, one)

    def add(self, found, scope, name):
        """Adds what was found: a definition, the type of a constructor, a word of the kit, or a type of Rattle."""
        what = found.what
        if isinstance(what, Definition):
            if what.kind != PROOF and what.key not in self.found:
                self.found[what.key] = what
                self.waiting.append(what)
            return
        path, last = what if isinstance(what, tuple) else what.rpartition(".")[::2]
        module = self.modules.get(path)
        if module is not None:
            self.add(Found("type", module.constructors[last]), scope, name)
        elif ".declared." in path:
            self.declared.add(path.removesuffix(".TheVariants"))
        else:
            self.kit.add(name)

    def close(self):
        """Adds what the definitions that were added cite in turn."""
        while self.waiting:
            definition = self.waiting.pop(0)
            scope = Scope(self.modules, definition.module)
            bound = set(definition.parameters) | binder_names(definition.headers)
            self.add_tokens(scope, definition.headers, bound)
            written = sum(len(tokens) for tokens in definition.equations)
            self.add_tokens(scope, definition.tokens[1:len(definition.tokens) - written], bound)
            for tokens in definition.equations:
                left, right = equation_parts(tokens, definition.module.path)
                self.add_tokens(scope, left, bound)
                self.add_tokens(scope, right, bound | self.pattern_names(scope, left))
        return self

    def pattern_names(self, scope, left):
        """The names that the left side of an equation binds: all but constructors."""
        names = set()
        for token in left[1:]:
            found = scope.own(str(token)) if WORD.match(token) else None
            if found is None or found.kind not in ("constructor", "constant"):
                names.add(str(token))
        return names

    @property
    def definitions(self):
        """What was found, file by file in the order in which they are met, each file by its lines."""
        files = list(dict.fromkeys(one.module.path for one in self.found.values()))
        return sorted(self.found.values(), key=lambda one: (files.index(one.module.path), one.line))

    @property
    def lines(self):
        """How many lines they have, without comments."""
        return sum(one.lines for one in self.found.values())


def closure_of(modules, clauses):
    closure = Closure(modules)
    for clause in clauses:
        closure.add_tokens(clause.scope, clause.tokens)
    return closure.close()


def rests_on(modules, *clause):
    return closure_of(modules, clauses(modules, *clause))


def whole_headline(modules):
    return closure_of(modules, [clause for function in HEADLINE for clause in clauses(modules, *function)])


def counts(closure):
    files = len({one.module.path for one in closure.found.values()})
    return f"{len(closure.found):,} definitions, {closure.lines:,} lines, {files} files"


def short_path(path):
    return os.path.relpath(path, CRATES)


def one_name(definition):
    return f"{short_path(definition.module.path)} {definition.name}"


def count_rows(modules, unread):
    """What each clause rests on, and how many of that rows run."""
    for crate, function in HEADLINE:
        for name in [clause.name for clause in clauses(modules, crate, function)] + [None]:
            closure = rests_on(modules, crate, function, *[name] * (name is not None))
            run = sum(one_name(one) not in unread for one in closure.found.values())
            yield f"`{function}`", f"`{name}`" if name else "all", counts(closure), run


class Pages:
    """docs/TRUST.md and README.md as they have to be, where these definitions are not run."""

    def __init__(self, modules, unread):
        self.table = table(("function", "clause", "it rests on", "rows run"), *count_rows(modules, unread))
        self.table += "\n\n`.ci/definitions_unread` names those that no row runs: types, claims that are not decided, and what these cite."
        self.number = counts(rests_on(modules, *VALUE))

    def rewritten(self, page):
        """The text of the page with its table written anew."""
        before, _, rest = page.partition(BEGIN)
        return f"{before}{BEGIN}\n{self.table}\n\n{END}{rest.partition(END)[2]}"

    def differ(self, page, readme):
        """What is said of the texts of both pages."""
        said = [] if page == self.rewritten(page) else ["docs/TRUST.md says otherwise: .ci/dev definitions --write writes it anew"]
        if self.number not in " ".join(readme.split()):
            said.append(f"README.md says otherwise of `{VALUE[2]}`: it rests on {self.number}")
        return said

    def differ_now(self):
        return self.differ(PAGE.read_text(encoding="utf-8"), README.read_text(encoding="utf-8"))

    def write(self):
        PAGE.write_text(self.rewritten(PAGE.read_text(encoding="utf-8")), encoding="utf-8")
