"""The functions of a crate that have a body: what the prover calls each, and where its body stands.

They are read from the prover's own tokens of the crate's files.
"""

import collections
import dataclasses
import pathlib
import re
import subprocess

from kit import rt

Token = collections.namedtuple("Token", "line begin end word")
# A block in braces: the tokens before it, from the end of the last statement or item on, and its first brace.
Block = collections.namedtuple("Block", "head brace")
ROW = re.compile(r'(?m)^(\d+) (\d+) (\d+) Code "(.*)"$')
OF_TESTS = re.compile(r"# \[ (?:cfg \( )?test\b")
# The head of an impl whose trait takes types, which may take types in turn.
TAKES = re.compile(r"\w+ < ((?:[^<>]|<(?:[^<>]|<[^<>]*>)*>)*) > for ")


@dataclasses.dataclass(eq=False)
class Function:
    """A function with a body: its name as a check prints it, its first and last line, and the bytes of its body."""

    name: str
    file: str
    first: int
    last: int
    begin: int
    end: int
    # the name that functions that call one another share, and with it their proof
    cycle: str | None
    # it calls itself, alone or with the others of its cycle
    recurs: bool
    # callers know no more of it than its contract, as of a const fn
    is_plain: bool
    # a proof file with a hole can stand for its proof, which no function has that calls itself or that a trait declares
    has_stub: bool
    # a function of the same text and another name can stand behind it, which no method of a trait has
    has_copy: bool

    @property
    def proofs(self):
        return f"proofs/{self.name.replace('::', '/')}"

    @property
    def cycle_proofs(self):
        """The folder of the proof files of a function that calls itself, and of the others of its cycle."""
        above, _, name = self.proofs.rpartition("/")
        return f"{above}/+{self.cycle or name}"

    def holds(self, file, begin, end):
        return self.file == file and self.begin <= begin and end <= self.end


class Code:
    """The tokens of a crate's files, without clauses, and its functions. What is compiled for tests alone is left out."""

    def __init__(self, crate):
        self.folder = crate.folder
        tokens = tokens_of(crate)
        of_tests = tuple(place for file, its in tokens.items() for place in places_of_tests(file, its))
        self.tokens = {file: its for file, its in tokens.items() if not file.startswith(of_tests)}
        # a type's own functions are named by the module that declares it
        self.types, self.nested = collections.defaultdict(list), set()
        for file, tokens in self.tokens.items():
            for at, (before, token) in enumerate(zip(tokens, tokens[1:])):
                if before.word in ("struct", "enum"):
                    self.types[token.word].append(file)
                    # those whose values may hold others of their own type
                    self.nested |= {token.word} if holds_its_own(tokens, at + 1) else set()
        self.functions = []
        for file, tokens in self.tokens.items():
            for around, block, end in blocks_of(tokens):
                of_tests = any(OF_TESTS.search(" ".join(words_of(it))) for it in (*around, block))
                if is_function(block) and not any(map(is_function, around)) and not of_tests:
                    self.functions.append(self.function(file, around, block, end))

    def function(self, file, around, block, end):
        heads = [words_of(it) for it in (*around, block)]
        name = heads[-1][heads[-1].index("fn") + 1]
        inside = [it.word for it in self.tokens[file] if block.brace.end <= it.begin < end.begin]
        cycle = next((it[it.index("cycle") + 2] for it in heads if "cycle" in it), None)
        is_plain = not any(word in head for head in heads for word in ("const", "unsafe"))
        path = self.path(file, around)
        has_measure = pathlib.Path(self.folder, "proofs", *path, f"+{name}").is_dir()
        calls_itself = has_measure or calls_alike(inside, name, any("impl" in it for it in heads), bool(self.nested & {*path[-1:]}))
        recurs, is_own = cycle is not None or calls_itself, is_plain and not any("trait" in it for it in heads)
        return Function(
            name="::".join([*path, name]),
            file=file,
            first=block.head[0].line,
            last=end.line,
            begin=block.brace.end,
            end=end.begin,
            cycle=cycle,
            recurs=recurs,
            is_plain=is_plain,
            has_stub=is_own and not recurs,
            has_copy=is_own and not any("impl" in it and "for" in it for it in heads[:-1]),
        )

    def path(self, file, around):
        """The names of the modules, the types and the traits around a function."""
        names = []
        for words in map(words_of, around):
            name = name_of(words)
            names += [name] if name else []
            homes = self.types[name] if "impl" in words and "for" not in words else []
            if homes and file not in homes:
                file = homes[0]
        return [it for it in file[len("src/") : -len(".rt")].split("/") if it not in ("lib", "main", "mod")] + names

    def around(self, file, begin, end):
        return [it for it in self.functions if it.holds(file, begin, end)]

    def naming(self, constant):
        """The functions whose bodies name a constant, or none where something else names it too, as a contract or a type may."""
        found = []
        for file, tokens in self.tokens.items():
            for at, token in enumerate(tokens):
                if token.word == constant and tokens[at - 1].word != "const":
                    around = self.around(file, token.begin, token.end)
                    head = next((it.word for it in reversed(tokens[:at]) if it.word in (";", "use")), ";")
                    if not around and head != "use":
                        return []
                    found += [it for it in around if it not in found]
        return found


def tokens_of(crate):
    files = sorted(str(it.relative_to(crate.folder)) for it in pathlib.Path(crate.folder, "src").rglob("*.rt"))
    words = [rt.rtlib.RATTLE, "fmt", "--tokens", *files]
    said = subprocess.run(words, cwd=crate.folder, stdout=subprocess.PIPE, check=True).stdout.decode()
    parts = re.split(r"(?m)^file \d+\n", said)[1:]
    return {file: [Token(*map(int, it.groups()[:3]), it[4]) for it in ROW.finditer(part)] for file, part in zip(files, parts, strict=True)}


def places_of_tests(file, tokens):
    """Where the modules lie that a file declares for tests alone: a file and a folder each."""
    above = file.removesuffix("lib.rt").removesuffix("main.rt").removesuffix("mod.rt").removesuffix(".rt").rstrip("/")
    for name in re.findall(r"# \[ cfg \( test \) \] (?:pub )?mod (\w+) ;", " ".join(it.word for it in tokens)):
        yield from (f"{above}/{name}.rt", f"{above}/{name}/")


def blocks_of(tokens):
    """Each block in braces that stands in no parentheses, with those around it and the brace that ends it."""
    around, head, depth = [], [], 0
    for token in tokens:
        depth += (token.word in ("(", "[")) - (token.word in (")", "]"))
        if depth == 0 and token.word == "{":
            around.append(Block(head or [token], token))
            head = []
        elif depth == 0 and token.word == "}":
            block = around.pop()
            yield tuple(around), block, token
            head = []
        elif depth == 0 and token.word == ";":
            head = []
        else:
            head.append(token)


def holds_its_own(tokens, at):
    """Whether the declaration of the type that is named there names it again."""
    depth, words = 0, []
    for token in tokens[at + 1 :]:
        depth += (token.word in ("(", "{")) - (token.word in (")", "}"))
        words.append(token.word)
        if depth == 0 and token.word in (";", "}"):
            break
    return tokens[at].word in words


def calls_alike(words, name, is_method, is_nested):
    """Whether a function of this name with these words probably calls itself: by its name alone, or where it is a method of a type that
    holds values of that type, by a receiver. Else a receiver or a path mostly leads to another type's function of that name."""
    calls = {before for before, word, after in zip(["{", *words], words, words[1:]) if (word, after) == (name, "(")}
    return bool(not is_method and calls - {".", ":"} or is_nested and "." in calls)


def words_of(block):
    return [it.word for it in block.head]


def is_function(block):
    return any(it.word == "fn" for it in block.head)


def without_types(text):
    """The text without what types and traits take."""
    text = text.replace("- >", "")
    while (less := re.sub(r"<[^<>]*>", "", text)) != text:
        text = less
    return text


def name_of(words):
    """What a module, a trait or an impl adds to the names of its functions: an impl its type, its trait and what that takes."""
    text = " ".join(words).partition(" where ")[0]
    plain = re.findall(r"\w+", without_types(text))
    for word in ("mod", "trait"):
        if word in plain:
            return plain[plain.index(word) + 1]
    if "impl" not in plain:
        return None
    if "for" not in plain:
        return plain[-1]
    taken = TAKES.search(text)
    types = without_types(taken[1]).split(",") if taken else []
    # The types of the language stand there with a capital, as `BoolFlip`, and the unit as `Unit`.
    its = (plain[plain.index("for") + 1 :] or ["Unit"])[-1]
    return its[0].upper() + its[1:] + plain[plain.index("for") - 1] + "".join(re.findall(r"[A-Za-z]\w*", it)[-1] for it in types)
