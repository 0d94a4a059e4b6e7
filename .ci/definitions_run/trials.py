"""The rows of tables, tried: what the definitions answer, beside what the row tells."""

from .answers import Job, refusal_line
from .library import NONE, some
from .programs import Refused, Source, parts_of_job
from .relations import HOLE
from .values import Built, key_of, plain

LEXICAL = "snesl_grammar.specs.lexer.Lexical"
PROGRAMS = "snesl_types.specs.Programs"
INPUT_TOKENS = "snesl_values.specs.InputTokens"
MEANING = "snesl_meaning.specs.Value"
MOST_RULED = 120
BAD_CONFIGURATION = b"refused 10"
# What words of the command line say (snesl_run). Which word is the value of which option is read here, in place of the kit's clap. That
# the values say a configuration, and that it is lawful, is decided by the definitions.
NUMBERS = {b"capacity": 256, b"chunk": 16, b"threads": 2, b"idle": 64}
NAMES = (*NUMBERS, b"drive", b"deal")
DRIVES = {b"serial": "Serial", b"rounds": "Rounds", b"rings": "Rings"}
DRIVE = "Rattle.flow_drives.specs.declared.config.Drive.TheVariants."


def option_values(words):
    """The values that the words give options, by name; None where they are no command line."""
    words, found = list(words), {}
    while words:
        word = words.pop(0)
        if word == b"--":
            return found if not words else None
        name, equals, value = word.partition(b"=")
        name = name.removeprefix(b"--") if word.startswith(b"--") else b""
        if name not in NAMES or name in found or not (equals or words):
            return None
        found[name] = value if equals else words.pop(0)
        if not equals and found[name].startswith(b"-") and len(found[name]) > 1:
            return None
    return found


def said_by(values):
    """The only configuration that the values could say, or None where they say none."""
    numbers = {name: values.get(name, str(default).encode()).removeprefix(b"+") for name, default in NUMBERS.items()}
    drive, deal = values.get(b"drive", b"rings"), values.get(b"deal", b"")
    if not all(text.isdigit() for text in numbers.values()) or drive not in DRIVES or not set(deal) <= set(b"0123456789abcdef"):
        return None
    config = {name.decode(): int(text) for name, text in numbers.items()}
    share = tuple(int(chr(letter), 16) for letter in deal) if b"deal" in values else tuple(range(config["threads"]))
    return {**config, "drive": Built(DRIVE + DRIVES[drive]), "share": {"items": share}}


class Trial:
    def __init__(self, definitions):
        self.definitions, self.deriver, self.by_evaluation_alone, self.ruled = definitions, definitions.deriver, 0, set()

    def configuration(self, words):
        """The lawful configuration that the words say, or None."""
        values = option_values(words)
        config = None if values is None else said_by(values)
        if config is None:
            return None

        def value(name):
            text = values.get(bytes(plain(name)))
            return NONE if text is None else some(tuple(text))

        says = self.derived("snesl_run.specs.command_line.Settings", "HasFields", value, config)
        return config if says and self.derived("flow_drives.specs.Configs", "IsLawful", config) else None

    def differs(self, row):
        """What is said where a row is answered otherwise than it tells, and else None."""
        wanted = row.line_of("prints")
        config = self.configuration(row.words)
        if config is None:
            return None if wanted == BAD_CONFIGURATION else f"its words say no configuration, where it has {wanted[:80]}"
        source = Source(self.definitions, parts_of_job(row.job)[0])
        said = self.ruled_otherwise(source)
        if said:
            return said
        try:
            job = Job(self.definitions, row.job, source)
        except Refused as refused:
            status = self.definitions.call("snesl_data.specs.Refusals", "status_of_refusal", refused.args[0])
            return self.ends_otherwise(refusal_line(self.definitions, refused.args[0]), status, row, wanted)
        said = self.spelled_otherwise(job) or self.evaluated_otherwise(job, row, wanted)
        return said or self.run_otherwise(job, row, wanted, config["capacity"])

    def ends_otherwise(self, got, status, row, wanted):
        """What is said where a row tells another line, or another status."""
        is_told = got == wanted and status == int(row.fields.get("status", "0"))
        return None if is_told else f"got {got[:80]}, status {status}, where it has {wanted[:80]}"

    def evaluated_otherwise(self, job, row, wanted):
        """What is said where evaluation answers otherwise; where a network stalls, a row tells nothing of it."""
        if wanted == b"stalled":
            return None
        got = job.evaluated()
        plain = row.line_of("plain") or wanted
        return None if got == plain else f"evaluates to {got[:80]}, where it has {plain[:80]}"

    def run_otherwise(self, job, row, wanted, capacity):
        """What is said where the network comes out otherwise. A long run is passed over, and counted."""
        got = job.run(capacity)
        if got is None:
            self.by_evaluation_alone += 1
            return None
        status = 2 if got.startswith(b"fault ") else 3 if got == b"stalled" else 0
        return self.ends_otherwise(got, status, row, wanted)

    def ruled_otherwise(self, source):
        """What is said where the relations of a short text do not hold of its tokens and its type, or of its refusal."""
        if len(source.text) > MOST_RULED or source.text in self.ruled:
            return None
        self.ruled.add(source.text)
        self.deriver.found.clear()
        try:
            return self.lexically_ruled(source, "Tokens", source.tokens) or self.typing_ruled(source)
        except Refused as refused:
            refusal = refused.args[0]
            return self.lexically_ruled(source, "BadAt", refusal.given[0]) if refusal.name == "Lex" else None

    def derived(self, module, name, *given):
        """The arguments of an instance of a relation, or None."""
        return self.deriver.derive(self.definitions.definition(module, name), given)

    def lexically_ruled(self, source, name, wanted):
        """What is said where a relation of the bytes of the text holds of something else than this."""
        found = self.derived(LEXICAL, name, source.dialect, 0, source.text, HOLE)
        return None if found and key_of(found[3]) == key_of(wanted) else f"`{name}` holds of something else"

    def typing_ruled(self, source):
        """What is said where `ProgramTypes` and `ProgramViolates` do not hold of the function's answer, and of it alone."""
        verdict, tree = source.verdict, source.tree
        typed = self.derived(PROGRAMS, "ProgramTypes", source.text, tree, HOLE, HOLE)
        violated = self.derived(PROGRAMS, "ProgramViolates", source.text, tree, HOLE)
        if verdict.tag == "Ok":
            holds = typed is not None and violated is None and key_of(typed[2:]) == key_of(verdict.given[0])
        else:
            holds = typed is None and violated is not None and violated[2] == verdict.given[0]
        return None if holds else "the rules of typing hold of something else"

    def spelled_otherwise(self, job):
        """What is said where other inputs are declared, or `IsInputOf` does not hold of what a short input text spells."""
        declared = self.definitions.call(MEANING, "declared_inputs", job.source.text, job.tree["declarations"])
        if key_of(declared) != key_of(job.declared["inputs"]):
            return "`declared_inputs` gives other inputs than those that are declared"
        text, tokens = job.input.text, tuple(job.input.found)
        if len(text) > MOST_RULED:
            return None
        found = self.derived(INPUT_TOKENS, "HasTokens", text, 0, tokens, HOLE)
        given = job.tree["dialect"], declared, text, job.environment
        is_input = self.definitions.definition(MEANING, "IsInputOf")
        holds = found and self.deriver.has_instance(is_input, given, {"tokens": tokens, "end": found[3]})
        return None if holds else "`IsInputOf` does not hold of what the input text spells"
