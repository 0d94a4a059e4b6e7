"""Tables of jobs and their answers: crates/tool_runs/data/*.jobs, and others of that form (crates/snesl_trials says it)."""

import dataclasses
import pathlib
import re

ESCAPES = {b"t": b"\t", b"n": b"\n", b"r": b"\r", b"0": b"\0", b"\n": b""}
ESCAPE = re.compile(rb"\\(?:x(..)|(.|\n))")
PIECE = re.compile(r"\\\[(\d+):(.*?)\\\]", re.DOTALL)


@dataclasses.dataclass
class Row:
    """A job with its words, and what is printed, said and answered for it."""

    place: str
    lines: list
    words: list = dataclasses.field(default_factory=list)
    fields: dict = dataclasses.field(default_factory=dict)

    @property
    def job(self):
        return spelled("\n".join(self.lines))

    def line_of(self, field):
        """The bytes of a field, or None."""
        return spelled(self.fields[field]) if field in self.fields else None


def spelled(text):
    """The bytes that a text spells."""
    text = PIECE.sub(lambda found: found[2] * int(found[1]), text).encode()
    return ESCAPE.sub(lambda found: bytes([int(found[1], 16)]) if found[1] else ESCAPES[found[2]], text)


def rows_of(path):
    rows = []
    for number, line in enumerate(path.read_bytes().decode().split("\n"), 1):
        field, _, rest = line.partition(" ")
        if field == "job":
            rows.append(Row(f"{path.name}:{number}", [rest]))
        elif line.startswith("    "):
            rows[-1].lines.append(line[4:])
        elif field == "word":
            rows[-1].words.append(spelled(rest))
        elif line and not line.startswith("#"):
            rows[-1].fields[field] = rest
    return rows


def all_rows(folders):
    paths = [path for folder in folders for name in ("*.jobs", "*.programs") for path in sorted(pathlib.Path(folder).glob(name))]
    return [row for path in paths for row in rows_of(path)]
