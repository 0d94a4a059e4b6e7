"""Runs the jobs of examples/ by each drive, and by `levuttar run`, in the programs as both compilers build them, or with
--unproved as they are built without proofs: each prints just the line of its answer, NAME.answer, with status 0.

At the least capacity that `levuttar size` tells it does so too, and at the one below it stalls. A job that has a drawing beside
it, NAME.network, is drawn just as that by `levuttar draw`. A job with no answer, or with no heading in examples/README.md, has
failed; so has an answer or a heading with no job. A program that stalls is told where, and one whose types do not fit is told the
types. What else the programs print is a table (`printed`), or stands in a page (`pages`)."""

import re

from common import ROOT, Tally, asked, built, run, unproved
from words import printed

EXAMPLES = ROOT / "examples"
# Programs that levuttar refuses, or that stall at a capacity of 256, each with a line of what it says then.
SAID = {
    "let s = iota(300) in length(s ++ s)": " --> line 1, column 9",
    "1 + iota(2)": "  = note: the operands are of the types `int`, `{int}`",
    "tab({1}) ! true": "  = note: the operands are of the types `[int]`, `bool`",
    "{let z = (x, x) in z * 2 : x in iota(3)}": "  = note: the operands are of the types `(int,int)`, `int`",
    "not 1": "  = note: the operand is of the type `int`",
    "length(1)": "  = note: the argument is of the type `int`",
    "part({1,2}, 3)": "  = note: the arguments are of the types `{int}`, `int`",
    "function f(x : int, y : bool) : int = x; f(1)": "  = note: the argument is of the type `int`, and the parameters are of the types `int`, `bool`",
    "if true then {1} else 2": "  = note: the condition is of the type `bool`, and the branches are of the types `{int}`, `int`",
    "{1, true, 2}": "  = note: the items are of the types `int`, `bool`, `int`",
    "{1 | 2}": "  = note: the condition is of the type `int`",
    "{x : x in iota(3) | x}": "  = note: the condition is of the type `int`",
    "{x : x in 3}": "  = note: this goes over a value of the type `int`, which is no sequence",
    "function f(x : int) : bool = x + 1; f(1)": "  = note: the body is of the type `int`, and the result was declared as `bool`",
}


def look_at_run(tally, command, job, answer):
    """Counts a run of a job that prints just the text of the file `answer`."""
    ran = run(command, job.read_bytes())
    said = f"{' '.join(command)} prints for {job.name}, with status {ran.status}, not its answer but {ran.printed[:200]}"
    tally.that((ran.printed, ran.status) == (answer.read_bytes(), 0), said)


def look_at_job(tally, job, snesl, levuttar):
    """Counts the runs of a job in each way, as its programs are built in one."""
    answer, network = job.with_suffix(".answer"), job.with_suffix(".network")
    for drive in ("serial", "rounds", "rings"):
        look_at_run(tally, [snesl, "--drive", drive], job, answer)
    look_at_run(tally, [levuttar, "run", str(job)], job, answer)
    told = re.search(rb"(?m)^least capacity: (\d+)", run([levuttar, "size", job]).printed)
    capacity, below = [snesl, "--drive", "serial", "--capacity"], int(told[1]) - 1 if told else 0
    look_at_run(tally, [*capacity, str(below + 1)], job, answer)
    if below > 0:
        status = run([*capacity, str(below)], job.read_bytes()).status
        tally.that(status == 3, f"{job.name} has status {status} at the capacity {below}, where it is to stall")
    if network.is_file():
        look_at_run(tally, [levuttar, "draw", "--text", "--traffic", str(job)], job, network)


def look_at_names(tally):
    """Has it failed where a job has no answer or no heading, or one of these no job. The jobs that have answers."""
    jobs, answers = ({it.stem: it for it in sorted(EXAMPLES.glob(f"*.{ending}"))} for ending in ("snesl", "answer"))
    headings = re.findall(r"(?m)^## (.*)$", (EXAMPLES / "README.md").read_text(encoding="utf-8"))
    for what, names in {"no answer": answers, "no heading in its page": headings}.items():
        for name in jobs.keys() - {*names}:
            tally.that(False, f"examples/{name}.snesl has {what}")
    for name in {*headings, *answers} - jobs.keys():
        tally.that(False, f"there is no job examples/{name}.snesl")
    return [job for name, job in jobs.items() if name in answers]


def main():
    names = ("snesl", "levuttar")
    programs = {"unproved": {it: unproved(it) for it in names}} if asked(__doc__, unproved=False).unproved else built(*names)
    tally = Tally("gallery")
    jobs = look_at_names(tally)
    for build, places in programs.items():
        for job in jobs:
            look_at_job(tally, job, **places)
        for text, line in SAID.items():
            ran = run([places["levuttar"], "run", "--capacity", "256"], text.encode(), cwd=ROOT)
            tally.that(line in ran.said.decode(errors="replace").split("\n"), f"levuttar says of {text}, and not '{line}': {ran}")
        for part, look in {"printed": printed.look, "pages": printed.look_at_pages}.items():
            tally.that(look(**places) == 0, f"what {part} looks at ({build})")
    return tally.end()
