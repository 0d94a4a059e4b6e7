"""Compares what the programs print with tables, and looks at help, at broken pipes and at terminals.

    dev printed SNESL LEVUTTAR    the places of the two programs

A row of examples/*.rows begins with a line `$ PROGRAM WORD..`. Lines that begin with `< ` are its job, and the others, up to a line `=
STATUS`, all that it prints, on both outputs together. What stands between backquotes in a hint stands in the words or the job of a row with
status 0 too: so each program that a hint shows was run. Of each job there `levuttar check` says what `run` refuses, and nothing else; with
`--json` its object has the message's parts. `levuttar fmt` refuses what is no program, and else its layout means the same, and is its own.
`fmt --write` writes a file anew, or leaves it as it was. The files of docs/help are what words for help print, and editors/levuttar.bash
has their options. A pipe that breaks is no error. On a terminal `error` is red, but for NO_COLOR, and the search for a capacity is told,
and taken away again."""

import json
import os
import pathlib
import pty
import re
import shlex
import shutil
import subprocess
import tempfile
from concurrent.futures import ThreadPoolExecutor

from common import ROOT, Tally, asked, run

TABLES = [ROOT / "examples" / f"{name}.rows" for name in ("printed", "messages", "habits", "commands")]
HELP = ROOT / "docs" / "help"
COMMANDS = ("run", "check", "fmt", "size", "draw")
# The words whose answer each file of docs/help is.
HELPS = {
    "levuttar": ["--help", "-h", "help"],
    "levuttar_version": ["--version", "-V"],
    **{f"levuttar_{it}": [f"{it} --help", f"{it} -h", f"help {it}"] for it in COMMANDS},
}
WIDEST = 79
# The word, the sign or the character that `check --json` marks.
MARKED = re.compile(rb"\w+|==|<=|>=|\+\+|[^ \t\r\n][\x80-\xbf]*")
RED = "\x1b[1;31merror\x1b[0m"
MISTAKE = b"1 + true"
# The pages that show runs.
PAGES = ["README.md", "docs/TOUR.md", "docs/LEVUTTAR.md", "docs/NEWCOMER.md"]
FENCE = "\x01"


def rows(text):
    """Each row: its words, its job and what it prints, with the status."""
    words, job, printed = None, "", ""
    for line in (f"{it}\n" for it in text.split("\n")[:-1]):
        if line.startswith("$ "):
            words, job, printed = shlex.split(line[2:]), "", ""
        elif line.startswith("< "):
            job += line[2:]
        elif line.startswith("= "):
            yield words, job, printed + line
        else:
            printed += line


def on_terminal(command, job, **environment):
    """What a program writes to a terminal that is its standard error."""
    ours, its = pty.openpty()
    how = {"stdin": subprocess.PIPE, "stdout": subprocess.DEVNULL, "stderr": its}
    with subprocess.Popen(command, env={**environment}, **how) as ran:
        os.close(its)
        ran.communicate(job, timeout=60)
    said = b""
    try:
        while part := os.read(ours, 65536):
            said += part
    except OSError:
        pass
    os.close(ours)
    return said.decode(errors="replace").replace("\r\n", "\n")


def finding_of(job, message):
    """The object that `check --json` is to print where this message is said of a job of standard input."""
    lines = message.splitlines()
    place = re.match(r" *--> line (\d+), column (\d+)( of the input text)?", lines[1])
    line, column = (int(place[1]), int(place[2])) if place else (1, 1)
    if place and place[3]:
        line += 1 + [it.removesuffix("\r") for it in job.split("\n")].index("---")
    mark = MARKED.match(job.split("\n")[line - 1].encode()[column - 1 :]) if place else None
    end = column + (len(mark[0]) if mark else 0)
    hint = re.match(r" *= hint: (.*)", lines[-1])
    words = {"message": lines[0].removeprefix("error: "), "hint": hint and hint[1]}
    return {"file": None, "line": line, "column": column, "end": end, "severity": "error", **words}


class Looks(Tally):
    """Counts what is so."""

    def __init__(self, snesl, levuttar):
        super().__init__("printed")
        self.programs = {"snesl": os.path.abspath(snesl), "levuttar": os.path.abspath(levuttar)}
        self.table = [row for it in TABLES for row in rows(it.read_text(encoding="utf-8"))]

    def said_by(self, words, job="", program="levuttar", **how):
        """What a program prints, what it says, and its status."""
        ran = run([self.programs[program], *words], job.encode(), **how)
        return ran.printed.decode(), ran.said.decode(), ran.status

    def look(self, what, holds, said=""):
        self.that(holds, f"{what}: '{said}'")

    def at_rows(self):
        for (program, *words), job, wanted in self.table:
            printed, _, status = self.said_by(words, job, program, cwd=ROOT, stderr=subprocess.STDOUT)
            said = f"{printed}= {status}\n"
            self.look(f"{program} {' '.join(words)} for {job!r} does not print {wanted!r}", said == wanted, said)
        runs = [f"{' '.join(words)}\n{job}" for words, job, wanted in self.table if wanted.endswith("\n= 0\n") and words[1:2] != ["fmt"]]
        hints = re.findall(r"(?m)^ += hint: (.*)", "".join(wanted for _, _, wanted in self.table))
        for shown in sorted({it for hint in hints for it in re.findall(r"`([^`]*)`", hint)}):
            self.look(f"a hint shows `{shown}`, which no row runs with status 0", any(shown in it for it in runs))

    def at_jobs(self):
        jobs = {job: wanted.rsplit("= ", 1) for words, job, wanted in self.table if words == ["levuttar", "run"]}
        with ThreadPoolExecutor(os.cpu_count()) as pool:
            for it in (it for looks in pool.map(lambda *it: [*self.looks_at_job(*it)], jobs, jobs.values()) for it in looks):
                self.look(*it)

    def looks_at_job(self, job, wanted):
        """What is to be so of `check` and `fmt` where `run` says this of a job, and whether it is."""
        message, status = wanted[0], int(wanted[1])
        # Where there is no input text, `check` asks for none.
        is_refused = status == 1 and not (" of the input text\n" in message and "---\n" not in job)
        said = self.said_by(["check"], job)
        yield f"check says of {job!r} what run does", said == (("", message, 1) if is_refused else ("", "", 0)), said
        printed, said, its_status = self.said_by(["check", "--json"], job)
        found = json.loads(printed) if is_refused and printed.endswith("\n") else {}
        is_it = found == finding_of(job, message) if is_refused else printed == ""
        yield f"check --json says of {job!r} what run does", is_it and (said, its_status) == ("", int(is_refused)), printed
        laid, said, its_status = self.said_by(["fmt"], job)
        if its_status:
            yield f"fmt says of {job!r} what run does", (laid, said, its_status) == ("", message, status), said
        else:
            again = self.said_by(["fmt"], laid)
            yield f"the layout of {job!r} is its own", again == (laid, "", 0), again
            its_said = self.said_by(["run"], laid)
            yield f"the layout of {job!r} means the same", its_said[2] == status and (status or its_said[1] + its_said[0] == message), its_said

    def at_files(self):
        with tempfile.TemporaryDirectory(prefix="printed-") as name:
            for it in self.looks_at_files(pathlib.Path(name)):
                self.look(*it)

    def looks_at_files(self, room):
        """What is to be so of `fmt` where files are written, and of texts that no row has, and whether it is."""
        ugly, laid = b"let x=1 in\n x+ x\n---\r\n\xff no  input", b"let x = 1 in x + x\n---\r\n\xff no  input"
        file, link = room / "job.snesl", room / "link.snesl"
        file.write_bytes(ugly)
        file.chmod(0o640)
        link.symlink_to("job.snesl")
        (room / "job.snesl.laid").mkdir()
        said = self.said_by(["fmt", "--write", "job.snesl"], "", cwd=room)
        is_said = said == ("", "error: the file `job.snesl` could not be written\n", 4)
        yield "where a file cannot be written, it is as it was", is_said and file.read_bytes() == ugly, said
        (room / "job.snesl.laid").rmdir()
        said = self.said_by(["fmt", "--write", "link.snesl"], "", cwd=room)
        is_written = (file.read_bytes(), file.stat().st_mode & 0o777, link.is_symlink()) == (laid, 0o640, True)
        yield "a file is written anew", is_written and said == ("", "", 0), (said, file.read_bytes())
        yield "nothing is left beside it", {it.name for it in room.iterdir()} == {"job.snesl", "link.snesl"}, [*room.iterdir()]
        before = file.stat()
        said = self.said_by(["fmt", "--write", "job.snesl"], "", cwd=room)
        its = file.stat()
        is_alone = (its.st_ino, its.st_mtime_ns) == (before.st_ino, before.st_mtime_ns)
        yield "a file that is laid out is left alone", is_alone and said == ("", "", 0), said
        file.write_bytes(ugly + b" " * 17_000_000)
        self.said_by(["fmt", "--write", "job.snesl"], "", cwd=room)
        yield "of a long input text nothing is lost", file.read_bytes() == laid + b" " * 17_000_000, file.stat()
        said = self.said_by(["fmt"], "{" + "1," * 30_000 + "1}")
        yield "a layout may be too long", said == ("", "error: the layout of this program is longer than 65,536 bytes\n", 1), said[1]

    def at_help(self):
        self.look("docs/help has the files that are known", {it.stem for it in HELP.glob("*.txt")} == {"snesl", *HELPS})
        for name, asked_by in HELPS.items():
            stored = (HELP / f"{name}.txt").read_text(encoding="utf-8")
            self.look(f"a line of docs/help/{name}.txt is wider than {WIDEST}", all(len(it) <= WIDEST for it in stored.splitlines()))
            for words in asked_by:
                said = self.said_by(words.split())
                self.look(f"levuttar {words} prints docs/help/{name}.txt", said == (stored, "", 0), said)
        stored = (HELP / "snesl.txt").read_text(encoding="utf-8")
        for word in ("--help", "-h", "--version", "-V"):
            said = self.said_by([word], program="snesl")
            self.look(f"snesl {word} is refused, and prints docs/help/snesl.txt", said == ("refused 10\n", stored, 1), said)

    def at_completion(self):
        for name in COMMANDS:
            text = (HELP / f"levuttar_{name}.txt").read_text(encoding="utf-8")
            wanted = {*re.findall(r"(?m)^ +(?:-\w, |    )(--[a-z]+)", text)}
            ask = f"source editors/levuttar.bash; COMP_WORDS=(levuttar {name} --) COMP_CWORD=2; _levuttar; echo ${{COMPREPLY[@]}}"
            said = run(["bash", "-c", ask], cwd=ROOT).printed.decode()
            self.look(f"editors/levuttar.bash knows the options of {name}", {*said.split()} == wanted, said)

    def at_a_broken_pipe(self):
        job = b"iota(200000)"
        with subprocess.Popen([self.programs["levuttar"], "run"], stdin=subprocess.PIPE, stdout=subprocess.PIPE, stderr=subprocess.PIPE) as ran:
            ran.stdin.write(job)
            ran.stdin.close()
            ran.stdout.read(1)
            ran.stdout.close()
            said = ran.stderr.read().decode()
        self.look("a pipe that breaks is not quiet", said == "", said)

    def at_a_terminal(self):
        run = [self.programs["levuttar"], "run"]
        said = on_terminal(run, MISTAKE)
        self.look("`error` is not red on a terminal", said.startswith(RED), said)
        said = on_terminal(run, MISTAKE, NO_COLOR="")
        self.look("an empty NO_COLOR takes the colour away", said.startswith(RED), said)
        said = on_terminal(run, MISTAKE, NO_COLOR="1")
        self.look("NO_COLOR leaves a colour", said.startswith("error: ") and "\x1b" not in said, said)
        said = on_terminal([*run, "--capacity", "1"], b"let s = iota(3) in length(s ++ s)")
        self.look("the search is not told, or not taken away", "looking how many messages" in said and f"\r\x1b[K{RED}" in said, said)


def shown(page):
    """Each command of a page, with what it is to print."""
    commands, indent, empty = [], None, 0
    for line in page.read_text(encoding="utf-8").splitlines():
        begins = re.match(r"( {4,})\$ ", line)
        if begins:
            indent = begins[1]
            commands.append([line[len(indent) + 2 :], ""])
        elif indent and line.startswith(indent):
            commands[-1][1] += "\n" * empty + f"{line[len(indent):]}\n"
        elif line:
            indent = None
        empty = 0 if line else empty + 1
    return [with_document(*it) for it in commands]


def with_document(command, printed):
    """A command with the document that it reads, if it has one: the lines up to that which ends it."""
    end = re.search(r"<<'(\w+)'", command)
    if end is None:
        return command, printed
    document, _, rest = printed.partition(f"{end[1]}\n")
    return f"{command}\n{document}{end[1]}", rest


def prepare(room, programs):
    """Fills the folder in which commands are run, and returns what they find in their environment."""
    for name, place in programs.items():
        (room / name).symlink_to(os.path.abspath(place))
    (room / "examples").symlink_to(ROOT / "examples")
    tools = room / ".tools"
    tools.mkdir()
    if not shutil.which("dot"):
        (tools / "dot").write_text("#!/bin/sh\nexec cat\n")
        (tools / "dot").chmod(0o755)
    return {**os.environ, "PATH": f"{tools}:{os.environ['PATH']}", "TMPDIR": str(room)}


def run_page(page, programs):
    """The commands of a page, with what each is to print and what it prints."""
    commands, lines = shown(page), []
    with tempfile.TemporaryDirectory(prefix="pages-") as name:
        room = pathlib.Path(name)
        environment = prepare(room, programs)
        for command, printed in commands:
            made = re.fullmatch(r"cat (\w+\.\w+)", command)
            if made:
                (room / f".{made[1]}").write_text(printed, encoding="utf-8")
                lines.append(f"[ -e {made[1]} ] || cp .{made[1]} {made[1]}")
            lines += [command.replace("/tmp/", f"{room}/"), f"printf '{FENCE}'"]
        (room / ".script").write_text("\n".join(lines) + "\n", encoding="utf-8")
        ran = run(["bash", room / ".script"], seconds=300, cwd=room, env=environment, stderr=subprocess.STDOUT)
    said = ran.printed.decode(errors="replace").split(FENCE) + ["nothing"] * len(commands)
    return [(command, printed, its) for (command, printed), its in zip(commands, said)]


def look(snesl, levuttar):
    """Counts what is so of two programs. The status: 1 where something is not."""
    looks = Looks(snesl, levuttar)
    for it in (looks.at_rows, looks.at_jobs, looks.at_files, looks.at_help, looks.at_completion, looks.at_a_broken_pipe, looks.at_a_terminal):
        it()
    return looks.end()


def look_at_pages(snesl, levuttar):
    """The same of the commands that print what their page shows."""
    tally = Tally("pages")
    for page in PAGES:
        for command, wanted, said in run_page(ROOT / page, {"snesl": snesl, "levuttar": levuttar}):
            tally.that(said == wanted, f"{page}: {command}\n  is to print {wanted!r}\n  and prints  {said!r}")
    return tally.end()


def main():
    return look(*asked(__doc__, "PROGRAM", 2).rest)


def pages():
    """Runs what the pages show: each line `$ COMMAND` of a block prints the lines after it, up to the next such line. The two programs
    are snesl and levuttar.

    A block is lines with four blanks or more before them. Those of one page are run by one shell, in a folder that has the two
    programs and examples/. `$ cat NAME` of a file that is not there makes it, as the page shows it. What Graphviz draws is not
    compared: `cat` stands in its place where there is none."""
    return look_at_pages(*asked(pages.__doc__, "PROGRAM", 2).rest)
