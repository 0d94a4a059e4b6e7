"""How the built programs end where no job tells: several threads, an output that takes nothing, and a pipe that stays open."""

import contextlib
import subprocess
import threading

from common import COMPILERS, DATA, Tally, asked, built, program_of, run

UNWRITTEN = b"error: the output could not be written\n"
# The words of levuttar that are to print something, each beside its job.
FOR_PEOPLE = dict.fromkeys(["run --drive serial", "fmt", "size", "draw", "draw --text --traffic", "--help", "run --help"], b"1 + 2")
FOR_PEOPLE["check --json"] = b"1 # 2"
# What a job that is too long begins with and how long its blanks are, beside the line of its refusal.
TOO_LONG = {"program": (b"", 70_000, b"refused 1\n"), "input": (b"1\n---\n", 16_777_217, b"refused 8 at 16777216\n")}


def worked():
    """Runs the programs of the worked rows by every drive, in tool_runs as both compilers build it: several threads end as one does.

    These are thousands of runs, whose threads wait for one another, and on a busy machine they take minutes. A stored run may
    take 120 seconds, so they are no part of it."""
    asked(worked.__doc__)
    tally = Tally("worked")
    for program in (it["tool_runs"] for it in built("tool_runs").values()):
        ran = run([program, "worked"], seconds=1200, cwd=DATA, stderr=subprocess.STDOUT)
        tally.that((ran.printed, ran.status) == ((DATA / "worked.answer").read_bytes(), 0), f"{program}: {ran}")
    return tally.end()


def full():
    """Runs the programs, as both compilers build them, with a standard output that takes no byte.

    What cannot be printed is said on standard error, once and with status 4: as `refused 12` by the program for scripts, and in
    words by the one for people."""
    asked(full.__doc__)
    built("snesl", "levuttar")
    tally = Tally("full")
    with open("/dev/full", "wb") as output:
        for compiler in COMPILERS:
            cases = [("snesl", "--drive serial", job, b"refused 12\n") for job in (b"1 + 2", b"1 / 0", b"1 # 2")]
            cases += [("levuttar", words, job, UNWRITTEN) for words, job in FOR_PEOPLE.items()]
            for crate, words, job, wanted in cases:
                ran = run([program_of(crate, compiler), *words.split()], job, stdout=output)
                tally.that((ran.said, ran.status) == (wanted, 4), f"{crate} {words}, built by {compiler}, over {job}: {ran}")
    return tally.end()


def answered(program, job):
    """What a program prints within ten seconds while its job stays open behind these bytes, and its status, less than 0 where it
    goes on."""
    ran = subprocess.Popen([program, "--drive", "serial"], stdin=subprocess.PIPE, stdout=subprocess.PIPE)
    writer, ender = threading.Thread(target=given, args=(ran.stdin, job)), threading.Timer(10, ran.kill)
    for it in (writer, ender):
        it.start()
    line, status = ran.stdout.read(), ran.wait()
    ender.cancel()
    writer.join()
    for it in (ran.stdin, ran.stdout):
        with contextlib.suppress(BrokenPipeError):
            it.close()
    return line, status


def given(pipe, job):
    """Writes a job, of which the reader may want no more than a part, and leaves the pipe open."""
    with contextlib.suppress(BrokenPipeError):
        pipe.write(job)
        pipe.flush()


def open_pipe():
    """Runs the program for scripts, as both compilers build it, on a pipe that stays open.

    The answer of a program that is too long comes while more of the job may come, and so does that of an input text that is too long."""
    asked(open_pipe.__doc__)
    built("snesl")
    tally = Tally("open_pipe")
    for compiler in COMPILERS:
        for part, (head, blanks, line) in TOO_LONG.items():
            found = answered(program_of("snesl", compiler), head + b" " * blanks)
            tally.that(found == (line, 1), f"snesl, built by {compiler}, ends as {found} where the {part} is too long")
    return tally.end()
