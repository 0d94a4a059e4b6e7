"""Has Graphviz read what `levuttar draw` writes: of the jobs of examples/, and of random programs, 200 where no word tells, of
each with and without --traffic.

`dot` has to take each drawing without a word, and to find as many nodes and edges as `levuttar draw --text` has. The title of a
frame is a node to Graphviz, whose name begins with an f. It needs Graphviz (Debian's package graphviz), which the gate's machine
need not have, so it is no part of .ci/run."""

import re
import shutil
import sys

from common import ROOT, Tally, asked, built, run

# Its network is so great that Graphviz takes long.
LONG = "quicksort"


def look(tally, levuttar, job, name, *words):
    drawn = run([levuttar, "draw", *words], job)
    if drawn.status == 1:
        return
    # (where its run ends in a fault or stalls it is drawn all the same)
    text = run([levuttar, "draw", "--text", *words], job).printed
    plain = run(["dot", "-Tplain"], drawn.printed, seconds=120)
    found = [len(re.findall(it, plain.printed)) for it in (rb"(?m)^node n", rb"(?m)^edge ")]
    wanted = [sum(1 for it in text.splitlines() if it), text.count(b"->")]
    said = f"of {name} {words} dot says {plain.said[:300]} and finds {found} nodes and edges, where there are {wanted}"
    tally.that(plain.status == 0 and not plain.said and found == wanted, said)


def main():
    count = asked(__doc__, random=200).random
    if not shutil.which("dot"):
        sys.exit("drawings: there is no dot; apt-get install graphviz")
    programs, tally = built("levuttar", "tool_runs")["llvm"], Tally("drawings")
    for job in sorted((ROOT / "examples").glob("*.snesl")):
        if job.stem != LONG:
            look(tally, programs["levuttar"], job.read_bytes(), job.name)
            look(tally, programs["levuttar"], job.read_bytes(), job.name, "--traffic")
    for seed in range(1, count + 1):
        job = run([programs["tool_runs"], "job", str(seed)]).printed
        look(tally, programs["levuttar"], job, f"the random job {seed}")
        look(tally, programs["levuttar"], job, f"the random job {seed}", "--traffic", "--drive", "serial")
    return tally.end()
