"""Holds the edits of must-fail/, which `rt ci` tries, to what .ci/wrong holds the others to."""

import pathlib
import re
import threading

from edits import Edit
from functions import Code
from kit import rt
from reports import Report
from trials import PASSED, verdict_of

TRIED = re.compile(r"(?m)^rt: must-fail (\S+\.edit): (.*)$")
# What rt itself says where only the names of a proof file refuse an edit.
BY_A_NAME = "only because a proof file names"
# What rt says of an edit that cannot be applied or compiled, which a kit of its own counts as neither passed nor failed.
BAD = "BAD EDIT: "


def hold(module):
    """Has rt's own try of an edit fail where what its check says is no refusal by the reading of .ci/wrong: a goal of the function
    that the edit strikes is not proved."""
    heard, plain_check, plain_try, codes = threading.local(), module.checked, module.must_fail, {}
    # A kit tells what a try came to by a word of its own, or by whether the edit is refused.
    refusals = {True, *(getattr(module, it, True) for it in ("REFUSED", "AT_LIMIT"))}
    missed = getattr(module, "MISSED", False)

    def checked(*words):
        heard.last = plain_check(*words)
        return heard.last

    def must_fail(crate, file, *words):
        kind, said = plain_try(crate, file, *words)
        if kind not in refusals:
            return kind, said
        if crate.name not in codes:
            codes[crate.name] = Code(crate)
        edit = Edit(crate, file, codes[crate.name])
        report = Report(crate, codes[crate.name].functions, heard.last.returncode, heard.last.stdout)
        verdict = verdict_of(edit, report)
        return kind if verdict.kind in PASSED else missed, f"must-fail {edit.label}: {verdict.kind}: {verdict.text}"

    module.checked, module.must_fail = checked, must_fail


def files(crates):
    """The edits of must-fail/ of these crates, as rt ci names them."""
    return [f"{crate.name}/{it.name}" for crate in crates for it in sorted(pathlib.Path(crate.folder, "must-fail").rglob("*.edit"))]


def untried(labels, said):
    """What is wrong with the edits of these names by what rt ci printed: each that it did not try or could not read, and each that
    only a name refused."""
    told = dict(TRIED.findall(said))
    for label in labels:
        if label not in told:
            yield f"must-fail {label}: NOT TRIED: rt ci says nothing of it"
        elif BY_A_NAME in told[label]:
            yield f"must-fail {label}: ONLY BY A NAME: {told[label]}"
        elif told[label].startswith(BAD) and hasattr(rt, "BAD"):
            # (a kit without such a word has failed by it already)
            yield f"must-fail {label}: {told[label]}"
