"""The kit's command rt as a module: it reads crates.txt and edits, says how a crate is checked, and runs tasks side by side.

Kits differ in what else rt holds, so what the gate says of kept work rests on the functions below and on no kit's own store.
"""

import hashlib
import importlib.machinery
import importlib.util
import os
import pathlib
import re
import shutil
import sys

# What a check says that came to no verdict, since a search or a term grew too large.
LIMITS = re.compile(r"\blimits?\b")


def loaded(name, path):
    """A command as a module."""
    loader = importlib.machinery.SourceFileLoader(name, str(path))
    made = importlib.util.module_from_spec(importlib.util.spec_from_loader(name, loader))
    loader.exec_module(made)
    return made


rt = loaded("rt", os.path.realpath(shutil.which("rt") or sys.exit("wrong: the kit's command rt is not in PATH")))


def stamp_of(crate):
    """A sum of all that a check of the crate reads: the kit, the crate's text and that of the libraries below it."""
    with open(f"{rt.KIT}/KIT-ID", "rb") as it:
        return hashlib.sha256(repr((it.read(), text_sum(crate, {}))).encode()).hexdigest()


def text_sum(crate, known):
    """A sum of the text of the crate and of those below it, each of which is read once: `known` has the sums of those that were.

    rt's own sum reads a crate once for each path that leads to it, which takes minutes for the topmost crates.
    """
    if crate.name not in known:
        files = [(it.removeprefix(crate.folder), pathlib.Path(it).read_bytes()) for it in rt.rtlib.files_of(crate.folder)]
        text = (crate.said, crate.has_c, files, [text_sum(it, known) for it in crate.deps])
        known[crate.name] = hashlib.sha256(repr(text).encode()).hexdigest()
    return known[crate.name]


def made_at(crate):
    """When the library of the crate was built, in nanoseconds; 0 where none stands."""
    return os.stat(crate.rlib).st_mtime_ns if os.path.isfile(f"{crate.rlib}/format") else 0


def changed_at(crate):
    """When the text of the crate was last changed, or a library below it built, in nanoseconds."""
    files = [os.stat(it) for it in rt.rtlib.files_of(crate.folder)]
    return max([it.st_mtime_ns for it in files] + [it.st_ctime_ns for it in files] + [made_at(it) for it in crate.deps], default=0)


def is_built(crate):
    """Whether the library of the crate was built, and so proved, of the text that stands, over the libraries that stand.

    rt lib leaves a stamp of the text beside what it builds. rt ci leaves none, so that its libraries tell by their times alone; and they
    load only over those that it built with them.
    """
    if os.path.isfile(f"{crate.folder}/out/rlib/stamp"):
        return crate.is_built()
    return made_at(crate) > changed_at(crate)
