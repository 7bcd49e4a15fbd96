"""Tries must-fail edits of one crate: the prover must refuse each.

A proof of a function rests on its own body and on the contracts of what it calls. So edits of different
functions are tried by one check, and each counts as refused where the prover names a goal of its own
function, or an error in the answers of that function. What is not told so clearly is tried by itself.
"""
import re
import shutil
import subprocess
import tempfile
from pathlib import Path

from edit import BadEdit

PARTS = ("src", "specs", "proofs")
GOAL = r"fn {crate}::(?:\w+::)*{function}: no proof: expected answers in (?!.*; it calls )"
ERROR = r"(?:\./)?proofs/(?:\w+/)*{folder}/\w+\.antt:\d+:\d+: error: (?!.*(?:has no field|is not in scope|has no `|was not admitted))"
UNREAD = re.compile(
    r"^(?:\./)?(?:src|specs)/\S+?:\d+:\d+: error: (?:(?!`)|`[^`]*`: .*(?:is not in scope|has no field|is no name|operand is missing|expected the end|cannot continue))",
    re.M,
)


class Trial:
    """Checks of a crate's copy with other texts, over the libraries that are built, and over what earlier checks of the trial proved."""

    def __init__(self, rtlib, crate, kept):
        self.rtlib, self.crate, self.kept = rtlib, crate, kept

    def said(self, texts, functions):
        """What the prover says of these functions, or of the whole crate where none is named, and its exit status."""
        with tempfile.TemporaryDirectory(prefix="edits-") as room:
            for part in PARTS:
                if (Path(self.crate.folder) / part).is_dir():
                    shutil.copytree(f"{self.crate.folder}/{part}", f"{room}/{part}")
            for path, text in texts.items():
                (Path(room) / path).write_text(text)
            words = self.crate.words(["--jobs", "1", *self.only(functions)], keeps=False)
            words = [self.rtlib.RATTLE, "check", *words, "--incremental", self.kept]
            how = {"cwd": room, "stdin": subprocess.DEVNULL, "stdout": subprocess.PIPE, "stderr": subprocess.STDOUT, "text": True, "errors": "replace"}
            ran = subprocess.run([*self.rtlib.guarded(), *words], **how)
        return ran.stdout, ran.returncode

    def only(self, functions):
        return [word for it in sorted(functions) for word in ("--only", it)]

    def is_named(self, said, function):
        """Whether the prover refused this function for a goal of its own."""
        goal = GOAL.format(crate=self.crate.name, function=re.escape(function))
        error = ERROR.format(folder=re.escape(function.replace("::", "/")))
        return bool(re.search(rf"^(?:{goal}|{error})", said, re.M))


def joined(trial, edits):
    """The texts with as many of these edits as change different functions, and those edits."""
    texts, chosen = {}, []
    for it in edits:
        if it.function() in {other.function() for other in chosen}:
            continue
        try:
            texts, chosen = it.over(texts), [*chosen, it]
        except BadEdit:  # another edit of the file has changed its old text, or made it a second time
            continue
    return texts, chosen


def refused_together(trial, edits):
    """Those of these edits, each of one function, that are refused beside others."""
    left, refused = [*edits], []
    while len(left) > 1:
        texts, chosen = joined(trial, left)
        said, _ = trial.said(texts, {it.function() for it in chosen})
        named = [it for it in chosen if trial.is_named(said, it.function())]
        if not named:
            break
        refused += named
        left = [it for it in left if it not in named]
    return refused


def fault_alone(trial, edit):
    """What is wrong with an edit that is tried by itself, if anything."""
    functions = {edit.function()} - {None}
    said, status = trial.said(edit.texts, functions)
    if status != 1 and functions:  # not refused there, or the prover knows the function by another name
        said, status = trial.said(edit.texts, set())
    last = said.rstrip().rpartition("\n")[2]
    if status == 0:
        return "NOT REFUSED: the crate is still proved with this edit"
    if status != 1 or not last.startswith(("only=", "logic=not-proved")) or UNREAD.search(said):
        return "BAD EDIT: it did not reach the prover: " + " / ".join(said.split("\n")[:6])
    return None


def tried(rtlib, crate, edits):
    """What is wrong with each of these edits, or nothing where it is refused."""
    with tempfile.TemporaryDirectory(prefix="edits-kept-") as kept:
        trial = Trial(rtlib, crate, kept)
        local = [it for it in edits if it.function()]
        said, status = trial.said({}, {it.function() for it in local[:1]})
        if status == 2:  # the prover knows the function by another name
            said, status = trial.said({}, set())
        if status:
            return {it: "NOT TRIED: the prover refuses the crate without an edit: " + said[-300:] for it in edits}
        refused = refused_together(trial, local)
        return {it: None if it in refused else fault_alone(trial, it) for it in edits}
