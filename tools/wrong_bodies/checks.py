"""Runs the prover on a copy of a crate, and reads its output.

It needs the libraries of the repository as `rt ci` or `rt lib` has built them (crates/*/out/rlib). A body counts as refused
only if the function's own proof fails: not if it calls one that isn't proved, and not if another proof no longer fits.
"""
import re
import shutil
import subprocess
import tempfile
import time
from dataclasses import dataclass, field
from pathlib import Path

KIT = Path(shutil.which("rt") or "rt").resolve().parent.parent
# The last line of a check that ran to its end.
LAST_LINE = re.compile(r"^only=\d+ holes=\d+\n\Z", re.M)
# An error in a proof that only names what a body removed, which shows less about the contract.
NAMES_REMOVED = re.compile(r"has no field|is not in scope|has no `|was not admitted|not checked")


@dataclass
class Output:
    """The output of a check of a crate, whether it ran to its end, and the seconds that each changed function took."""

    crate: str
    text: str
    is_whole: bool = True
    seconds: dict = field(default_factory=dict)

    def line_of(self, path):
        """Returns the match of the line that sums up a function; None if there is none."""
        return re.search(rf"^fn {re.escape(f'{self.crate}::{path}')}: (.*)$", self.text, re.M)

    def errors_in(self, path):
        """Returns the errors in the proof of a function, each with its file and in one line."""
        folder = re.escape(path.replace("::", "/"))
        # An error continues in lines that begin with two spaces.
        errors = re.findall(rf"^\./proofs/{folder}/(\S+: error: .*(?:\n  .*)*)", self.text, re.M)
        return [" ".join(error.split()) for error in errors]

    def is_proved(self, function):
        """Returns whether a function is proved; if its page names a goal, whether that goal is."""
        line = self.line_of(function.path)
        if function.body.goal:
            return line is not None and not self.errors_in(function.path)
        return line is not None and line[1].startswith(("no holes", "depends on"))

    def unproved_goals(self, path):
        """Returns the goals of a function that aren't proved and have no answer: by its line, or by the notes above that."""
        line = self.line_of(path)
        if not line:
            return []
        offered = re.search(r"`search` did not prove ([^;]*)", line[0])
        if offered:
            return re.findall(r"`([^`]+)`", offered[1])
        above = self.text[: line.start()].rpartition("\nfn ")[2]
        return re.findall(r"^note: \S+:\d+:\d+: .*?\(`([^`\s]+)`\)", above, re.M)

    def refusal(self, function, is_alone):
        """Returns why a function isn't proved on its own account; None if the output doesn't say. `is_alone` says that no
        other body was tried beside it."""
        goals = [] if function.body.names_goals() else self.unproved_goals(function.path)
        if goals:
            return f"`search` did not prove {', '.join(f'`{goal}`' for goal in goals)}"
        line = self.line_of(function.path)
        if not line or not line[1].startswith("not proved"):
            return None
        errors = [error for error in self.errors_in(function.path) if " error: `unoffered`: " not in error]
        for error in errors:
            if not NAMES_REMOVED.search(error):
                return error
        if not errors or not is_alone or function.body.goal:
            return None
        return f"its proof names what the body took away, so this says less of the contract: {errors[0]}"


def extern(name, folder):
    """Returns the words that give a crate one library."""
    return ["--extern", f"{name}={folder}/{name}.rlib"]


def dependency(folder):
    """Returns the words that give a crate the libraries of its libraries."""
    return ["-L", f"dependency={folder}"]


def source_words(crate):
    """Returns the words that name a crate and its source."""
    root = "main" if (crate.folder / "src/main.rt").is_file() else "lib"
    return ["--crate-name", crate.name, f"src/{root}.rt"]


def kit_words(names):
    """Returns the words that give a crate these libraries of the toolchain."""
    return [*(word for name in names for word in extern(name, KIT / "rlibs")), *dependency(KIT / "rlibs")]


def logic_words(crate):
    """Returns the words that give a crate's check the toolchain's logic."""
    logic = ["--antt-project", f"{KIT}/rattle/logic/antt-project.json", "--logic-built", f"{KIT}/logic_built"]
    return [*logic, "--links", f"{crate.name}="]


def crate_words(crate):
    """Returns the arguments of a crate's check, as `rt` gives them."""
    words = [*source_words(crate), *kit_words(["std", *crate.libraries])]
    for other in crate.dependencies:
        words += extern(other.name, other.folder / "out/rlib")
    for other in crate.below():
        words += dependency(other.folder / "out/rlib")
    return [*words, *logic_words(crate), "--jobs", "1"]


def command_for(copy, kept):
    """Returns the command that checks a copy; the prover keeps its modules in the folder `kept`."""
    only = [word for function in copy.functions for word in ("--only", function.path)]
    return [f"{KIT}/bin/rattle", "check", *crate_words(copy.crate), *only, "--allow-holes", "--incremental", str(kept)]


def ran_to_its_end(status, text):
    """Returns whether a check with this exit status and output looked at all functions: a copy has holes, so the status is
    1, and the last line has the counts."""
    return status == 1 and LAST_LINE.search(text) is not None


def check(copy, kept):
    """Returns the output of a check of a copy; the prover keeps its modules in the folder `kept`."""
    since = time.time()
    with tempfile.TemporaryDirectory(prefix="wrong-bodies-") as room:
        copy.write(room)
        ran = subprocess.run(
            command_for(copy, kept),
            cwd=room,
            stdin=subprocess.DEVNULL,
            stdout=subprocess.PIPE,
            stderr=subprocess.STDOUT,
            encoding="utf-8",
            errors="replace",
            check=False,
        )
    paths = [function.path for function in copy.functions]
    return Output(copy.crate.name, ran.stdout, ran_to_its_end(ran.returncode, ran.stdout), seconds_of(paths, kept, since))


def seconds_of(paths, kept, since):
    """Returns the seconds that each function took in a check that began at `since`, by the times at which the modules of
    the check were written to the folder `kept`, one after another."""
    written = [(file.stat().st_mtime, file.name) for file in Path(kept).rglob("*") if file.is_file()]
    written = sorted(it for it in written if it[0] >= since)
    seconds = dict.fromkeys(paths, 0.0)
    for (before, _), (end, file) in zip(written, written[1:]):
        for path in paths:
            if f".{path.replace('::', '.')}." in file:
                seconds[path] += end - before
    return seconds
