"""Decides which bodies are tried in one check, and which crates at the same time.

One check tries many bodies. A body about which the check prints nothing is tried again, at last alone.
"""
import os
import re
import tempfile
import threading
from dataclasses import dataclass
from pathlib import Path

from .checks import check
from .copies import SpoiltFunction
from .crate_copies import CrateCopy
from .crates import Crate


@dataclass
class Selection:
    """A crate, and those of its wrong bodies that are tried."""

    crate: Crate
    bodies: list

    def weight(self):
        """Returns the expected duration of its bodies, relative to those of others."""
        return len(self.bodies) * sum(crate.line_count for crate in [*self.crate.below(), self.crate])


@dataclass
class Outcome:
    """The result for a body: why it is refused (None if it isn't), the changed function, what the prover printed, and the
    seconds that it took."""

    function: SpoiltFunction
    reason: str | None
    text: str
    seconds: float


def copies_for(crate, bodies, keeps_answers=True):
    """Returns the bodies of a crate in as few copies as may be."""
    copies = []
    for body in bodies:
        if not any(copy.add(body) for copy in copies):
            copies.append(copy_for(crate, body, keeps_answers))
    return copies


def copy_for(crate, body, keeps_answers=True):
    """Returns a copy with one body."""
    copy = CrateCopy(crate, keeps_answers)
    copy.add(body)
    return copy


def outcomes_of(copy, kept):
    """Checks a copy. Returns the results for its bodies, and the bodies about which the check printed nothing and that are
    to be tried again."""
    outcomes = []
    undecided = []
    output = check(copy, kept)
    is_alone = len(copy.functions) == 1
    for function in copy.functions:
        reason = output.refusal(function, is_alone) if output.is_whole else None
        if reason or is_alone:
            outcomes.append(Outcome(function, reason, output.text, output.seconds[function.path]))
        else:
            undecided.append(function.body)
    return outcomes, undecided


def tried(selection, keeps_answers=True):
    """Returns the results for a crate's bodies."""
    outcomes = []
    remaining = selection.bodies
    are_separate = False
    with tempfile.TemporaryDirectory(prefix="wrong-bodies-kept-") as kept:
        while remaining:
            if are_separate:
                copies = [copy_for(selection.crate, body, keeps_answers) for body in remaining]
            else:
                copies = copies_for(selection.crate, remaining, keeps_answers)
            undecided = []
            for copy in copies:
                found, again = outcomes_of(copy, kept)
                outcomes += found
                undecided += again
            # A search may wait for a callee that is changed in the same check.
            are_separate = len(undecided) == len(remaining)
            remaining = undecided
    return outcomes


class Build:
    """A run of `rt ci` that builds the libraries meanwhile: its folder has the output so far (`ci`), and a file `ended` once
    it has ended. Without a folder, all libraries are built already."""

    def __init__(self, folder=None):
        self.folder = Path(folder) if folder else None

    def has_ended(self):
        """Returns whether nothing else builds libraries."""
        return self.folder is None or (self.folder / "ended").exists()

    def proved(self):
        """Returns the names of the crates that are proved so far."""
        printed = (self.folder / "ci").read_text(encoding="utf-8", errors="replace")
        return set(re.findall(r"^rt: (\w+) (?:proved$|is kept:)", printed, re.M))


class Schedule:
    """Tries the bodies of several crates at once, the first of those that are ready first. A crate is ready once the crates
    below it are proved. Until the build ends this takes at most half of the processors."""

    def __init__(self, selections, build, try_bodies):
        self.waiting = [*selections]
        self.build = build
        self.try_bodies = try_bodies
        self.running = 0
        self.ended = []
        self.change = threading.Condition()

    def most_at_once(self, has_ended):
        """Returns how many crates are tried at once."""
        processors = len(os.sched_getaffinity(0))
        return processors if has_ended else max(1, processors // 2)

    def take_ready(self):
        """Removes the first crate that is ready from those that wait and returns it, or None if there is none."""
        has_ended = self.build.has_ended()
        if self.running >= self.most_at_once(has_ended):
            return None
        proved = None if has_ended else self.build.proved()
        for selection in self.waiting:
            if proved is None or proved >= {crate.name for crate in selection.crate.below()}:
                self.waiting.remove(selection)
                return selection
        return None

    def try_one(self, selection):
        """Tries the bodies of a crate, and hands over the results, or the exception that ended the try."""
        outcomes = fault = None
        try:
            outcomes = self.try_bodies(selection)
        except BaseException as caught:  # an exception in a thread would otherwise end that thread alone
            fault = caught
        with self.change:
            self.running -= 1
            self.ended.append((selection.crate, outcomes, fault))
            self.change.notify()

    def results(self):
        """Yields each crate with the results for its bodies, in the order in which they end. Raises the first exception of a
        try."""
        with self.change:
            while self.waiting or self.running or self.ended:
                selection = self.take_ready()
                if selection:
                    self.running += 1
                    threading.Thread(target=self.try_one, args=(selection,), daemon=True).start()
                elif self.ended:
                    crate, outcomes, fault = self.ended.pop()
                    if fault:
                        raise fault
                    yield crate, outcomes
                else:
                    self.change.wait(1)
