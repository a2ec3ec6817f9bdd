"""Reads the processor time of the provers that `rt ci` starts, while they run.

`rt ci` proves a crate in its folder, and prints no times. So the processes in the folders of this checkout's crates are looked
at once a second. A process counts with the time that its last look has.
"""
import os
import time
from pathlib import Path
from typing import NamedTuple

from wrong_bodies.crates import TOP

PROC = Path("/proc")
TICKS = os.sysconf("SC_CLK_TCK")


class Task(NamedTuple):
    """The proof of a crate, or of its tests."""

    crate: str
    is_of_tests: bool = False

    def name(self):
        """Returns its name in a list."""
        return f"{self.crate} (tests)" if self.is_of_tests else self.crate


def seconds_in(stat):
    """Returns the seconds of user and system time of a process and its ended children, by the text of its file `stat`."""
    # The times are the fields 14 to 17. The second field is a name in brackets, which may have spaces.
    fields = stat.rpartition(")")[2].split()
    return sum(int(it) for it in fields[11:15]) / TICKS


def task_of(process, folder):
    """Returns what a process proves; None if it isn't a prover that `rt ci` has started on a crate of this folder."""
    words = (process / "cmdline").read_bytes().decode(errors="replace").split("\0")
    if not words[0].endswith("/rattle") or "--crate-name" not in words or "--incremental" in words:
        return None
    name = words[words.index("--crate-name") + 1]
    return Task(name, "--test" in words) if os.readlink(process / "cwd") == f"{folder}/{name}" else None


def provers(folder):
    """Yields the number of each process that proves a crate of a folder, what it proves, and its seconds so far."""
    for process in PROC.iterdir():
        if not process.name.isdigit():
            continue
        try:
            task = task_of(process, folder)
            if task:
                yield process.name, task, seconds_in((process / "stat").read_text(encoding="utf-8"))
        except OSError:
            # It ended meanwhile.
            continue


def watched(goes_on, folder=TOP / "crates"):
    """Looks at the provers once a second while `goes_on` returns true. Returns the seconds of each task."""
    latest = {}
    while goes_on():
        latest |= {(number, task): seconds for number, task, seconds in provers(folder)}
        time.sleep(1)
    sums = {}
    for (_, task), seconds in latest.items():
        sums[task] = sums.get(task, 0.0) + seconds
    return sums
