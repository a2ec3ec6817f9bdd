"""chain [--beside DIR | --time CRATE ..]: prints the seconds of processor time that each crate's proof took on this machine, and
the chain of crates that bounds the time of `rt ci` on any number of processors.

The last line is in seconds of this machine, and in proofs of `call_auth`, the yardstick. A crate that has changed since it was
proved is marked by `*`.

--beside DIR  prints only the last line. Runs while `rt ci` proves crates in this checkout: DIR/ci has the output of that so
              far, and DIR/ended exists once it has ended. The seconds of what is proved are kept.
--time CRATE  proves these crates, one after another, and keeps the seconds. The libraries below them are built
              (crates/*/out/rlib).
"""
import os
import re
import resource
import subprocess
import sys
from pathlib import Path

from wrong_bodies.checks import KIT, crate_words
from wrong_bodies.crates import read_crates
from wrong_bodies.inputs import digest_of_files

from .longest import longest_chain, total
from .times import keep_times, read_times
from .watching import Task, watched

YARDSTICK = Task("call_auth")


def proved_in(printed):
    """Returns the tasks that a run of `rt ci` has proved, by what it printed."""
    found = re.findall(r"^rt: (\w+)(: its tests are)? proved$", printed, re.M)
    return {Task(name, bool(of_tests)) for name, of_tests in found}


def keep_beside(crates, folder):
    """Keeps the seconds of what a run of `rt ci` proves meanwhile. Ends with that run, or if its folder is removed."""
    seconds = watched(lambda: folder.is_dir() and not (folder / "ended").exists())
    if folder.is_dir():
        proved = proved_in((folder / "ci").read_text(encoding="utf-8", errors="replace"))
        keep_times(crates, {task: it for task, it in seconds.items() if task in proved and task.crate in crates})


def time_proof(crate):
    """Proves a crate. Returns the seconds of processor time; None if it isn't proved."""
    before = resource.getrusage(resource.RUSAGE_CHILDREN)
    words = [f"{KIT}/bin/rattle", "check", *crate_words(crate)]
    unread = subprocess.DEVNULL
    done = subprocess.run(words, cwd=crate.folder, stdin=unread, stdout=unread, stderr=unread, check=False)
    after = resource.getrusage(resource.RUSAGE_CHILDREN)
    return None if done.returncode else (after.ru_utime - before.ru_utime) + (after.ru_stime - before.ru_stime)


def time_all(crates, names):
    """Proves crates and keeps the seconds. Returns the exit status."""
    for name in names:
        seconds = time_proof(crates[name]) if name in crates else None
        if seconds is None:
            print(f"chain: {name} isn't proved")
            return 1
        keep_times(crates, {Task(name): seconds})
        print(f"{seconds:8.1f} {name}", flush=True)
    return 0


def tasks_with_times(crates):
    """Returns the seconds of the tasks that this machine has done, and those of them whose crates have changed since."""
    times = read_times()
    seconds = {}
    changed = set()
    for crate in crates.values():
        for task in (Task(crate.name), Task(crate.name, True)):
            if task.name() in times:
                digest, seconds[task] = times[task.name()]
                changed |= {task} if digest != digest_of_files(crate.texts) else set()
    return seconds, changed


def summary(crates, seconds):
    """Returns the line about the chain, and about all proofs from nothing on this machine's processors."""
    chain = longest_chain(crates, seconds)
    processors = len(os.sched_getaffinity(0))
    length, whole = total(chain, seconds), total(seconds, seconds)
    yardstick = f", {length / seconds[YARDSTICK]:.0f} times call_auth" if seconds.get(YARDSTICK) else ""
    least = max(length, whole / processors) / 60
    untimed = sum(Task(name) not in seconds for name in crates)
    lacking = f" ({untimed} crates have no time)" if untimed else ""
    bound = f"from nothing at least {least:.0f} min on {processors} processors"
    return f"chain {length:.0f} s of processor time{yardstick}; proofs {whole:.0f} s, {bound}{lacking}"


def print_all(crates):
    """Prints all times, and the chain."""
    seconds, changed = tasks_with_times(crates)
    for task, it in sorted(seconds.items(), key=lambda pair: -pair[1]):
        print(f"{it:8.1f} {task.name()}{' *' if task in changed else ''}")
    chain = longest_chain(crates, seconds)
    print(" > ".join(f"{task.name()} {seconds[task]:.0f}" for task in chain))
    print(summary(crates, seconds))


def main(words):
    """Runs the command with these words. Returns the exit status."""
    crates = read_crates()
    if words[:1] == ["--beside"] and len(words) == 2:
        keep_beside(crates, Path(words[1]))
        print(summary(crates, tasks_with_times(crates)[0]))
        return 0
    if words[:1] == ["--time"] and len(words) > 1:
        return time_all(crates, words[1:])
    if words:
        print(__doc__, file=sys.stderr)
        return 2
    print_all(crates)
    return 0


if __name__ == "__main__":
    sys.exit(main(sys.argv[1:]))
