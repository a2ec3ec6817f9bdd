"""The results of a measurement: figures by row and name, and the file that holds them. A figure of a benchmark is a mean with its
error. One of a run that looks for faults is a plain value."""
import datetime
import json
import math
import os
import platform
import re
import statistics
import subprocess
from typing import NamedTuple

TOP = os.path.dirname(os.path.dirname(os.path.dirname(os.path.realpath(__file__))))
# The figure that compares two programs. Its mean is geometric, so that a ratio and its inverse weigh the same.
RATIO = "ratio"
STORED = (
    f"[the mean of the rounds, geometric for a {RATIO} and arithmetic otherwise; the standard error of that mean];"
    " relay_spread: the greatest of the relay's results over the least, less one"
)


class Unmeasured(Exception):
    """A result is missing, or can't be written. The text says which, or why."""


class Figure(NamedTuple):
    """The mean of a series, and its standard error: None for a series of one."""

    mean: float
    error: float | None


def mean_of(series):
    """Returns the arithmetic mean of a series."""
    error = statistics.stdev(series) / math.sqrt(len(series)) if len(series) > 1 else None
    return Figure(statistics.fmean(series), error)


def geometric_mean_of(series):
    """Returns the geometric mean of a series of positive numbers. Its error is the standard error of the mean logarithm, times
    that mean."""
    logarithm, error = mean_of([math.log(it) for it in series])
    mean = math.exp(logarithm)
    return Figure(mean, None if error is None else mean * error)


def figures_of(rounds):
    """Returns the figures of rounds, each of which has a number by each figure's name. All rounds have the same names."""
    if any(it.keys() != rounds[0].keys() for it in rounds):
        raise Unmeasured(f"the rounds have other figures: {sorted(set().union(*rounds))}")
    means = {name: geometric_mean_of if name == RATIO else mean_of for name in rounds[0]}
    return {name: mean([it[name] for it in rounds]) for name, mean in means.items()}


def spread_of(series):
    """Returns by which share the greatest of a series exceeds the least."""
    return max(series) / min(series) - 1


# ---- where and when


def git(top, *words):
    """Returns the output of a command of git."""
    # Several measurements may ask at the same time, so none takes the lock of the index.
    done = subprocess.run(["git", "--no-optional-locks", *words], cwd=top, capture_output=True, text=True)
    if done.returncode != 0:
        raise Unmeasured(f"git {' '.join(words)}: {done.stderr.strip()}")
    return done.stdout.strip()


def tree_of_crates(top=TOP):
    """Returns git's name for the content of crates/. Raises `Unmeasured` if crates/ has changes that aren't committed."""
    if changed := git(top, "status", "--porcelain", "--", "crates"):
        raise Unmeasured(f"crates/ has changes that aren't committed: {changed.splitlines()[0].strip()}")
    return git(top, "rev-parse", "HEAD:crates")


def first_match(pattern, path):
    """Returns the group of the first match in a file of the system; an empty text if there is none."""
    with open(path, encoding="ascii", errors="replace") as it:
        found = re.search(pattern, it.read(), re.M)
    return found.group(1) if found else ""


def machine():
    """Returns the processor, how many of them the machine has, the kernel, and the most octets that a socket may ask for."""
    return {
        "processor": re.sub(r"\((R|TM)\)", "", first_match(r"^model name\s*: (.*)$", "/proc/cpuinfo")),
        "processors": os.cpu_count(),
        "kernel": platform.release().partition("-")[0],
        "rmem_max": int(first_match(r"(\d+)", "/proc/sys/net/core/rmem_max")),
    }


# ---- files


class Results:
    """The results of one measurement, row by row."""

    def __init__(self, name, facts, rows=None):
        self.name, self.facts, self.rows = name, facts, rows or {}

    def add(self, row, rounds):
        """Adds a row by the numbers of each round. Returns its figures."""
        if row in self.rows:
            raise Unmeasured(f"{self.name} has two rows {row!r}")
        self.rows[row] = figures_of(rounds)
        return self.rows[row]

    def figure(self, row, name):
        """Returns a figure. Raises `Unmeasured` with its name if it is missing."""
        if row not in self.rows:
            raise Unmeasured(f"{self.name} has no row {row!r}")
        if name not in self.rows[row]:
            raise Unmeasured(f"{self.name} has no {name!r} in the row {row!r}")
        return self.rows[row][name]

    def fact(self, name):
        """Returns what holds for all rows, as `date`. Raises `Unmeasured` with its name if it is missing."""
        if name not in self.facts:
            raise Unmeasured(f"{self.name} has no {name!r}")
        return self.facts[name]

    def text(self):
        """Returns the file's text: JSON, with a line for each fact and each row."""
        facts = {name: short(value) if isinstance(value, float) else value for name, value in self.facts.items()}
        facts = [f" {json.dumps(name)}: {json.dumps(value)}" for name, value in facts.items()]
        rows = [f"  {json.dumps(row)}: {json.dumps(stored(figures))}" for row, figures in self.rows.items()]
        return "{\n" + ",\n".join([*facts, ' "rows": {\n' + ",\n".join(rows) + "\n }"]) + "\n}\n"

    def write(self, folder, **facts):
        """Writes the file, with further facts. All facts and rows of an earlier measurement go."""
        self.facts |= facts
        os.makedirs(folder, exist_ok=True)
        with open(f"{folder}/{self.name}.json", "w", encoding="utf-8") as it:
            it.write(self.text())


def stored(figures):
    """Returns figures as a file has them: a mean and its error are a list, with five digits each."""
    means = {name: it for name, it in figures.items() if isinstance(it, Figure)}
    return figures | {name: [short(it.mean), short(it.error)] for name, it in means.items()}


def short(value):
    """Returns a number with five digits."""
    return value if value is None else float(f"{value:.5g}")


def restored(value):
    """Returns a figure of a file."""
    return Figure(*value) if isinstance(value, list) else value


def begun(name, is_written, **facts):
    """Returns the results of a measurement that begins now. Raises `Unmeasured` if they are to be written and can't be."""
    tree = {"crates": tree_of_crates()} if is_written else {}
    return Results(name, {**tree, "date": datetime.date.today().isoformat(), **machine(), **facts})


def read(folder, name):
    """Reads a file of results. Raises `Unmeasured` if it isn't there, or isn't one."""
    try:
        with open(f"{folder}/{name}.json", encoding="utf-8") as it:
            facts = json.load(it)
        rows = {row: {it: restored(value) for it, value in figures.items()} for row, figures in facts.pop("rows").items()}
    except FileNotFoundError:
        raise Unmeasured(f"there are no results of {name}: {name}.json is missing") from None
    except (ValueError, KeyError, TypeError, AttributeError) as why:
        raise Unmeasured(f"{name}.json has no results: {why}") from why
    return Results(name, facts, rows)
