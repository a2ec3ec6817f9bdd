"""The counts of the repository: of each crate, of each folder beside the crates, and in all."""
import math
from collections import Counter
from dataclasses import dataclass, field

from .files import FOLDERS
from .functions import clause_count, functions_of
from .laws import law_lines
from .twins import pairs_of

# No line of the repository has more characters, no function's body and no file more lines, unless bounds.toml names it.
LONGEST_LINE = 130
LONGEST_FUNCTION = 40
LONGEST_FILE = 400


@dataclass
class Unit:
    """The counts of a crate, or of a folder beside the crates. A crate has lines by part, a folder has all of them as `src`."""

    name: str
    is_crate: bool
    lines: Counter = field(default_factory=Counter)
    laws: int = 0
    clauses: int = 0
    functions: int = 0
    longest_file: int = 0
    longest_function: int = 0
    longest_line: int = 0
    parameters: int = 0
    pairs: int = 0

    def add(self, file, functions):
        """Counts a file that has these functions."""
        self.lines[file.part or "src"] += len(file.lines)
        self.clauses += clause_count(file)
        self.functions += len(functions)
        self.longest_line = max([self.longest_line, *map(len, file.lines)])
        self.longest_function = max([self.longest_function, *(it.length for it in functions)])
        self.parameters = max([self.parameters, *(it.parameters for it in functions)])
        if file.is_code():
            self.longest_file = max(self.longest_file, len(file.lines))

    def is_working(self):
        """Returns whether it is a crate that has more than laws."""
        return self.is_crate and not self.name.startswith("laws_of_")

    def proofs_to_source(self, with_laws=False):
        """Returns the lines of proofs for each line of the source, without those for laws alone unless they are wanted."""
        return (self.lines["proofs"] - (0 if with_laws else self.laws)) / max(1, self.lines["src"])


@dataclass
class Counts:
    """All counts: units by name, pairs of places that say the same, and places that are longer than the general bounds.

    Functions are by path and name, with the lines of the longest of the name there; files by path with their lines; and
    lines by path with how many of a file are too long.
    """

    units: dict
    pairs: list
    long_functions: dict
    long_files: dict
    long_lines: dict

    def crates(self):
        """Returns the crates."""
        return [unit for unit in self.units.values() if unit.is_crate]

    def in_all(self):
        """Returns the sums, and the longest, of all units. Its lines are those of crates."""
        whole = Unit("in all", True)
        for unit in self.units.values():
            if unit.is_crate:
                whole.lines += unit.lines
            whole.laws += unit.laws
            whole.clauses += unit.clauses
            whole.functions += unit.functions
            for name in ("longest_file", "longest_function", "longest_line", "parameters"):
                setattr(whole, name, max(getattr(whole, name), getattr(unit, name)))
        whole.pairs = len(self.pairs)
        return whole


def rounded(ratio):
    """Returns a ratio with one decimal, rounded up, as bounds have it."""
    return math.ceil(round(ratio * 10, 6)) / 10


def long_places(files, functions):
    """Returns the functions, the files and the lines that are longer than the general bounds, as `Counts` has them."""
    long_functions, long_files, long_lines = {}, {}, {}
    for file in files:
        for function in functions[file.path]:
            if function.length > LONGEST_FUNCTION:
                name = f"{file.path} {function.name}"
                long_functions[name] = max(function.length, long_functions.get(name, 0))
        if file.is_code() and len(file.lines) > LONGEST_FILE:
            long_files[file.path] = len(file.lines)
        long = sum(len(line) > LONGEST_LINE for line in file.lines)
        if long:
            long_lines[file.path] = long
    return long_functions, long_files, long_lines


def counts_of(files, crates):
    """Returns the counts of some files. `crates` has the names of all crates, in the order of crates.txt."""
    units = {name: Unit(name, True) for name in crates} | {name: Unit(name, False) for name in FOLDERS}
    known = [file for file in files if file.unit in units]
    functions = {file.path: functions_of(file) for file in known}
    for file in known:
        units[file.unit].add(file, functions[file.path])
    for name, lines in law_lines(known).items():
        units[name].laws = lines
    units_of, pairs = {file.path: file.unit for file in known}, pairs_of(known)
    for pair in pairs:
        for name in {units_of[path] for path in pair.paths}:
            units[name].pairs += 1
    return Counts(units, pairs, *long_places(known, functions))
