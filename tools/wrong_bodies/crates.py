"""The crates of crates.txt, and the files that the prover reads of each."""
import os
from functools import cached_property
from pathlib import Path

from .functions import module_of, modules_of_types, statements_in

TOP = Path(__file__).resolve().parents[2]
# The folders of a crate that the prover reads.
PARTS = ("src", "specs", "proofs")


class Crate:
    """A crate: its name, its folder, the crates of the repository that its line names, and the toolchain's libraries there."""

    def __init__(self, name, folder):
        self.name = name
        self.folder = Path(folder)
        self.dependencies = []
        self.libraries = []

    def below(self):
        """Returns all crates of the repository on which it depends, the lowest first."""
        found = []
        for dependency in self.dependencies:
            found += [crate for crate in [*dependency.below(), dependency] if crate not in found]
        return found

    @cached_property
    def texts(self):
        """The texts of the files that the prover reads of it, by their paths, as they were when they were first asked for."""
        files = sorted(path for part in PARTS for path in files_below(self.folder / part))
        return {str(path.relative_to(self.folder)): path.read_text(encoding="utf-8") for path in files}

    @cached_property
    def modules(self):
        """The modules of its types."""
        return modules_of_types(sources_in(self.texts))

    @cached_property
    def statements(self):
        """The statements of the functions of each of its sources."""
        sources = sources_in(self.texts)
        return {file: statements_in(text, module_of(file), self.modules) for file, text in sources.items()}

    @cached_property
    def line_count(self):
        """The number of lines that the prover reads of it."""
        return sum(text.count("\n") for text in self.texts.values())


def sources_in(texts):
    """Returns those of a crate's texts that are sources."""
    return {file: text for file, text in texts.items() if file.startswith("src/")}


def files_below(folder):
    """Returns the files of a folder and of the folders in it; none if it doesn't exist."""
    return [Path(at) / name for at, _, names in os.walk(folder) for name in names]


def crates_in(text, folder):
    """Returns the crates that a text like crates.txt lists, by name. `folder` has a folder for each."""
    named = {}
    for line in text.split("\n"):
        if line and not line.startswith("#"):
            name, _, libraries = line.partition(":")
            named[name.split()[0]] = libraries.split()
    crates = {name: Crate(name, Path(folder) / name) for name in named}
    for crate in crates.values():
        crate.dependencies = [crates[name] for name in named[crate.name] if name in crates]
        crate.libraries = [name for name in named[crate.name] if name not in crates]
    return crates


def read_crates():
    """Returns the repository's crates by name, in the order of crates.txt."""
    return crates_in((TOP / "crates.txt").read_text(encoding="utf-8"), TOP / "crates")
