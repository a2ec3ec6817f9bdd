"""The repository's own files, as far as their size is bounded.

These are the sources, definitions and proofs of the crates, and all that `.ci`, `bench`, `contrib`, `endurance` and `tools`
have. Pages (`.md`), results that commands write (`bench/results`) and recorded outputs (`tests/golden`) are left out.
"""
import re
import subprocess
from dataclasses import dataclass
from functools import cached_property
from pathlib import Path

from wrong_bodies.crates import TOP

# The folders beside `crates` whose files are counted.
FOLDERS = (".ci", "bench", "contrib", "endurance", "tools")
LEFT_OUT = re.compile(r"\.md$|^bench/results/|/tests/golden/")
LANGUAGES = {".rt": "rattle", ".antt": "logic", ".py": "python", ".c": "c", ".h": "c"}


@dataclass(frozen=True)
class SourceFile:
    """A file: its path from the top of the repository, and its text."""

    path: str
    text: str

    @cached_property
    def lines(self):
        """Its lines."""
        return self.text.split("\n")[:-1] if self.text.endswith("\n") else self.text.split("\n")

    @cached_property
    def language(self):
        """The language: `rattle`, `logic`, `python`, `c`, `shell`, or `text` for all others."""
        first = self.text.partition("\n")[0]
        if first.startswith("#!"):
            return "python" if "python" in first else "shell"
        return LANGUAGES.get(Path(self.path).suffix, "text")

    @cached_property
    def unit(self):
        """The name of the crate, or of the folder beside `crates`."""
        words = self.path.split("/")
        return words[1] if words[0] == "crates" else words[0]

    @cached_property
    def part(self):
        """The part of a crate, `src`, `specs` or `proofs`; None if the file belongs to no crate."""
        words = self.path.split("/")
        return words[2] if words[0] == "crates" else None

    def is_code(self):
        """Returns whether it is written in a language that has functions or lemmas."""
        return self.language != "text"


def is_counted(path):
    """Returns whether a path is that of a file whose size is bounded."""
    if path.startswith("crates/"):
        return re.fullmatch(r"crates/\w+/(src|specs|proofs)/.*\.(rt|antt)", path) is not None
    return path.split("/")[0] in FOLDERS and not LEFT_OUT.search(path)


def tracked():
    """Returns the paths of the repository's files, those included that aren't committed yet."""
    words = ["git", "ls-files", "-z", "--cached", "--others", "--exclude-standard"]
    listed = subprocess.run(words, cwd=TOP, capture_output=True, text=True, check=True).stdout.split("\0")
    return [path for path in dict.fromkeys(listed) if path and (TOP / path).is_file()]


def read_files():
    """Returns the files whose size is bounded."""
    return [SourceFile(path, (TOP / path).read_text(encoding="utf-8")) for path in tracked() if is_counted(path)]
