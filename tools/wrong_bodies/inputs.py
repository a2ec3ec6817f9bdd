"""Digests of all that decides whether a body is refused, equal on each machine and in each folder.

A trial's inputs are the toolchain, the code that makes copies and reads their outcome, the body, the files of its copy, and of
each crate below its line in crates.txt and its files without bodies and proofs of functions. README.md says why that suffices.
"""
import hashlib
import json
import re
from dataclasses import asdict
from functools import cache, lru_cache
from pathlib import Path

from .checks import KIT
from .crate_copies import CrateCopy

# The modules that decide on a body: those that `scheduling.tried` uses.
DECIDING = ("answers", "checks", "copies", "crate_copies", "crates", "functions", "pages", "scheduling")
COMMENT = re.compile(r"^[ \t]*(?://|--).*\n", re.M)
# The octets of a digest, in two digits each.
LENGTH = 20


def digest_of(value):
    """Returns the digest of a value that JSON can express."""
    return hashlib.sha256(json.dumps(value).encode()).hexdigest()[: 2 * LENGTH]


@lru_cache(maxsize=1024)
def digest_of_text(text):
    """Returns the digest of a file without the lines that are only a comment."""
    return digest_of(COMMENT.sub("", text))


def digest_of_files(files):
    """Returns the digest of files: texts by their paths."""
    return digest_of([(file, digest_of_text(files[file])) for file in sorted(files)])


def program_digest():
    """Returns the digest of the toolchain and of the modules that decide."""
    folder = Path(__file__).parent
    texts = [(folder / f"{name}.py").read_text(encoding="utf-8") for name in DECIDING]
    return digest_of([(KIT / "KIT-ID").read_text(encoding="utf-8"), texts])


def row_of(crate):
    """Returns a crate's line of crates.txt."""
    return [crate.name, [other.name for other in crate.dependencies], crate.libraries]


@cache
def digest_of_promises(crate):
    """Returns the digest of what crates above read of a crate: the copy that has no function's body or proof."""
    return digest_of([row_of(crate), digest_of_files(CrateCopy(crate).files())])


class Inputs:
    """The digests of the bodies of crates."""

    def __init__(self, program):
        self.program = program

    def beneath(self, crate):
        """Returns the digest of what all bodies of a crate have in common."""
        return digest_of([self.program, row_of(crate), [digest_of_promises(other) for other in crate.below()]])

    def digests(self, crate, bodies):
        """Returns the digests of some bodies of a crate, by their names."""
        beneath = self.beneath(crate)
        found = {}
        for body in bodies:
            copy = CrateCopy(crate)
            copy.add(body)
            found[body.name] = digest_of([beneath, asdict(body), digest_of_files(copy.files())])
        return found
