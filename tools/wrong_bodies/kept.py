"""Keeps outside the repository which bodies the prover has refused on this machine, so that the next run needn't try them.

A refusal is kept under the digest of its inputs (`inputs`), so another state of the sources has other ones. A file that can't
be read or written counts for nothing, and so does one that another prover of the same name has left.
"""
import json
import os
import tempfile
from pathlib import Path
from typing import NamedTuple

from .checks import KIT

# A file for each crate.
FOLDER = Path(os.environ.get("XDG_CACHE_HOME") or Path.home() / ".cache") / "naxurbeko/refusals"
# The refusals that are kept of a crate, those of earlier states of its sources among them.
MOST = 2000


class Refusal(NamedTuple):
    """Why a body was refused, and the seconds that it took."""

    reason: str
    seconds: float


def prover_here():
    """Returns the size and the time of this machine's prover, which a later one of the same name doesn't share."""
    found = (KIT / "bin/rattle").stat()
    return [found.st_size, found.st_mtime_ns]


class KeptRefusals:
    """The refusals of a crate's bodies that are kept, by the digests of their inputs."""

    def __init__(self, crate, prover):
        self.file = FOLDER / f"{crate.name}.json"
        self.prover = prover
        self.refusals = self.read()

    def read(self):
        """Returns the refusals in the crate's file, if this prover has made them."""
        try:
            prover, refusals = json.loads(self.file.read_text(encoding="utf-8"))
            return {digest: Refusal(*it) for digest, it in refusals.items()} if prover == self.prover else {}
        except (AttributeError, OSError, TypeError, ValueError):
            return {}

    def get(self, digest):
        """Returns the refusal under a digest, or None if it isn't kept."""
        return self.refusals.get(digest)

    def keep(self, refusals):
        """Adds refusals by their digests, to those that other runs have added meanwhile."""
        others = {digest: it for digest, it in self.read().items() if digest not in refusals}
        # The last ones are dropped last.
        self.refusals = dict([*others.items(), *refusals.items()][-MOST:])
        try:
            self.file.parent.mkdir(parents=True, exist_ok=True)
            with tempfile.NamedTemporaryFile("w", dir=self.file.parent, encoding="utf-8", delete=False) as written:
                json.dump([self.prover, self.refusals], written)
            # Nobody reads half of a file.
            os.replace(written.name, self.file)
        except OSError:
            pass
