"""Keeps outside the repository what each proof took on this machine."""
import json
import os
import tempfile

from wrong_bodies import kept
from wrong_bodies.inputs import digest_of_files

FILE = kept.FOLDER.parent / "proofs.json"


def read_times():
    """Returns what is kept, by the names of tasks: the digest of the crate's files, and the seconds of processor time. A file
    that can't be read counts for nothing."""
    try:
        times = json.loads(FILE.read_text(encoding="utf-8"))
        return {name: (str(digest), float(seconds)) for name, (digest, seconds) in times.items()}
    except (AttributeError, OSError, TypeError, ValueError):
        return {}


def keep_times(crates, seconds):
    """Keeps the seconds of some tasks, with the digests of their crates."""
    times = read_times()
    times |= {task.name(): (digest_of_files(crates[task.crate].texts), round(it, 1)) for task, it in seconds.items()}
    try:
        FILE.parent.mkdir(parents=True, exist_ok=True)
        with tempfile.NamedTemporaryFile("w", dir=FILE.parent, encoding="utf-8", delete=False) as written:
            json.dump(times, written)
        # Nobody reads half of a file.
        os.replace(written.name, FILE)
    except OSError:
        pass
