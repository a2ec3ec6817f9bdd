"""Shared by the tests: finds the package, and writes results."""
import sys
import tempfile
from pathlib import Path

TOP = Path(__file__).resolve().parents[3]
sys.path[:0] = [str(TOP / it) for it in ("bench", "tools", "endurance")]

from measurements.results import Figure, Results  # noqa: E402

FACTS = {
    "crates": "0" * 40,
    "date": "2026-02-03",
    "processor": "Abacus 3",
    "processors": 2,
    "kernel": "6.1.2",
    "rmem_max": 4194304,
    "rounds": 3,
    "seconds": 0.5,
}


def room_of(test):
    """Returns a folder that lasts as long as a test."""
    room = tempfile.TemporaryDirectory()
    test.addCleanup(room.cleanup)
    return Path(room.name)


def write_results(folder, name, rows, **facts):
    """Writes a file of results. `rows` has figures by row and name: a number is a mean without error, a pair has both."""
    figures = {
        row: {it: Figure(*value) if isinstance(value, tuple) else Figure(value, None) for it, value in named.items()}
        for row, named in rows.items()
    }
    Results(name, FACTS | facts, figures).write(folder)
