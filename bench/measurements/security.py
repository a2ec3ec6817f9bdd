"""The part of docs/SECURITY.md that is measured."""
from functools import partial

from .pages import rounded, table
from .performance import LATENCIES
from .results import read

# The floods of endurance/floods.py: their names there, and their words.
ALONE = "none"
FLOODS = (
    ("random", "a stranger's octets"),
    ("empty", "empty datagrams"),
    ("unknown_entries", "trunk frames, 510 unknown entries"),
    ("no_destination", "HANGUPs of destination 0"),
    ("no_token", "NEWs without a call token"),
    ("empty_token", "NEWs with an empty one"),
    ("unknown_call", "PINGs of no call"),
    ("pings", "PINGs of its call"),
    ("ahead", "PINGs ahead of its call"),
    ("vnaks", "VNAKs of its call"),
    ("entries", "trunk frames, 255 entries of its call"),
    ("challenged", "NEWs of a peer with a secret"),
)


def row_of(found, name, what):
    """Returns the cells of a flood."""
    figure = partial(found.figure, name)
    taken = "" if name == ALONE else rounded(figure("a second"), 2)
    return what, taken, ", ".join(rounded(figure(it), 2) for it in LATENCIES)


def floods(folder):
    """Makes the table of floods, with two calls during each."""
    found = read(folder, "floods")
    rows = [row_of(found, name, what) for name, what in ((ALONE, "none"), *FLOODS)]
    return table(("Flood", "Taken a second", "p50, p99, p99.9, ms"), rows)


def parts(folder):
    """Returns the part of the page by its name."""
    return {it.__name__: partial(it, folder) for it in (floods,)}
