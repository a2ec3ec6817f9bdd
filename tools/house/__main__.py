"""house [--places | --lower]: counts the repository, and fails if it has more of something than bounds.toml allows.

It prints a row for each crate and for each folder beside the crates: lines of source, of specs and of proofs, those of proofs
that serve laws alone (`of laws`), lines of proofs for each line of source without those and with them, clauses (`ensures`)
and functions; the longest file, body of a function, line and list of parameters; and pairs of places that say the same
(`pairs`; their bound is `twins`).
Then it prints each count that is above its bound, and each bound that is above that of the commit before without a new `why`.
The exit status is 1 if there is one.

--places  prints the pairs, and the functions, files and lines that are longer than the general bounds.
--lower   writes the present values into bounds.toml where they are lower than the bounds, and never a higher one.
"""
import sys

from wrong_bodies.crates import TOP, read_crates

from . import bounds
from .counts import counts_of
from .files import read_files
from .report import places_of, table_of


def faults_of(values, text):
    """Returns a sentence for each count above its bound, and for each bound that was raised without a reason."""
    limits = bounds.bounds_in(text)
    before = bounds.text_before(text)
    return bounds.exceeded(values, limits) + (bounds.raised(limits, bounds.bounds_in(before)) if before else [])


def lower(values, text):
    """Writes the bounds that can be lowered."""
    new = bounds.text_of(text, bounds.lowered(values, bounds.bounds_in(text)))
    (TOP / bounds.PATH).write_text(new, encoding="utf-8")


def main(words):
    """Runs the command with these words. Returns the exit status."""
    if not set(words) <= {"--places", "--lower"} or len(words) > 1:
        print(__doc__.strip(), file=sys.stderr)
        return 2
    counts = counts_of(read_files(), list(read_crates()))
    values = bounds.present(counts, bounds.bounds_in(bounds.read_text()))
    if "--lower" in words:
        lower(values, bounds.read_text())
    faults = faults_of(values, bounds.read_text())
    for line in [*(places_of(counts) if "--places" in words else table_of(counts)), *(f"house: {it}" for it in faults)]:
        print(line)
    print(f"house: {len(faults)} above their bounds" if faults else "house: within its bounds")
    return 1 if faults else 0


if __name__ == "__main__":
    sys.exit(main(sys.argv[1:]))
