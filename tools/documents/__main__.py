"""documents [--spoil SEED|all] [--seed N] [--jobs N] [--kind WORDS]: checks that the documents agree with the program.

- Each command of a page that can run here is run on the program, and its output is compared.
- Names, ranges, defaults, sizes, statuses, codes, modes and lines of the log are compared with the sources, with `--help`, or
  with what the program does.
- Each link, and each name of a file or a heading, leads somewhere.
- The rules of form in rules.py hold, as far as they are on.

Without an option it ends with a few statements that are spoilt in a copy of the documents, drawn by a new seed: the checks have
to notice each. `--spoil` with that seed spoils the same ones in the same way, and one of each other kind. It prints a count
last, to standard error; the exit status is 1 if a comparison failed.

--spoil SEED  only spoils: a statement of each kind, drawn by this seed.
--spoil all   only spoils: every statement of every kind; --seed decides how.
--jobs N      spoils by so many processes.
--kind WORDS  spoils only kinds whose names have these words.

It needs the program as `rt ci` has built it, or another by EXCHANGE_MAIN, and Python 3.11.
"""
import argparse
import random
import sys

from .checks import CHECKS, run_all
from .kinds import KINDS
from .pages import TOP, Documents
from .report import Report
from .spoiling import spoil

# How many statements are spoilt after all checks.
FEW = 4


def options():
    """Returns the options of the command."""
    it = argparse.ArgumentParser(prog="documents", description=__doc__, formatter_class=argparse.RawDescriptionHelpFormatter)
    it.add_argument("--spoil", metavar="SEED")
    it.add_argument("--seed", type=int, default=random.SystemRandom().randrange(1_000_000))
    it.add_argument("--jobs", type=int, default=1)
    it.add_argument("--kind", default="")
    words = it.parse_args()
    if words.spoil and words.spoil != "all" and not words.spoil.isdigit():
        it.error("--spoil takes a number or `all`")
    return words


def print_counts(counts):
    """Prints how many statements of each kind were spoilt, and how many of them noticed."""
    for kind in (it.name for it in KINDS):
        seen, noticed = counts.get(kind, (0, 0))
        print(f"documents: {kind}: {noticed} of {seen} noticed", file=sys.stderr)


def main():
    """Runs the command."""
    words, report = options(), Report()
    kinds = [it for it in KINDS if words.kind in it.name]
    seed = int(words.spoil) if words.spoil and words.spoil.isdigit() else words.seed
    if words.spoil:
        print(f"documents: spoils by seed {seed}", file=sys.stderr)
        how = "all" if words.spoil == "all" else "each"
        print_counts(spoil(TOP, CHECKS, kinds, how, seed, report, words.jobs))
    else:
        run_all(Documents(), report)
        print(f"documents: spoils {FEW} statements by seed {seed}", file=sys.stderr)
        spoil(TOP, CHECKS, kinds, FEW, seed, report)
    print(f"documents: {report.passed} passed, {report.failed} failed", file=sys.stderr)
    sys.exit(1 if report.failed or not report.passed else 0)


if __name__ == "__main__":
    main()
