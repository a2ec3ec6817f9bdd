"""The shared parts of bench/table and bench/bursts: their options, their results, and the warning of a busy machine."""
import argparse
import sys

from iax_test.waits import Failed

from . import results

# The spread of the relay's own runs above which the machine is too busy.
MOST_SPREAD = 0.15


def parser_of(description, rounds, file):
    """Returns a reader of the options that both programs have."""
    it = argparse.ArgumentParser(description=description, formatter_class=argparse.RawDescriptionHelpFormatter)
    it.add_argument("--seconds", type=float, default=1, help="how long each run lasts, 1 without it")
    it.add_argument("--rounds", type=int, default=rounds, help=f"rounds of each row, {rounds} without it")
    it.add_argument("--write", action="store_true", help=f"writes bench/results/{file}.json")
    return it


def options_of(parser, words=None):
    """Returns the options, by default those of the command line."""
    found = parser.parse_args(words)
    if found.rounds < 1:
        parser.error("there is no result without a round")
    if found.write and found.rounds < 2:
        parser.error("--write needs two rounds: one has no error")
    return found


def begun(name, given, **facts):
    """Returns the results of a table that is measured with these options from now on."""
    how = {"seconds": given.seconds, "rounds": given.rounds} | facts
    return results.begun(name, given.write, **how, stored=results.STORED)


def note_spread(found, series, what="the machine"):
    """Keeps the greatest spread of the relay's runs so far, and warns if this one is too great."""
    spread = results.spread_of(series)
    found.facts["relay_spread"] = max(spread, found.facts.get("relay_spread", 0))
    if spread > MOST_SPREAD:
        print(f"{what} is too busy for figures to count: the relay's runs differ by {spread:.0%}")


def write(found, given):
    """Writes the results, if that is wanted."""
    if given.write:
        found.write(f"{results.TOP}/bench/results")


def run(name, main):
    """Runs the main function of a program. A failure ends it with a line and status 1."""
    try:
        main()
    except (Failed, results.Unmeasured) as why:
        sys.exit(f"{name}: {why}")
