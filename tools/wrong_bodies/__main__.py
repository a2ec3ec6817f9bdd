"""wrong_bodies [--beside DIR] [--seed N] [--anew | --search | --right | --name | --apply | --times | --record]
[CRATE|CRATE/BODY ..]: checks that the prover refuses each wrong body of crates/*/must-fail/*.md, in the function that the body
changes.

`pages` describes the pages, `copies` and `crate_copies` the copies of crates that are tried, and `checks` how their outcome
is read. No other goal than that of a page is checked. A body isn't tried again while the inputs of its refusal are the same
(`inputs`), if this machine has tried it (`kept`). Of those that the repository records (`records`), one in four is tried. The
last line has the counts. The exit status is 1 if a body isn't refused or there is none.

--beside DIR  runs while `rt ci` builds the libraries: DIR/ci has the output of that so far, and DIR/ended exists once it has
              ended. A crate is tried once the crates below it are proved; until the end this takes at most half of the
              processors.
--seed N      draws the recorded bodies as the run did whose first line has this number. Without this option the number is
              random, or, if a crate or a body is named, all recorded bodies are tried too.
--anew        tries all bodies.
--search      tries all, and leaves out the written answers (`Answers.antt`) of changed functions. So a body is refused by a
              search, and not because an answer fits another body. With `--right`, prints for which functions a search finds
              the whole proof: a refusal of these is one of the change.
--right       changes nothing: prints which of the functions that appear a second time are proved then. So a body is refused
              for its change.
--name        looks for a goal for each of the bodies whose page names none, and writes it on the page.
--apply       tries nothing: ends at once, and fails if a page can't be applied or a record is of no body.
--times       tries nothing: prints the seconds that bodies took on this machine, the longest first.
--record      tries nothing: records the refusals that this machine keeps, beside those records that still hold.
"""
import random
import re
import resource
import sys
import tempfile
from dataclasses import dataclass

from .checks import check
from .choices import Chooser
from .crates import read_crates
from .goals import GoalSearch
from .inputs import Inputs, program_digest
from .kept import prover_here
from .pages import PageError, bodies_of
from .records import ONE_IN, check_records
from .scheduling import Build, Schedule, Selection, copies_for, tried

SWITCHES = {"--anew", "--search", "--right", "--name", "--apply", "--times", "--record"}


@dataclass
class Options:
    """The options of the command, and the crates and bodies that it names (all, if it names none)."""

    beside: str | None
    switches: set
    names: list
    seed: int | None = None

    def keeps_answers(self):
        """Returns whether changed functions keep their written answers."""
        return "--search" not in self.switches

    def draws(self):
        """Returns whether recorded bodies are drawn."""
        return "--anew" not in self.switches and (self.seed is not None or not self.names)

    def chooses(self, crate, body):
        """Returns whether a body is chosen."""
        return not self.names or crate.name in self.names or f"{crate.name}/{body.name}" in self.names


def options_in(words):
    """Returns the options in the words of the command."""
    given = {}
    while words[:1] in (["--beside"], ["--seed"]):
        if len(words) < 2:
            raise PageError(f"{words[0]} takes a word")
        given[words[0]] = words[1]
        words = words[2:]
    seed = given.get("--seed")
    if seed is not None and not seed.isdecimal():
        raise PageError("--seed takes a number")
    names = [word for word in words if word not in SWITCHES]
    return Options(given.get("--beside"), SWITCHES & {*words}, names, None if seed is None else int(seed))


def selections_for(options):
    """Returns the crates whose bodies are chosen, the heaviest first."""
    selections = []
    for crate in read_crates().values():
        bodies = [body for body in bodies_of(crate) if options.chooses(crate, body)]
        if bodies:
            selections.append(Selection(crate, bodies))
    return sorted(selections, key=lambda it: -it.weight())


def refused_line(crate, body, reason, when=""):
    """Returns the line for a body that is refused."""
    return f"{crate.name}/{body.name}: refused, as it must be{when}: {body.function}: {reason[:140]}"


def report_of(crate, outcome):
    """Returns the line for a body that was tried."""
    body = outcome.function.body
    if outcome.reason:
        return refused_line(crate, body, outcome.reason)
    about = f"::{outcome.function.path}:"
    lines = [line for line in outcome.text.split("\n") if about in line or re.match(r"error|\S+: error", line)]
    return f"{crate.name}/{body.name}: NOT REFUSED: {body.function}: {' | '.join(lines[:3])[:600] or outcome.text[-300:]}"


def try_right(selection, keeps_answers):
    """Prints for each function that a crate's bodies change whether it is proved without the change. Returns the number of
    those that aren't."""
    crate = selection.crate
    bodies = [body.right_body() for body in selection.bodies]
    lost = 0
    with tempfile.TemporaryDirectory(prefix="wrong-bodies-kept-") as kept:
        for copy in copies_for(crate, bodies, keeps_answers):
            output = check(copy, kept)
            for function in copy.functions:
                is_proved = output.is_proved(function)
                lost += not is_proved
                verdict = "proved, as it must be" if is_proved else "NOT PROVED"
                print(f"{crate.name}/{function.body.name}: {verdict}: {function.path}", flush=True)
    return lost


def seed_of(options):
    """Returns the number by which recorded bodies are drawn; None if none are drawn."""
    if not options.draws():
        return None
    return options.seed if options.seed is not None else random.SystemRandom().randrange(1_000_000)


def print_outcomes(schedule):
    """Prints for each body that a schedule tries whether it is refused. Returns how many are tried, and how many of them aren't
    refused."""
    count = failed = 0
    for crate, outcomes in schedule.results():
        for outcome in outcomes:
            count += 1
            failed += not outcome.reason
            print(report_of(crate, outcome), flush=True)
    return count, failed


def seconds_of_provers():
    """Returns the seconds of processor time of the provers that have ended."""
    used = resource.getrusage(resource.RUSAGE_CHILDREN)
    return used.ru_utime + used.ru_stime


def try_by_search(selections, options):
    """Prints for each body whether it is refused without written answers. Returns the exit status."""
    schedule = Schedule(selections, Build(options.beside), lambda it: tried(it, keeps_answers=False))
    count, failed = print_outcomes(schedule)
    print(f"bodies: {count} tried, {failed} failed")
    return 0 if count and not failed else 1


def print_choices(choices, seed):
    """Prints the number by which recorded bodies are drawn, and a line for each body whose refusal is kept. Returns how many
    those are, and how many are recorded and not drawn."""
    if seed is not None:
        print(f"bodies: one recorded body in {ONE_IN} is tried, as --seed {seed} draws them", flush=True)
    kept = [(choice.to_try.crate, body, refusal) for choice in choices for body, refusal in choice.kept]
    for crate, body, refusal in kept:
        print(refused_line(crate, body, refusal.reason, " (in an earlier run)"), flush=True)
    return len(kept), sum(len(choice.undrawn) for choice in choices)


def try_wrong(selections, options):
    """Prints for each body whether it is refused, unless it is recorded and not drawn. Returns the exit status."""
    seed = seed_of(options)
    chooser = Chooser(Inputs(program_digest()), prover_here(), seed)
    # A page that can't be applied ends the run here.
    choices = [chooser.choice(it, "--anew" in options.switches) for it in selections]
    kept, undrawn = print_choices(choices, seed)
    by_crate = {choice.to_try.crate.name: choice for choice in choices}
    waiting = sorted((choice.to_try for choice in choices if choice.to_try.bodies), key=lambda it: -it.weight())
    schedule = Schedule(waiting, Build(options.beside), lambda it: chooser.tried(by_crate[it.crate.name]))
    count, failed = print_outcomes(schedule)
    took = f"{seconds_of_provers():.0f} s of processor time"
    print(f"bodies: {count} tried in {took}, {kept} kept, {undrawn} recorded and not drawn, {failed} failed")
    return 0 if count + kept + undrawn and not failed else 1


def record(options):
    """Records the refusals that this machine keeps of the crates that are named. Returns the exit status."""
    chooser = Chooser(Inputs(program_digest()), prover_here())
    named = {name.partition("/")[0] for name in options.names}
    bodies = kept = recorded = 0
    for crate in read_crates().values():
        if not named or crate.name in named:
            selection = Selection(crate, bodies_of(crate))
            counts = chooser.record(selection)
            bodies += len(selection.bodies)
            kept += counts[0]
            recorded += counts[1]
    print(f"bodies: {recorded} of {bodies} recorded, {kept} of them as this machine has refused them")
    return 0 if recorded else 1


def print_times(selections):
    """Prints the seconds that bodies took on this machine with their present inputs, the longest first. Returns the exit
    status."""
    chooser = Chooser(Inputs(program_digest()), prover_here())
    kept = []
    for choice in [chooser.choice(it) for it in selections]:
        kept += [(it.seconds, f"{choice.to_try.crate.name}/{body.name}: {body.function}") for body, it in choice.kept]
    for seconds, line in sorted(kept, reverse=True):
        print(f"{seconds:6.1f} {line}")
    bodies = sum(len(it.bodies) for it in selections)
    print(f"bodies: {len(kept)} of {bodies} took {sum(seconds for seconds, _ in kept):.0f} s; the others weren't tried here")
    return 0 if kept else 1


def apply_all(selections):
    """Fails if a page can't be applied or a record is of no body. Returns the exit status."""
    for selection in selections:
        copies_for(selection.crate, selection.bodies)
    for crate in read_crates().values():
        check_records(crate)
    print(f"bodies: {sum(len(it.bodies) for it in selections)} can be applied")
    return 0


def run(options):
    """Does what the options say. Returns the exit status."""
    selections = selections_for(options)
    if "--apply" in options.switches:
        return apply_all(selections)
    if "--record" in options.switches:
        return record(options)
    if "--times" in options.switches:
        return print_times(selections)
    if "--name" in options.switches:
        print(f"goals: {sum([GoalSearch(it, options.keeps_answers()).name_goals() for it in selections])} named")
        return 0
    if "--right" in options.switches:
        return 1 if sum([try_right(it, options.keeps_answers()) for it in selections]) else 0
    if "--search" in options.switches:
        return try_by_search(selections, options)
    return try_wrong(selections, options)


def main(words):
    """Runs the command with these words. Returns the exit status."""
    try:
        return run(options_in(words))
    except PageError as error:
        print(error, file=sys.stderr)
        return 1


if __name__ == "__main__":
    sys.exit(main(sys.argv[1:]))
