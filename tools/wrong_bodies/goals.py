"""Finds goals for the bodies whose pages name none, and writes them on the pages (`--name`).

The goal isn't proved in the wrong body, and an answer of the kinds on the pages proves it in the right one. It is written if
the body is refused at it and takes no longer.
"""
import os
import re
import tempfile
from dataclasses import dataclass, field, replace
from typing import NamedTuple

from .answers import TACTICS, named_attempts, parts_of
from .checks import check
from .copies import changes_function_alone
from .crate_copies import CrateCopy
from .pages import Attempt, WrongBody, write_goal
from .scheduling import Selection, copies_for, tried


class Proof(NamedTuple):
    """A goal of a wrong body, the goal of the right one that may correspond to it, and the word of the answer that proves
    that; None for a written answer, and for the plain rules if the goals have none."""

    goal: str
    right_goal: str
    tactic: str | None


@dataclass
class NamelessBody:
    """A body whose page names no goal: the goals at which it is refused, all its goals, those of the right body and those
    with a written answer, the seconds that it takes, and what proves the right body."""

    body: WrongBody
    refused: list = field(default_factory=list)
    wrong: list = field(default_factory=list)
    right: list = field(default_factory=list)
    written: list = field(default_factory=list)
    seconds: float = 0.0
    proofs: list = field(default_factory=list)

    def wrong_body(self, attempts):
        """Returns the body under another name, in which these answers are tried."""
        return replace(self.body, name=f"{self.body.name}_wrong", attempts=attempts)

    def right_body(self, attempts):
        """Returns the right body under another name, in which these answers are tried."""
        return replace(self.body.unchanged(), name=f"{self.body.name}_right", attempts=attempts)

    def counterparts(self, goal):
        """Returns the goals of the right body that may correspond to a goal of the wrong one: the goal of that name; or
        else two of the same clause, first those that only the right body has, by the similarity of the names' beginnings,
        then the next in both."""
        if goal in self.right:
            return [goal]
        alike = [it for it in self.right if it.split("-")[0] == goal.split("-")[0] and clause_of(it) == clause_of(goal)]
        own = sorted((it for it in alike if it not in self.wrong), key=lambda it: -len(os.path.commonprefix([it, goal])))
        at = self.wrong.index(goal) if goal in self.wrong else 0
        after = [it for it in self.wrong[at:] if it in alike]
        before = [it for it in reversed(self.wrong[:at]) if it in alike]
        return [*own, *after, *before][:2]

    def pairs(self):
        """Returns two of the goals at which it is refused, those of clauses first, each with the goals of the right body
        that may correspond to it."""
        goals = sorted(self.refused, key=lambda it: "-clause-" not in it)[:2]
        return [(goal, right_goal) for goal in goals for right_goal in self.counterparts(goal)]

    def named(self):
        """Returns the body with the first goal at which the right one is proved, clauses first, and the first answer."""
        tactics = [None, *TACTICS]

        def rank(proof):
            is_of_no_clause = "-clause-" not in proof.goal
            is_renamed = proof.goal != proof.right_goal
            return (is_of_no_clause, self.refused.index(proof.goal), is_renamed, tactics.index(proof.tactic))

        first = min(self.proofs, key=rank)
        return replace(self.body, goal=first.goal, right_goal=first.right_goal, tactic=first.tactic)


def clause_of(goal):
    """Returns the clause of a goal; an empty text if its name has none."""
    return goal.partition("-clause-")[2]


def written_answers(crate, path):
    """Returns the parts of the written answers for a function's goals, by their names, and the goals that they answer."""
    file = crate.folder / "proofs" / path.replace("::", "/") / "Answers.antt"
    if not file.is_file():
        return {}, []
    parts, answers = parts_of(file.read_text(encoding="utf-8"))
    named = {}
    for part in parts:
        found = re.search(r"^(?:pub |abbrev )*(\S+) : ", part, re.M)
        if found:
            named[found[1]] = part
    return named, [*answers]


def refused_goals(crate, output, function):
    """Returns the goals at which a changed function is refused: those that no tactic proves, and those with a written
    answer that is refused, or that cites one that is."""
    parts, answers = written_answers(crate, function.body.function)
    folder = re.escape(function.path.replace("::", "/"))
    refused = set(re.findall(rf"^\./proofs/{folder}/Answers\.antt:\S+ error: `([^`]+)`", output.text, re.M))
    for _ in parts:
        refused |= {name for name, text in parts.items() if set(re.findall(r"[^\s(){},]+", text)) & refused}
    return output.unproved_goals(function.path) + [goal for goal in answers if goal in refused]


def proved_attempts(output, function):
    """Returns those of a function's attempts that are proved, by its check."""
    folder = re.escape(function.path.replace("::", "/"))
    errors = set(re.findall(rf"^\./proofs/{folder}/\S+: error: (?:`([^`]+)`)?", output.text, re.M))
    attempts = {named.name: named.attempt for named in named_attempts(function.body)}
    # An error that names none of them may concern all.
    if not errors <= set(attempts) or not output.line_of(function.path):
        return []
    return [attempt for name, attempt in attempts.items() if name not in errors]


class GoalSearch:
    """The search for goals in the bodies of a crate that name none."""

    def __init__(self, selection, keeps_answers):
        self.crate = selection.crate
        self.keeps_answers = keeps_answers
        self.bodies = self.nameless(selection.bodies)

    def report(self, body, text):
        """Prints a line about a body."""
        print(f"{self.crate.name}/{body.name}: {text}", flush=True)

    def nameless(self, bodies):
        """Returns the bodies that name no goal, except those that can't."""
        found = []
        for body in bodies:
            if body.goal:
                continue
            copy = CrateCopy(self.crate)
            if changes_function_alone(body, copy.text_of):
                found.append(NamelessBody(body))
            else:
                self.report(body, "no goal, since it turns more than its function")
        return found

    def checked(self, bodies, kept):
        """Yields the output of a check with each function that these bodies change."""
        for copy in copies_for(self.crate, bodies, self.keeps_answers):
            output = check(copy, kept)
            for function in copy.functions:
                yield output, function

    def look(self, kept):
        """Searches the bodies, and lists their goals and those of the right ones."""
        nameless_of = {}
        bodies = []
        for nameless in self.bodies:
            for body in (nameless.body, nameless.right_body(()), nameless.wrong_body(())):
                nameless_of[body.name] = nameless
                bodies.append(body)
        for output, function in self.checked(bodies, kept):
            self.note(nameless_of[function.body.name], output, function)

    def note(self, nameless, output, function):
        """Keeps what a check printed of one of the three forms of a body."""
        if function.body.name == nameless.body.name:
            nameless.refused = refused_goals(self.crate, output, function)
            nameless.seconds = output.seconds[function.path]
            nameless.written = written_answers(self.crate, function.body.function)[1]
        elif function.body.name.endswith("_right"):
            nameless.right = output.unproved_goals(function.path)
        else:
            nameless.wrong = output.unproved_goals(function.path)

    def try_right(self, kept, bodies, tactics):
        """Tries these answers in the right bodies, at the goals that may correspond to those at which the wrong ones are
        refused."""
        nameless_of = {}
        rights = []
        for nameless in [it for it in bodies if it.pairs()]:
            attempts = [Attempt(right_goal, tactic) for _, right_goal in nameless.pairs() for tactic in tactics]
            rights.append(nameless.right_body(tuple(dict.fromkeys(attempts))))
            nameless_of[rights[-1].name] = nameless
        for output, function in self.checked(rights, kept):
            proved = proved_attempts(output, function)
            nameless = nameless_of[function.body.name]
            for goal, right_goal in nameless.pairs():
                # Without a written answer, a page that names no tactic means the plain rules.
                is_written = goal in nameless.written or right_goal in nameless.written
                for attempt in [it for it in proved if it.goal == right_goal]:
                    is_plain = attempt.tactic == "rules" and not is_written
                    nameless.proofs.append(Proof(goal, right_goal, None if is_plain else attempt.tactic))

    def try_written(self, kept):
        """Tries in the right bodies the first two written answers that are refused in the wrong ones, each separately."""
        nameless_of = {}
        rights = []
        for nameless in self.bodies:
            goals = [goal for goal in nameless.refused if goal in nameless.written][:2]
            for number, goal in enumerate(goals):
                right = nameless.right_body(None)
                rights.append(replace(right, name=f"{right.name}_{number}", goal=goal, right_goal=goal))
                nameless_of[rights[-1].name] = nameless
        for output, function in self.checked(rights, kept):
            if output.is_proved(function):
                goal = function.body.goal
                nameless_of[function.body.name].proofs.append(Proof(goal, goal, None))

    def find_proofs(self):
        """Looks for proofs of the right bodies at goals that correspond to those of the wrong ones."""
        with tempfile.TemporaryDirectory(prefix="wrong-bodies-kept-") as kept:
            self.look(kept)
            self.try_right(kept, self.bodies, ["rules", "grind"])
            self.try_right(kept, [it for it in self.bodies if not it.proofs], [*TACTICS][2:])
            self.try_written(kept)

    def write_or_drop(self, nameless, outcome):
        """Writes the goal of a body on its page if the body is refused at it and takes no longer; otherwise drops the goal,
        so that the next is tried. Returns whether it is written."""
        body = outcome.function.body
        took = f"{outcome.seconds:.1f} seconds, not {nameless.seconds:.1f}"
        if outcome.reason and outcome.seconds <= nameless.seconds * 1.2 + 2:
            self.bodies.remove(nameless)
            self.report(body, f"{write_goal(self.crate, body)}: {took}: {outcome.reason[:140]}")
            return True
        nameless.proofs.remove(Proof(body.goal, body.right_goal, body.tactic))
        why = took if outcome.reason else "it isn't refused there"
        self.report(body, f"not at {body.goal}, {body.right_goal}, {body.tactic}: {why}")
        return False

    def name_goals(self):
        """Writes on the pages the goals that it finds. Returns their number."""
        count = 0
        self.find_proofs()
        while any(it.proofs for it in self.bodies):
            named = {it.body.name: it for it in self.bodies if it.proofs}
            bodies = [it.named() for it in named.values()]
            for outcome in tried(Selection(self.crate, bodies), self.keeps_answers):
                count += self.write_or_drop(named[outcome.function.body.name], outcome)
        for nameless in self.bodies:
            self.report(nameless.body, f"no goal: {nameless.pairs()}, {nameless.seconds:.1f} seconds, of {nameless.right}")
        return count
