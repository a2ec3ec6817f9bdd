"""Written answers to the goals of a proof, and the tactics of the pages."""
import re
from dataclasses import dataclass
from typing import NamedTuple

from .functions import paths_after
from .pages import Attempt

STD = "Rattle.std.proofs"


@dataclass(frozen=True)
class Tactic:
    """A call of a tactic, and the names of `std`'s proofs that it uses. `{own}` in the call is replaced by the names that
    the function's own attribute lists."""

    call: str
    names: tuple

    def used(self, own):
        """Returns the paths that it uses, with those that the function's own attribute lists."""
        paths = [f"{STD}.{name}" for name in self.names]
        return paths + own if "{own}" in self.call else paths

    def call_with(self, own):
        """Returns the call with the names that the function's own attribute lists."""
        return self.call.format(own=", ".join(last_name(path) for path in own))


COMMON_STEPS = "lemmas.Grind.common_steps"
# The answers for a goal that the function's proof leaves to the tactics, in the order in which `rattle` tries them, by the
# words of the pages.
TACTICS = {
    "rules": Tactic("search rules", ("Common.rules",)),
    "grind": Tactic("grind (arith, {own})", ("Common.arith",)),
    "elements": Tactic("grind (arith, elements)", ("Common.arith", "lemmas.Grind.elements")),
    "moves": Tactic("grind (arith, moves)", ("Common.arith", "lemmas.Grind.moves")),
    "tests": Tactic("search (rules, tests, common_steps)", ("Common.rules", "Common.tests", COMMON_STEPS)),
    "pieces": Tactic("search (pieces, arith)", ("Common.arith", "lemmas.Grind.pieces")),
    "widths": Tactic("grind (arith, common_steps, widths)", ("Common.arith", COMMON_STEPS, "lemmas.Grind.widths")),
}
# The proof of a function that is assumed to be proved.
HOLE = "use Rattle.{module}.Statement.{{statement}}\n\npub {name}_spec : {{M : Type 1}} → statement M\n{name}_spec = ?\n"
# A lemma that isn't proved. Because of it `rattle` offers no answers, which it would have `antt` print in a separate run.
UNOFFERED = "\nunoffered : Type 0\nunoffered = nothing_is\n"


class NamedAttempt(NamedTuple):
    """An attempt, and the name of its answer."""

    name: str
    attempt: Attempt

    def is_goals_own(self):
        """Returns whether the answer has the goal's own name, so that it is the goal's answer."""
        return self.name == self.attempt.goal


def last_name(path):
    """Returns the last name of a path."""
    return path.rpartition(".")[2]


def named_attempts(body):
    """Returns the attempts at the goals of a body, each with the name of its answer."""
    if body.attempts is None:
        return [NamedAttempt(body.goal, Attempt(body.goal, body.tactic or "rules"))] if body.goal else []
    goals = set()
    found = []
    for attempt in body.attempts:
        name = f"by_{attempt.tactic}-{attempt.goal}" if attempt.goal in goals else attempt.goal
        goals.add(attempt.goal)
        found.append(NamedAttempt(name, attempt))
    return found


def listed_paths(word, attribute, crate):
    """Returns the full paths that a function's own `tactic` attribute lists after a word, in the crate of this name."""
    paths = [re.sub(r"^crate\b", crate, path) for path in paths_after(word, attribute)]
    return [f"Rattle.{path.replace('::', '.')}" for path in paths]


def use_line(path):
    """Returns the line that brings a name into scope."""
    module, _, name = path.rpartition(".")
    return f"use {module}.{{{name}}}\n"


def answers_text(body, attribute, crate, module):
    """Returns the text of a body's answers for the proof in a module of a crate. They open and use what the function's own
    attribute opens and uses."""
    opened = listed_paths("unfolding", attribute, crate)
    own = listed_paths("using", attribute, crate) or [f"{STD}.{COMMON_STEPS}"]
    unfolding = f"unfolding {' '.join(last_name(path) for path in opened)}\n" if opened else ""
    used = [*opened]
    answers = []
    for named in named_attempts(body):
        tactic = TACTICS[named.attempt.tactic]
        used += tactic.used(own)
        head = f"pub {named.name}" if named.is_goals_own() else named.name
        answers.append(f"{head} : goal.{named.attempt.goal}\n{unfolding}{named.name} = {tactic.call_with(own)}\n")
    uses = [*dict.fromkeys(use_line(path) for path in used), f"use Rattle.{module}.Goals as goal\n"]
    return "\n".join(["".join(uses), *answers])


def parts_of(text):
    """Returns the parts of a file of answers, and those that answer a goal, by the goal."""
    parts = re.split(r"\n\s*\n", text.strip())
    answers = {}
    for part in parts:
        found = re.search(r"^pub (\S+) : goal\.", part, re.M)
        if found:
            answers[found[1]] = part
    return parts, answers


def only_answer_to(goal, text):
    """Returns a file of answers without the answers to other goals, which keeps the names that the goal's answer cites."""
    parts, answers = parts_of(text)
    kept = [part for part in parts if part not in answers.values() or part == answers[goal]]
    return "\n\n".join(kept) + "\n"
