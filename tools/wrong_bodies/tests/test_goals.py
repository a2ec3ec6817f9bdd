"""Tests of goals.py, with a prover whose output is given."""
import contextlib
import io
import unittest
from unittest import mock

from support import golden, ring_crate
from wrong_bodies import goals, scheduling
from wrong_bodies.checks import Output
from wrong_bodies.copies import SpoiltFunction
from wrong_bodies.goals import NamelessBody, Proof
from wrong_bodies.pages import Attempt, bodies_of, bodies_on
from wrong_bodies.scheduling import Selection

BODIES = {body.name: body for body in bodies_on("copied", golden("copied.txt"))}


class Counterparts(unittest.TestCase):
    """Goals of the right body that may correspond to those of the wrong one."""

    def nameless(self, **fields):
        return NamelessBody(BODIES["nothing_pushed"], **fields)

    def test_the_same_goal(self):
        self.assertEqual(self.nameless(right=["returns-a", "returns-b"]).counterparts("returns-b"), ["returns-b"])

    def test_goals_of_the_same_clause(self):
        right = ["returns-x-clause-sum", "returns-x-clause-len", "push-x-clause-sum"]
        self.assertEqual(self.nameless(right=right).counterparts("returns-y-clause-sum"), ["returns-x-clause-sum"])

    def test_first_those_of_the_right_body_alone(self):
        nameless = self.nameless(right=["returns-if", "returns-in-a", "returns-in-b"], wrong=["returns-if", "returns-in-c"])
        self.assertEqual(nameless.counterparts("returns-in-c"), ["returns-in-a", "returns-in-b"])

    def test_goals_of_clauses_first(self):
        right = ["a", "b-clause-x", "c-clause-y"]
        nameless = self.nameless(refused=["a", "b-clause-x", "c-clause-y"], right=right)
        self.assertEqual(nameless.pairs(), [("b-clause-x", "b-clause-x"), ("c-clause-y", "c-clause-y")])

    def test_named_by_the_first_proof(self):
        refused = ["a", "b-clause-x", "c-clause-y"]
        proofs = [Proof("a", "a", None), Proof("b-clause-x", "d", "rules"), Proof("b-clause-x", "b-clause-x", "grind")]
        body = self.nameless(refused=refused, proofs=proofs).named()
        self.assertEqual((body.goal, body.right_goal, body.tactic), ("b-clause-x", "b-clause-x", "grind"))


class Refused(unittest.TestCase):
    """Goals and attempts, as a check's output has them."""

    def test_goals_with_refused_answers_and_those_that_cite_them(self):
        crate = ring_crate(self)
        function = SpoiltFunction(BODIES["counts_one_too_many"], (), "ring::Ring::count_counts_one_too_many")
        folder = "./proofs/ring/Ring/count_counts_one_too_many"
        output = Output("ring", f"{folder}/Answers.antt:5:3: error: `same`: no proof\n")
        self.assertEqual(goals.refused_goals(crate, output, function), ["returns", "returns-clause-sum"])
        output = Output("ring", f"{folder}/Answers.antt:9:3: error: `returns`: no proof\n")
        self.assertEqual(goals.refused_goals(crate, output, function), ["returns"])

    def test_attempts_without_an_error(self):
        body = NamelessBody(BODIES["nothing_pushed"]).right_body((Attempt("a", "rules"), Attempt("a", "grind")))
        function = SpoiltFunction(body, (), "f_x")
        line = "fn ring::f_x: no holes\n"
        self.assertEqual(goals.proved_attempts(Output("ring", line), function), [*body.attempts])
        error = "./proofs/f_x/Answers.antt:1:1: error: `a`: no\n"
        self.assertEqual(goals.proved_attempts(Output("ring", error + line), function), [Attempt("a", "grind")])
        other = "./proofs/f_x/Answers.antt:1:1: error: `other` is not in scope\n"
        self.assertEqual(goals.proved_attempts(Output("ring", other + line), function), [])
        self.assertEqual(goals.proved_attempts(Output("ring", ""), function), [])


class Search(unittest.TestCase):
    """The whole search in the crate `ring`."""

    def check(self, copy, _kept):
        """Leaves `returns-empty` open in wrong bodies, and `returns` in right ones, which `grind` proves."""
        text = ""
        for function in copy.functions:
            goal = "returns-empty" if function.body.changes_text() else "returns"
            if function.body.attempts:
                folder = f"./proofs/{function.path.replace('::', '/')}"
                text += f"{folder}/Answers.antt:1:1: error: `returns`: no\nfn ring::{function.path}: not proved\n"
            elif function.body.goal:
                text += f"./proofs/{function.path.replace('::', '/')}/Answers.antt:1:1: error: `{goal}`: no\n"
                text += f"fn ring::{function.path}: not proved\n"
            else:
                text += f"fn ring::{function.path}: not proved: `search` did not prove `{goal}`; see above\n"
        return Output("ring", text, seconds={function.path: 1.0 for function in copy.functions})

    def test_goal_is_found_and_written(self):
        crate = ring_crate(self)
        page = crate.folder / "must-fail" / "ring.md"
        page.parent.mkdir()
        page.write_text(golden("copied.txt"), encoding="utf-8")
        bodies = [body for body in bodies_of(crate) if body.name in ("nothing_pushed", "another_opening", "counts_none")]
        printed = io.StringIO()
        with contextlib.ExitStack() as changes:
            changes.enter_context(mock.patch.object(goals, "check", self.check))
            changes.enter_context(mock.patch.object(scheduling, "check", self.check))
            changes.enter_context(contextlib.redirect_stdout(printed))
            count = goals.GoalSearch(Selection(crate, bodies), True).name_goals()
        line = "Refused: `ring::Ring::pushed`, at `returns-empty`, unturned `returns`, by `grind`"
        self.assertEqual(count, 1)
        self.assertEqual(
            printed.getvalue().splitlines(),
            [
                "ring/another_opening: no goal, since it turns more than its function",
                f"ring/nothing_pushed: {line}: 1.0 seconds, not 1.0: Answers.antt:1:1: error: `returns-empty`: no",
            ],
        )
        self.assertIn(f"## nothing_pushed\n\n{line}\n", page.read_text(encoding="utf-8"))


if __name__ == "__main__":
    unittest.main()
