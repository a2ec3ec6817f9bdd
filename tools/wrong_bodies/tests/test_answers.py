"""Tests of answers.py."""
import unittest
from dataclasses import replace

from support import golden
from wrong_bodies import answers
from wrong_bodies.pages import Attempt, WrongBody

BODY = WrongBody("one", "ring::first", ())


class Attempts(unittest.TestCase):
    """The answers by which a body is tried."""

    def names(self, body):
        """Returns the attempts of a body: the names of their answers, the goals and the tactics."""
        return [(it.name, it.attempt.goal, it.attempt.tactic) for it in answers.named_attempts(body)]

    def test_no_goal(self):
        self.assertEqual(self.names(BODY), [])

    def test_goal(self):
        self.assertEqual(self.names(replace(BODY, goal="returns")), [("returns", "returns", "rules")])

    def test_goal_by_a_tactic(self):
        self.assertEqual(self.names(replace(BODY, goal="returns", tactic="moves")), [("returns", "returns", "moves")])

    def test_several_tactics_of_a_goal(self):
        body = replace(BODY, attempts=(Attempt("a", "rules"), Attempt("b", "grind"), Attempt("a", "moves")))
        self.assertEqual(self.names(body), [("a", "a", "rules"), ("b", "b", "grind"), ("by_moves-a", "a", "moves")])

    def test_attempts_before_the_goal_of_the_page(self):
        self.assertEqual(self.names(replace(BODY, goal="returns", attempts=())), [])


class Text(unittest.TestCase):
    """The text of answers."""

    def text(self, tactic, attribute=""):
        """Returns the answer to `returns` by a tactic, with a `tactic` attribute of the function."""
        return answers.answers_text(replace(BODY, goal="returns", tactic=tactic), attribute, "ring", "ring.proofs.ring.first")

    def test_every_tactic(self):
        calls = {
            "rules": "search rules",
            "grind": "grind (arith, common_steps)",
            "elements": "grind (arith, elements)",
            "moves": "grind (arith, moves)",
            "tests": "search (rules, tests, common_steps)",
            "pieces": "search (pieces, arith)",
            "widths": "grind (arith, common_steps, widths)",
        }
        self.assertEqual([*answers.TACTICS], [*calls])
        for tactic, call in calls.items():
            *uses, _, last = self.text(tactic).rstrip("\n").rsplit("\n", 2)
            self.assertEqual(last, f"returns = {call}")
            for name in call.partition(" ")[2].strip("()").split(", "):
                self.assertRegex(uses[0], rf"(?m)^use Rattle\.std\.proofs\.\S+\.\{{{name}\}}$")

    def test_text(self):
        expected = "use Rattle.std.proofs.Common.{arith}\nuse Rattle.std.proofs.lemmas.Grind.{common_steps}\n"
        expected += "use Rattle.ring.proofs.ring.first.Goals as goal\n\n"
        expected += "pub returns : goal.returns\nreturns = grind (arith, common_steps)\n"
        self.assertEqual(self.text("grind"), expected)

    def test_attribute_is_taken_over(self):
        text = self.text("grind", "auto, using(crate::proofs::A::law, std::proofs::B::other), unfolding(crate::specs::A::f)")
        self.assertTrue(text.startswith("use Rattle.ring.specs.A.{f}\nuse Rattle.std.proofs.Common.{arith}\n"))
        self.assertIn("use Rattle.ring.proofs.A.{law}\nuse Rattle.std.proofs.B.{other}\n", text)
        self.assertTrue(text.endswith("pub returns : goal.returns\nunfolding f\nreturns = grind (arith, law, other)\n"))

    def test_other_tactics_use_no_listed_names(self):
        self.assertNotIn("law", self.text("rules", "auto, using(crate::proofs::A::law)"))


class Written(unittest.TestCase):
    """Written answers."""

    def test_parts(self):
        parts, found = answers.parts_of(golden("counted_answers.txt"))
        self.assertEqual(len(parts), 4)
        self.assertEqual([*found], ["returns", "returns-clause-sum"])
        self.assertTrue(found["returns-clause-sum"].endswith("    at"))

    def test_no_answers(self):
        self.assertEqual(answers.parts_of(""), ([""], {}))

    def test_only_one_answer(self):
        text = answers.only_answer_to("returns", golden("counted_answers.txt"))
        self.assertIn("pub returns : goal.returns\n", text)
        self.assertIn("same n = omega (arith)\n", text)
        self.assertNotIn("clause-sum", text)


if __name__ == "__main__":
    unittest.main()
