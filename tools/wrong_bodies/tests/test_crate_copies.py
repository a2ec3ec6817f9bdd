"""Tests of crate_copies.py: what a copy has is compared with golden files."""
import tempfile
import unittest
from dataclasses import replace
from pathlib import Path
from unittest import mock

from support import golden, ring_crate, tree_text
from wrong_bodies import crate_copies
from wrong_bodies.crate_copies import CrateCopy
from wrong_bodies.pages import Attempt, Difference, PageError, bodies_on

BODIES = {body.name: body for body in bodies_on("copied", golden("copied.txt"))}


class CopyTest(unittest.TestCase):
    """A test of copies of the crate `ring`."""

    def setUp(self):
        self.crate = ring_crate(self)

    def copy_with(self, *bodies, keeps_answers=True):
        """Returns a copy with these bodies."""
        copy = CrateCopy(self.crate, keeps_answers)
        for body in bodies:
            self.assertTrue(copy.add(body), body.name)
        return copy

    def written(self, copy, part="."):
        """Returns a folder of a copy as one text."""
        with tempfile.TemporaryDirectory() as room:
            copy.write(room)
            return tree_text(Path(room) / part)


class Written(CopyTest):
    """The files of a copy."""

    def assert_proof(self, name, body, part="count", keeps_answers=True):
        copy = self.copy_with(body, keeps_answers=keeps_answers)
        folder = f"proofs/ring/Ring/{part}_{body.name}" if copy.functions[0].is_second() else f"proofs/ring/Ring/{part}"
        self.assertEqual(self.written(copy, folder), golden(name))

    def test_whole_copy_of_three_bodies(self):
        copy = self.copy_with(BODIES["counts_one_too_many"], BODIES["always_pushed"], BODIES["total_of_none"])
        self.assertEqual(self.written(copy), golden("copy_of_three.txt"))

    def test_crate_itself_stays(self):
        before = tree_text(self.crate.folder)
        self.written(self.copy_with(BODIES["counts_one_too_many"]))
        self.assertEqual(tree_text(self.crate.folder), before)

    def test_written_answer_of_the_goal_alone(self):
        self.assert_proof("proof_with_written_answer.txt", BODIES["sums_one_too_many"])

    def test_tactic_in_place_of_a_written_answer(self):
        self.assert_proof("proof_by_tactic.txt", BODIES["counts_none"])

    def test_without_written_answers(self):
        self.assert_proof("proof_by_search.txt", BODIES["counts_one_too_many"], keeps_answers=False)

    def test_several_attempts(self):
        attempts = (Attempt("returns", "rules"), Attempt("returns", "grind"), Attempt("returns-up", "moves"))
        self.assert_proof("proof_by_several.txt", replace(BODIES["counts_one_too_many"], attempts=attempts))

    def test_no_attempt(self):
        self.assert_proof("proof_unsearched.txt", replace(BODIES["counts_one_too_many"], attempts=()))

    def test_function_without_a_proof(self):
        self.assert_proof("proof_without_answers.txt", BODIES["nothing_pushed"], part="pushed")

    def test_function_in_place(self):
        self.assert_proof("proof_in_place.txt", BODIES["total_of_one"], part="total")

    def test_function_in_place_without_written_answers(self):
        folder = self.crate.folder / "proofs/ring/Ring/total"
        folder.mkdir()
        (folder / "Answers.antt").write_text(golden("counted_answers.txt"), encoding="utf-8")
        kept = self.copy_with(BODIES["total_of_one"].unchanged())
        self.assertEqual(self.written(kept, "proofs/ring/Ring/total"), "==== Answers.antt\n" + golden("counted_answers.txt"))
        removed = self.copy_with(BODIES["total_of_one"].unchanged(), keeps_answers=False)
        self.assertEqual(self.written(removed, "proofs/ring/Ring/total"), "")

    def test_right_body_has_no_unproved_lemma(self):
        copy = self.copy_with(BODIES["nothing_pushed"].unchanged())
        self.assertNotIn("unoffered", self.written(copy))

    def test_function_with_the_proof_of_a_closure_keeps_its_statements(self):
        proof = self.crate.folder / "proofs/ring/fn/first/closure/Answers.antt"
        proof.parent.mkdir(parents=True)
        proof.write_text("pub octets : Type 0\n", encoding="utf-8")
        text = self.written(self.copy_with(BODIES["always_pushed"]), "src")
        self.assertIn("=> Some(*first)", text)


    def test_file_that_is_not_there(self):
        body = replace(BODIES["counts_none"], differences=(Difference("src/none.rt", "a", "b"),))
        with self.assertRaisesRegex(PageError, "^ring has no file src/none.rt$"):
            CrateCopy(self.crate).add(body)


class Sharing(CopyTest):
    """Bodies that share a copy, and bodies that don't."""

    def test_several_bodies_of_one_function(self):
        self.copy_with(BODIES["counts_one_too_many"], BODIES["sums_one_too_many"], BODIES["counts_none"])

    def test_a_function_is_changed_in_place_once(self):
        copy = self.copy_with(BODIES["total_of_one"])
        self.assertFalse(copy.add(BODIES["total_of_none"]))
        self.assertEqual([function.body.name for function in copy.functions], ["total_of_one"])

    def test_changes_in_place_of_separate_texts(self):
        comment = (Difference("src/ring.rt", "/// Octets in the order of their arrival.", "/// Octets."),)
        other = replace(BODIES["total_of_one"], name="other", function="ring::first", differences=comment)
        self.copy_with(BODIES["total_of_one"], other)

    def test_a_text_is_replaced_once(self):
        copy = self.copy_with(BODIES["total_of_one"])
        other = replace(BODIES["total_of_one"], name="other", function="ring::Ring::other")
        self.assertFalse(copy.add(other))

    def test_a_constant_is_tried_alone(self):
        self.assertFalse(self.copy_with(BODIES["another_opening"]).add(BODIES["always_pushed"]))
        self.assertFalse(self.copy_with(BODIES["always_pushed"]).add(BODIES["another_opening"]))

    def test_a_copy_is_full(self):
        bodies = [replace(BODIES["always_pushed"], name=f"always_pushed_{number}") for number in range(4)]
        with mock.patch.object(crate_copies, "MOST_BODIES", 3):
            copy = self.copy_with(*bodies[:3])
            self.assertFalse(copy.add(bodies[3]))


if __name__ == "__main__":
    unittest.main()
