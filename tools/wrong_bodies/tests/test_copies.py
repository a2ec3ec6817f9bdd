"""Tests of copies.py: the second copies of functions are compared with golden/second_*.txt."""
import unittest
from dataclasses import replace

from support import golden
from wrong_bodies.copies import Edit, changes_function_alone, spoilt, with_edits
from wrong_bodies.pages import Difference, PageError, WrongBody, bodies_on

TEXTS = {"src/ring.rt": golden("ring.txt"), "src/other.rt": "pub const LIMIT: u8 = 4;\n"}
BODIES = {body.name: body for body in bodies_on("copied", golden("copied.txt"))}


def spoilt_function(name):
    """Returns the function that a body of golden/copied.txt changes."""
    return spoilt(BODIES[name], TEXTS.__getitem__)


class SecondCopy(unittest.TestCase):
    """Second copies, each exactly as written."""

    def assert_golden(self, name):
        function = spoilt_function(name)
        (edit,) = function.edits
        self.assertTrue(function.is_second())
        self.assertEqual((edit.file, edit.old), ("src/ring.rt", ""))
        self.assertEqual(f"==== {function.path}\n{edit.new}", golden(f"second_{name}.txt"))
        return function

    def test_goals_are_searched(self):
        self.assertEqual(self.assert_golden("counts_one_too_many").attribute, "")

    def test_goal_takes_over_the_attribute(self):
        for name in ("sums_one_too_many", "counts_none"):
            attribute = self.assert_golden(name).attribute
            self.assertIn("using(crate::proofs::Rings::counted, std::proofs::Lists::longer)", attribute)

    def test_other_attributes_stay(self):
        self.assertEqual(self.assert_golden("always_pushed").attribute, "")

    def test_several_differences_in_any_order(self):
        self.assert_golden("nothing_pushed")

    def test_function_of_a_module(self):
        self.assert_golden("first_is_the_opening")

    def test_inner_function_keeps_its_name(self):
        text = "fn outer() -> u8 {\n    fn inner() -> u8 {\n        1\n    }\n    inner()\n}\n"
        body = WrongBody("two", "outer", (Difference("src/lib.rt", "        1", "        2"),))
        (edit,) = spoilt(body, {"src/lib.rt": text}.__getitem__).edits
        self.assertEqual(edit.new, text.replace("outer", "outer_two").replace("        1", "        2"))

    def test_place_is_behind_the_function(self):
        (edit,) = spoilt_function("first_is_the_opening").edits
        before = TEXTS["src/ring.rt"][: edit.at]
        self.assertTrue(before.endswith("        _ => None,\n    }\n}\n"))


class InPlace(unittest.TestCase):
    """Functions that are changed where they are."""

    def test_method_of_a_trait(self):
        function = spoilt_function("total_of_one")
        at = TEXTS["src/ring.rt"].index("        self.count()")
        self.assertFalse(function.is_second())
        self.assertEqual(function.path, "ring::Ring::total")
        self.assertEqual(function.edits, (Edit("src/ring.rt", at, "        self.count()", "        1"),))

    def test_method_of_a_trait_with_a_goal(self):
        function = spoilt_function("total_of_none")
        text = with_edits(TEXTS["src/ring.rt"], function.edits)
        self.assertFalse(function.is_second())
        self.assertIn("Counted for Ring<T> {\n#[tactic(none)]\n    fn total(&self) -> usize {\n        0\n    }\n}\n", text)

    def test_constant(self):
        function = spoilt_function("another_opening")
        text = TEXTS["src/ring.rt"].replace("OPENING: u8 = b'{'", "OPENING: u8 = b'['")
        self.assertFalse(function.is_second())
        self.assertEqual(with_edits(TEXTS["src/ring.rt"], function.edits), text)

    def test_more_than_the_function(self):
        self.assertFalse(changes_function_alone(BODIES["another_opening"], TEXTS.__getitem__))
        self.assertTrue(changes_function_alone(BODIES["nothing_pushed"], TEXTS.__getitem__))

    def test_another_file(self):
        body = BODIES["first_is_the_opening"]
        other = Difference("src/other.rt", "LIMIT: u8 = 4", "LIMIT: u8 = 5")
        body = replace(body, goal=None, differences=(*body.differences, other))
        function = spoilt(body, TEXTS.__getitem__)
        self.assertFalse(function.is_second())
        self.assertEqual([edit.file for edit in function.edits], ["src/ring.rt", "src/other.rt"])


class Refused(unittest.TestCase):
    """Bodies that can't be applied, each with its message."""

    def assert_refused(self, body, message):
        with self.assertRaises(PageError) as caught:
            spoilt(body, TEXTS.__getitem__)
        self.assertEqual(str(caught.exception), message)

    def test_old_text_that_is_missing(self):
        body = WrongBody("none", "ring::first", (Difference("src/ring.rt", "Some(second)", ""),))
        self.assert_refused(body, "none: an old text doesn't stand once in src/ring.rt")

    def test_old_text_that_occurs_twice(self):
        body = WrongBody("twice", "ring::Ring::count", (Difference("src/ring.rt", "octets.len()", "0"),))
        self.assert_refused(body, "twice: an old text doesn't stand once in src/ring.rt")

    def test_goal_of_a_body_that_changes_more_than_its_function(self):
        body = replace(BODIES["another_opening"], goal="returns")
        self.assert_refused(body, "another_opening: what turns more than its function can name no goal")

    def test_goal_of_a_function_that_is_elsewhere(self):
        body = replace(BODIES["first_is_the_opening"], function="ring::second")
        self.assert_refused(body, "first_is_the_opening: what turns more than its function can name no goal")


class Edits(unittest.TestCase):
    """Edits of a text."""

    def test_places_are_those_before_all_edits(self):
        edits = [Edit("f", 2, "c", "CCC"), Edit("f", 0, "a", ""), Edit("f", 4, "", "-")]
        self.assertEqual(with_edits("abcd", edits), "bCCCd-")

    def test_text_that_begins_later_in_its_file(self):
        self.assertEqual(with_edits("abcd", [Edit("f", 11, "b", "B")], offset=10), "aBcd")

    def test_edits_meet_if_they_replace_a_common_part(self):
        edit = Edit("f", 10, "four", "")
        self.assertTrue(edit.meets(Edit("f", 13, "x", "")))
        self.assertFalse(edit.meets(Edit("f", 14, "x", "")))
        self.assertFalse(edit.meets(Edit("f", 9, "x", "")))
        self.assertFalse(edit.meets(Edit("g", 10, "four", "")))


if __name__ == "__main__":
    unittest.main()
