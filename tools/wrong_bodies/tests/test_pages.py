"""Tests of pages.py."""
import tempfile
import unittest
from dataclasses import replace
from pathlib import Path

from support import golden
from wrong_bodies.crates import Crate
from wrong_bodies.answers import TACTICS
from wrong_bodies.pages import TACTIC_WORDS, Difference, PageError, bodies_of, bodies_on, reference_to, write_goal

ONE = "## one\n\nRefused: `ring::first`\n\n```diff src/ring.rt\n-old\n+new\n```\n"


class Reading(unittest.TestCase):
    """A page in all its forms."""

    def setUp(self):
        self.bodies = {body.name: body for body in bodies_on("ring/must-fail/ring.md", golden("page.txt"))}

    def goals(self, name):
        """Returns the goals and the tactic of a body."""
        body = self.bodies[name]
        return body.goal, body.right_goal, body.tactic

    def test_bodies_are_in_the_order_of_the_page(self):
        names = ["counts_one_too_many", "first_is_the_opening", "always_pushed", "nothing_pushed", "another_opening"]
        self.assertEqual([*self.bodies], names)

    def test_no_goal(self):
        self.assertEqual(self.goals("counts_one_too_many"), (None, None, None))
        self.assertFalse(self.bodies["counts_one_too_many"].names_goals())
        self.assertEqual(self.bodies["counts_one_too_many"].function, "ring::Ring::count")

    def test_goal(self):
        self.assertEqual(self.goals("first_is_the_opening"), ("returns-in-first", "returns-in-first", None))
        self.assertTrue(self.bodies["first_is_the_opening"].names_goals())

    def test_goal_by_a_tactic(self):
        self.assertEqual(self.goals("always_pushed"), ("returns-clause-last", "returns-clause-last", "grind"))

    def test_goal_with_another_name_in_the_right_body(self):
        self.assertEqual(self.goals("nothing_pushed"), ("returns-not-braces", "returns", None))

    def test_all_three(self):
        self.assertEqual(self.goals("another_opening"), ("returns-eq91", "returns-eq123", "widths"))

    def test_several_lines_are_one_text(self):
        old = "        [first, ..] if *first != OPENING => Some(*first),\n        _ => None,"
        new = "        [first, ..] => Some(*first),\n\n        _ => None,"
        self.assertEqual(self.bodies["first_is_the_opening"].differences, (Difference("src/ring.rt", old, new),))

    def test_several_differences_of_a_block(self):
        self.assertEqual(
            self.bodies["nothing_pushed"].differences,
            (
                Difference("src/ring.rt", "        if braces!(octet) {", "        if !braces!(octet) {"),
                Difference("src/ring.rt", "        self.octets.push(octet);", "        self.octets.clear();"),
            ),
        )

    def test_several_blocks(self):
        files = [difference.file for difference in self.bodies["another_opening"].differences]
        self.assertEqual(files, ["src/ring.rt", "src/other/mod.rt"])
        # A '-' and a '+' of the text itself aren't marks.
        self.assertEqual(self.bodies["another_opening"].differences[1], Difference("src/other/mod.rt", "    - 1", "    + 1"))

    def test_a_changed_constant_is_tried_alone(self):
        alone = [name for name, body in self.bodies.items() if body.is_tried_alone()]
        self.assertEqual(alone, ["another_opening"])

    def test_right_body(self):
        right = self.bodies["nothing_pushed"].right_body()
        self.assertEqual(right.goal, "returns")
        self.assertFalse(right.changes_text())
        self.assertTrue(self.bodies["nothing_pushed"].changes_text())


class Malformed(unittest.TestCase):
    """Pages that are refused, each with its message."""

    def assert_refused(self, text, message):
        with self.assertRaises(PageError) as caught:
            bodies_on("ring/must-fail/ring.md", f"# Wrong bodies of src/ring.rt\n\n{text}")
        self.assertEqual(str(caught.exception), message)

    def assert_no_whole_body(self, text):
        self.assertNotEqual(text, ONE)
        self.assert_refused(text, "ring/must-fail/ring.md: a heading has no whole body under it")

    def test_whole_body(self):
        self.assertEqual(len(bodies_on("ring", f"\n{ONE}")), 1)

    def test_heading_without_a_body(self):
        self.assert_no_whole_body("## one\n")

    def test_heading_of_two_words(self):
        self.assert_no_whole_body(ONE.replace("one", "one two"))

    def test_unknown_tactic(self):
        text = ONE.replace("`ring::first`", "`ring::first`, at `returns`, by `magic`")
        self.assert_refused(text, "ring/must-fail/ring.md: one: no tactic has the word 'magic'")

    def test_words_of_tactics(self):
        self.assertEqual(TACTIC_WORDS, tuple(TACTICS))

    def test_no_function(self):
        self.assert_no_whole_body(ONE.replace("Refused: `ring::first`\n\n", ""))

    def test_no_differences(self):
        self.assert_no_whole_body("## one\n\nRefused: `ring::first`\n\n")

    def test_differences_without_a_file(self):
        self.assert_no_whole_body(ONE.replace("diff src/ring.rt", "diff"))

    def test_open_block(self):
        self.assert_no_whole_body(ONE.removesuffix("```\n"))

    def test_goal_that_is_not_in_code(self):
        self.assert_no_whole_body(ONE.replace("first`", "first`, at returns"))

    def test_tactic_without_a_goal(self):
        self.assert_no_whole_body(ONE.replace("first`", "first`, by `grind`"))

    def test_tactic_before_the_right_goal(self):
        self.assert_no_whole_body(ONE.replace("first`", "first`, at `a`, by `grind`, unturned `b`"))

    def assert_no_part(self, text):
        self.assertNotEqual(text, ONE)
        self.assert_refused(text, "one: a line of its differences is no part of a '-' text and the '+' text after it")

    def test_text_without_a_replacement(self):
        self.assert_no_part(ONE.replace("+new\n", ""))

    def test_replacement_without_a_text(self):
        self.assert_no_part(ONE.replace("-old\n", ""))

    def test_replacement_before_its_text(self):
        self.assert_no_part(ONE.replace("-old\n+new\n", "+new\n-old\n"))

    def test_line_without_a_mark(self):
        self.assert_no_part(ONE.replace("+new\n", "+new\n same\n"))

    def test_empty_block(self):
        self.assert_no_part(ONE.replace("-old\n+new\n", "\n"))


class Folder(unittest.TestCase):
    """The pages of a crate."""

    def setUp(self):
        room = tempfile.TemporaryDirectory()
        self.addCleanup(room.cleanup)
        self.crate = Crate("ring", room.name)
        self.folder = Path(room.name) / "must-fail"

    def write(self, name, text):
        self.folder.mkdir(exist_ok=True)
        (self.folder / name).write_text(f"# Page\n\n{text}", encoding="utf-8")

    def test_crate_without_pages(self):
        self.assertEqual(bodies_of(self.crate), [])

    def test_pages_in_the_order_of_their_names(self):
        self.write("b.md", ONE)
        self.write("a.md", ONE.replace("one", "two"))
        self.write("notes.txt", "## no page\n")
        self.assertEqual([body.name for body in bodies_of(self.crate)], ["two", "one"])

    def test_one_name_for_two_bodies(self):
        self.write("a.md", ONE)
        self.write("b.md", ONE)
        with self.assertRaisesRegex(PageError, "^ring: two wrong bodies have one name$"):
            bodies_of(self.crate)

    def test_message_names_the_page(self):
        self.write("a.md", ONE)
        self.write("b.md", "## two\n")
        with self.assertRaisesRegex(PageError, "^ring/must-fail/b.md: a heading has no whole body under it$"):
            bodies_of(self.crate)

    def test_goal_is_written(self):
        self.write("a.md", ONE + "\n" + ONE.replace("one", "two"))
        body = replace(bodies_of(self.crate)[1], goal="returns-up", right_goal="returns", tactic="moves")
        line = "Refused: `ring::first`, at `returns-up`, unturned `returns`, by `moves`"
        self.assertEqual(write_goal(self.crate, body), line)
        self.assertEqual((self.folder / "a.md").read_text(encoding="utf-8").count(line), 1)
        first, second = bodies_of(self.crate)
        self.assertIsNone(first.goal)
        self.assertEqual(second, body)

    def test_forms_of_the_line(self):
        for body in bodies_on("ring", golden("page.txt")):
            self.assertIn(f"## {body.name}\n\n{reference_to(body)}\n", golden("page.txt"))


if __name__ == "__main__":
    unittest.main()
