"""Tests of checks.py: recorded outputs of the prover, whose long lines are cut."""
import os
import tempfile
import unittest
from pathlib import Path

from support import golden, ring_crate
from wrong_bodies import checks
from wrong_bodies.checks import Output
from wrong_bodies.copies import SpoiltFunction
from wrong_bodies.crate_copies import CrateCopy
from wrong_bodies.crates import crates_in
from wrong_bodies.pages import WrongBody, bodies_on


def function(path, goal=None):
    """Returns a changed function, refused at this goal."""
    return SpoiltFunction(WrongBody("one", "f", (), goal, goal), (), path)


class Refused(unittest.TestCase):
    """A check of thirteen bodies of `call_auth`, all of which are wrong."""

    def setUp(self):
        self.output = Output("call_auth", golden("output_of_call_auth.txt"))

    def refusal(self, path, goal=None):
        """Returns the reason for a function among others."""
        return self.output.refusal(function(path, goal), False)

    def test_at_the_goal_of_the_page(self):
        reason = self.refusal("challenge::Challenge::as_slice_first_octet_lost", "returns-clause-octets")
        self.assertTrue(reason.startswith("Answers.antt:5:25: error: `returns-clause-octets`: `search`: no proof of"))

    def test_reason_is_one_line(self):
        reason = self.refusal("challenge::Challenge::as_slice_first_octet_lost", "returns-clause-octets")
        self.assertNotIn("\n", reason)
        self.assertIn(" = `mathlib.Core.List.◌∷◌ 35 mathlib.Core.List.[]`, `lib.ListN.length", reason)

    def test_at_a_goal_that_is_found(self):
        for path, goal in {
            "call_token::CallTokens::of_period_token_without_the_port": "returns",
            "call_token::CallTokens::accepts_token_of_the_last_hour": "returns-then-period-gt720",
            "call_token::CallTokens::accepts_eight_digits_are_enough": "returns-then-eq",
        }.items():
            self.assertEqual(self.refusal(path), f"`search` did not prove `{goal}`")

    def test_notes_are_those_above_the_line_of_the_function(self):
        goals = self.output.unproved_goals("challenge::Challenge::as_slice_first_octet_lost")
        self.assertEqual(goals, ["as_slice-requires", "split_at-requires", "returns-clause-form"])

    def test_none_is_proved(self):
        at_a_goal = function("challenge::Challenge::as_slice_first_octet_lost", "returns-clause-octets")
        self.assertFalse(self.output.is_proved(at_a_goal))
        self.assertFalse(self.output.is_proved(function("call_token::CallTokens::of_period_token_without_the_port")))

    def test_a_removed_name_is_no_reason_among_others(self):
        self.assertIsNone(self.refusal("md5_answer::accepts_compares_eight_digits"))

    def test_a_function_that_the_check_does_not_name(self):
        self.assertIsNone(self.refusal("call_token::CallTokens::other"))
        self.assertIsNone(self.refusal("call_token::CallTokens::other", "returns"))
        self.assertEqual(self.output.unproved_goals("call_token::CallTokens::other"), [])


class RefusedAlone(unittest.TestCase):
    """A check of one body that removes a name of the written answer."""

    def setUp(self):
        self.output = Output("call_auth", golden("output_of_one_body.txt"))

    def test_a_removed_name(self):
        reason = self.output.refusal(function("md5_answer::accepts_compares_eight_digits"), True)
        said = "its proof names what the body took away, so this says less of the contract: "
        self.assertTrue(reason.startswith(f"{said}Answers.antt:5:41: error: `returns`: record"))

    def test_a_removed_name_is_no_reason_at_a_goal(self):
        self.assertIsNone(self.output.refusal(function("md5_answer::accepts_compares_eight_digits", "returns"), True))


class RefusedElsewhere(unittest.TestCase):
    """A body that is proved beside one that isn't, and functions that call unproved ones."""

    def test_errors_of_another_function(self):
        output = Output("script_lines", golden("output_of_two_bodies.txt"))
        wrong = function("line::ends_script_a_comment_ends_a_script", "returns")
        right = function("line::ends_script_same_meaning", "returns")
        self.assertIn("error: `returns`", output.refusal(wrong, False))
        self.assertIsNone(output.refusal(right, False))
        self.assertIsNone(output.refusal(right, True))
        self.assertFalse(output.is_proved(wrong))
        self.assertTrue(output.is_proved(right))

    def test_a_search_of_another_function(self):
        output = Output("script_lines", golden("output_of_a_search.txt"))
        reason = output.refusal(function("line::ends_script_a_comment_searched"), False)
        self.assertEqual(reason, "`search` did not prove `returns`")
        # The lemma that isn't proved is its only fault.
        self.assertIsNone(output.refusal(function("line::ends_script_same_searched"), False))

    def test_an_unproved_callee(self):
        text = "fn ring::one: not proved; it calls `ring::two`, which is not proved\n"
        self.assertIsNone(Output("ring", text).refusal(function("one"), True))
        self.assertIsNone(Output("ring", text).refusal(function("one", "returns"), True))

    def test_the_lemma_that_is_not_proved(self):
        text = "./proofs/one/Answers.antt:3:13: error: `unoffered`: `nothing_is` is not in scope\nfn ring::one: not proved\n"
        self.assertIsNone(Output("ring", text).refusal(function("one"), True))

    def test_a_function_whose_name_begins_alike(self):
        text = "./proofs/one_more/Answers.antt:1:1: error: `returns`: no proof\nfn ring::one_more: not proved\n"
        text += "fn ring::one: no holes\n"
        self.assertIsNone(Output("ring", text).refusal(function("one", "returns"), True))
        self.assertTrue(Output("ring", text).is_proved(function("one", "returns")))


class Proved(unittest.TestCase):
    """A check of right bodies."""

    def setUp(self):
        self.output = Output("script_lines", golden("output_of_right_bodies.txt"))

    def test_whole_function(self):
        self.assertTrue(self.output.is_proved(function("line::ends_script_a_comment_ends_a_script")))
        self.assertTrue(self.output.is_proved(function("line::said_by")))

    def test_goal_of_the_page(self):
        self.assertTrue(self.output.is_proved(function("line::line_of_ticks_at_an_empty_line", "returns-then-is_empty")))

    def test_function_with_another_open_goal(self):
        self.assertFalse(self.output.is_proved(function("line::line_of_ticks_at_an_empty_line")))

    def test_no_reason(self):
        self.assertIsNone(self.output.refusal(function("line::ends_script_a_comment_ends_a_script", "returns"), True))
        self.assertIsNone(self.output.refusal(function("line::line_of_ticks_at_an_empty_line", "returns-then-is_empty"), True))


class End(unittest.TestCase):
    """Whether a check ran to its end."""

    def test_whole_checks(self):
        for name in ("call_auth", "one_body", "right_bodies", "two_bodies", "a_search"):
            self.assertTrue(checks.ran_to_its_end(1, golden(f"output_of_{name}.txt")), name)

    def test_a_body_that_does_not_compile(self):
        text = golden("output_of_a_type_error.txt")
        self.assertFalse(checks.ran_to_its_end(1, text))
        self.assertIsNone(Output("script_lines", text).refusal(function("line::ends_script_not_a_bool", "returns"), True))

    def test_a_check_that_was_killed(self):
        whole = golden("output_of_call_auth.txt")
        self.assertFalse(checks.ran_to_its_end(-9, ""))
        self.assertFalse(checks.ran_to_its_end(-9, whole))
        self.assertFalse(checks.ran_to_its_end(1, whole[: len(whole) // 2]))
        self.assertFalse(checks.ran_to_its_end(1, whole.removesuffix("only=16 holes=3\n")))

    def test_a_check_of_the_whole_crate(self):
        self.assertFalse(checks.ran_to_its_end(0, golden("output_of_call_auth.txt")))


class Words(unittest.TestCase):
    """The arguments of a check."""

    def setUp(self):
        room = tempfile.TemporaryDirectory()
        self.addCleanup(room.cleanup)
        self.folder = Path(room.name)
        self.crates = crates_in("low: toml\nmiddle: low\nhigh: middle arrayvec\n", self.folder)

    def test_libraries(self):
        words = checks.crate_words(self.crates["high"])
        self.assertEqual(words[:3], ["--crate-name", "high", "src/lib.rt"])
        named = [word.partition("=")[0] for word in words[4::2] if word.endswith(".rlib")]
        self.assertEqual(named, ["std", "arrayvec", "middle"])
        searched = [word for word in words if word.startswith(f"dependency={self.folder}")]
        self.assertEqual(searched, [f"dependency={self.folder}/{name}/out/rlib" for name in ("low", "middle")])

    def test_program(self):
        (self.folder / "high/src").mkdir(parents=True)
        (self.folder / "high/src/main.rt").touch()
        self.assertEqual(checks.crate_words(self.crates["high"])[2], "src/main.rt")

    def test_changed_functions_alone_are_checked(self):
        copy = CrateCopy(ring_crate(self))
        bodies = {body.name: body for body in bodies_on("copied", golden("copied.txt"))}
        copy.add(bodies["counts_none"])
        copy.add(bodies["total_of_one"])
        words = checks.command_for(copy, "kept")
        only = ["--only", "ring::Ring::count_counts_none", "--only", "ring::Ring::total"]
        self.assertEqual(words[-7:], [*only, "--allow-holes", "--incremental", "kept"])


class Seconds(unittest.TestCase):
    """The seconds of functions, by the times of their modules."""

    def test_times_of_files(self):
        with tempfile.TemporaryDirectory() as kept:
            for name, written in {
                "old.proofs.a.Lts.oantt": 50,
                "ring.specs.Rings.oantt": 100,
                "ring.proofs.m.one.Lts.oantt": 103,
                "ring.proofs.m.two.Lts.oantt": 104,
                "ring.proofs.m.one.Answers.oantt": 109,
                "ring.proofs.m.one_more.Answers.oantt": 120,
            }.items():
                path = Path(kept) / name
                path.touch()
                os.utime(path, (written, written))
            seconds = checks.seconds_of(["m::one", "m::two", "m::three"], kept, 100)
        self.assertEqual(seconds, {"m::one": 8, "m::two": 1, "m::three": 0})


if __name__ == "__main__":
    unittest.main()
