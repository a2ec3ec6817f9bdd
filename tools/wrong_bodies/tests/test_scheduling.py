"""Tests of scheduling.py, with a prover whose output is given."""
import tempfile
import threading
import unittest
from dataclasses import replace
from pathlib import Path
from unittest import mock

from support import golden, ring_crate
from wrong_bodies import scheduling
from wrong_bodies.checks import Output
from wrong_bodies.crates import crates_in
from wrong_bodies.pages import bodies_on

BODIES = {body.name: body for body in bodies_on("copied", golden("copied.txt"))}


class Prover:
    """A prover that refuses each body once it has been tried so often, and that prints nothing about it before."""

    def __init__(self, tries_needed):
        self.tries_needed = tries_needed
        self.tries = {}
        self.checks = []

    def check(self, copy, _kept):
        """Returns the output of a check of a copy."""
        names = [function.body.name for function in copy.functions]
        self.checks.append(names)
        text = ""
        for function in copy.functions:
            name = function.body.name
            self.tries[name] = self.tries.get(name, 0) + 1
            if self.tries[name] >= self.tries_needed.get(name, 1):
                text += f"./proofs/{function.path.replace('::', '/')}/Answers.antt:1:1: error: `returns`: no proof\n"
                text += f"fn ring::{function.path}: not proved\n"
        seconds = {function.path: 1.5 for function in copy.functions}
        return Output("ring", text, seconds=seconds)


class Tried(unittest.TestCase):
    """The bodies of a crate, until the prover has said something about each."""

    def tried(self, names, prover):
        """Returns the reasons for the bodies of these names."""
        selection = scheduling.Selection(ring_crate(self), [replace(BODIES[name], goal="returns") for name in names])
        with mock.patch.object(scheduling, "check", prover.check):
            outcomes = scheduling.tried(selection)
        return {outcome.function.body.name: outcome.reason for outcome in outcomes}

    def test_all_in_one_check(self):
        prover = Prover({})
        reasons = self.tried(["counts_none", "always_pushed"], prover)
        self.assertEqual(prover.checks, [["counts_none", "always_pushed"]])
        self.assertEqual(set(reasons.values()), {"Answers.antt:1:1: error: `returns`: no proof"})

    def test_bodies_that_meet_in_two_checks(self):
        prover = Prover({})
        self.tried(["total_of_none", "counts_none", "total_of_one"], prover)
        self.assertEqual(prover.checks, [["total_of_none", "counts_none"], ["total_of_one"]])

    def test_a_body_without_a_word_is_tried_again(self):
        prover = Prover({"always_pushed": 2, "nothing_pushed": 2})
        reasons = self.tried(["counts_none", "always_pushed", "nothing_pushed"], prover)
        self.assertEqual(prover.checks, [["counts_none", "always_pushed", "nothing_pushed"], ["always_pushed", "nothing_pushed"]])
        self.assertTrue(all(reasons.values()))

    def test_each_alone_if_a_check_says_nothing(self):
        prover = Prover({"always_pushed": 2, "nothing_pushed": 3})
        reasons = self.tried(["always_pushed", "nothing_pushed"], prover)
        self.assertEqual(prover.checks, [["always_pushed", "nothing_pushed"], ["always_pushed"], ["nothing_pushed"]])
        self.assertTrue(reasons["always_pushed"])
        self.assertIsNone(reasons["nothing_pushed"])

    def test_a_check_that_was_killed_says_nothing(self):
        prover = Prover({})
        real = prover.check
        prover.check = lambda copy, kept: replace(real(copy, kept), is_whole=len(copy.functions) == 1)
        self.assertTrue(all(self.tried(["counts_none", "always_pushed"], prover).values()))
        self.assertEqual(prover.checks, [["counts_none", "always_pushed"], ["counts_none"], ["always_pushed"]])


class Beside(unittest.TestCase):
    """The order of crates, beside a build and without one."""

    def setUp(self):
        room = tempfile.TemporaryDirectory()
        self.addCleanup(room.cleanup)
        self.folder = Path(room.name)
        self.crates = crates_in("# Crates\nlow: toml\nmiddle: low\nhigh: middle toml\n\nother:\n", "crates")
        (self.folder / "ci").write_text("", encoding="utf-8")

    def schedule(self, *names, beside=True):
        """Returns a schedule for these crates, in this order."""
        build = scheduling.Build(str(self.folder) if beside else None)
        selections = [scheduling.Selection(self.crates[name], []) for name in names]
        return scheduling.Schedule(selections, build, lambda selection: selection.crate.name.upper())

    def print_of_build(self, text):
        (self.folder / "ci").write_text(text, encoding="utf-8")

    def next_name(self, schedule):
        """Returns the name of the crate that is tried next; None if none is ready."""
        selection = schedule.take_ready()
        return selection.crate.name if selection else None

    def test_crates_below(self):
        self.assertEqual([crate.name for crate in self.crates["high"].below()], ["low", "middle"])
        self.assertEqual(self.crates["high"].libraries, ["toml"])

    def test_the_first_that_is_ready(self):
        schedule = self.schedule("high", "middle", "low")
        self.assertEqual(self.next_name(schedule), "low")
        self.assertIsNone(self.next_name(schedule))
        self.print_of_build("rt: low proved\n")
        self.assertEqual(self.next_name(schedule), "middle")
        self.assertIsNone(self.next_name(schedule))
        self.print_of_build("rt: low proved\nrt: middle is kept: its proof is unchanged\n")
        self.assertEqual(self.next_name(schedule), "high")
        self.assertEqual(schedule.waiting, [])

    def test_other_lines_of_the_build_count_for_nothing(self):
        self.print_of_build("rt: low proved by hand\nrt: proving low\n  rt: low proved\n")
        self.assertIsNone(self.next_name(self.schedule("middle")))

    def test_all_are_ready_once_the_build_has_ended(self):
        (self.folder / "ended").touch()
        self.assertEqual(self.next_name(self.schedule("high", "low")), "high")

    def test_all_are_ready_without_a_build(self):
        self.assertEqual(self.next_name(self.schedule("high", "low", beside=False)), "high")

    def test_half_of_the_processors_until_the_build_has_ended(self):
        schedule = self.schedule("low", "other")
        with mock.patch.object(scheduling.os, "sched_getaffinity", return_value={0, 1, 2, 3}):
            schedule.running = 2
            self.assertIsNone(self.next_name(schedule))
            (self.folder / "ended").touch()
            self.assertEqual(self.next_name(schedule), "low")
            schedule.running = 4
            self.assertIsNone(self.next_name(schedule))

    def test_one_processor_tries_one_crate(self):
        schedule = self.schedule("low")
        with mock.patch.object(scheduling.os, "sched_getaffinity", return_value={0}):
            self.assertEqual(self.next_name(schedule), "low")

    def test_a_fault_of_a_try_is_raised(self):
        schedule = self.schedule("low", beside=False)
        schedule.try_bodies = mock.Mock(side_effect=OSError("no prover"))
        with self.assertRaisesRegex(OSError, "^no prover$"):
            list(schedule.results())

    def test_results_of_all(self):
        schedule = self.schedule("high", "low", "other", beside=False)
        results = {crate.name: outcomes for crate, outcomes in schedule.results()}
        self.assertEqual(results, {"high": "HIGH", "low": "LOW", "other": "OTHER"})

    def test_crates_at_the_same_time(self):
        together = threading.Barrier(2, timeout=10)
        schedule = self.schedule("low", "other", beside=False)
        schedule.try_bodies = lambda _: together.wait()
        with mock.patch.object(scheduling.os, "sched_getaffinity", return_value={0, 1}):
            self.assertEqual(len([*schedule.results()]), 2)

    def test_weight_counts_bodies_and_lines(self):
        crate = ring_crate(self)
        lines = scheduling.Selection(crate, [None]).weight()
        self.assertEqual(scheduling.Selection(crate, [None, None]).weight(), 2 * lines)
        self.assertEqual(lines, sum(path.read_bytes().count(b"\n") for path in crate.folder.rglob("*.*") if path.is_file()))


if __name__ == "__main__":
    unittest.main()
