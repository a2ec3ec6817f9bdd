"""Tests of __main__.py: options, lines and exit statuses."""
import contextlib
import io
import re
import subprocess
import sys
import tempfile
import unittest
from pathlib import Path
from unittest import mock

from support import HERE, crate_with_page, golden, ring_crate
from wrong_bodies import __main__ as command
from wrong_bodies import kept, records, scheduling
from wrong_bodies.checks import Output
from wrong_bodies.copies import SpoiltFunction
from wrong_bodies.crates import Crate
from wrong_bodies.pages import PageError, bodies_on
from wrong_bodies.scheduling import Outcome

BODIES = {body.name: body for body in bodies_on("copied", golden("copied.txt"))}


def outcome(name, reason, text="", seconds=1.0):
    """Returns the result for a body of golden/copied.txt."""
    body = BODIES[name]
    return Outcome(SpoiltFunction(body, (), f"{body.function}_{name}"), reason, text, seconds)


def counts(tried=0, kept=0, undrawn=0, failed=0):
    """Returns the last line of a run."""
    took = "12 s of processor time"
    return f"bodies: {tried} tried in {took}, {kept} kept, {undrawn} recorded and not drawn, {failed} failed"


def recorded(count, here):
    """Returns the last line of `--record`."""
    return f"bodies: {count} of 9 recorded, {here} of them as this machine has refused them"


class OptionsTest(unittest.TestCase):
    """The words of the command."""

    def test_none(self):
        options = command.options_in([])
        self.assertEqual((options.beside, options.switches, options.names, options.seed), (None, set(), [], None))
        self.assertTrue(options.keeps_answers())

    def test_all(self):
        switches = ["--right", "--search", "--times", "--anew", "--name", "--apply", "--record"]
        options = command.options_in(["--seed", "17", "--beside", "folder", "ring", *switches, "a/b"])
        self.assertEqual((options.beside, options.seed), ("folder", 17))
        self.assertEqual(options.switches, {*switches})
        self.assertEqual(options.names, ["ring", "a/b"])
        self.assertFalse(options.keeps_answers())

    def test_words_that_are_not_understood(self):
        for words in (["--seed"], ["--beside"], ["--seed", "many"]):
            with self.assertRaises(PageError):
                command.options_in(words)

    def test_recorded_bodies_are_drawn_unless_they_are_named(self):
        for words in ([], ["--seed", "1"], ["--seed", "1", "ring"], ["--beside", "folder"]):
            self.assertTrue(command.options_in(words).draws(), words)
        for words in (["ring"], ["--anew"], ["--seed", "1", "--anew"]):
            self.assertFalse(command.options_in(words).draws(), words)

    def test_choice_of_bodies(self):
        crate = ring_crate(self)
        for words in ([], ["ring"], ["ring/counts_none"], ["other", "ring"]):
            self.assertTrue(command.options_in(words).chooses(crate, BODIES["counts_none"]), words)
        for words in (["ring/other"], ["rin"], ["counts_none"]):
            self.assertFalse(command.options_in(words).chooses(crate, BODIES["counts_none"]), words)


class Lines(unittest.TestCase):
    """The line for a body."""

    def setUp(self):
        self.crate = ring_crate(self)

    def test_refused(self):
        line = command.report_of(self.crate, outcome("counts_none", "because " + "x" * 200))
        reason = "because " + "x" * 132
        self.assertEqual(line, f"ring/counts_none: refused, as it must be: ring::Ring::count: {reason}")

    def test_not_refused(self):
        text = "about nothing\nfn ring::ring::Ring::count_counts_none: no holes\n./proofs/a: error: b\nerror: c\nerror: d\n"
        line = command.report_of(self.crate, outcome("counts_none", None, text))
        shown = "fn ring::ring::Ring::count_counts_none: no holes | ./proofs/a: error: b | error: c"
        self.assertEqual(line, f"ring/counts_none: NOT REFUSED: ring::Ring::count: {shown}")

    def test_not_refused_without_a_word(self):
        line = command.report_of(self.crate, outcome("counts_none", None, "y" * 400))
        self.assertEqual(line, f"ring/counts_none: NOT REFUSED: ring::Ring::count: {'y' * 300}")


class Run(unittest.TestCase):
    """The command on the crate `ring`, with a prover whose output is given."""

    def setUp(self):
        self.folder = crate_with_page(self).folder
        self.page = self.folder / "must-fail" / "ring.md"
        self.records = self.folder / "refused" / "ring.txt"
        room = tempfile.TemporaryDirectory()
        self.addCleanup(room.cleanup)
        self.kept = Path(room.name) / "kept"
        self.proved = set()
        self.tried = []

    def check(self, copy, _kept):
        """Proves the functions of `self.proved`, refuses the others."""
        text = ""
        seconds = {}
        for number, function in enumerate(copy.functions):
            self.tried.append(function.body.name)
            seconds[function.path] = float(number)
            if function.body.name in self.proved:
                text += f"fn ring::{function.path}: no holes\n"
            else:
                text += f"./proofs/{function.path.replace('::', '/')}/Answers.antt:1:1: error: `a`: no\n"
                text += f"fn ring::{function.path}: not proved\n"
        return Output("ring", text, seconds=seconds)

    def run_command(self, *words):
        """Returns the exit status of the command, its lines and its standard error."""
        printed = io.StringIO()
        errors = io.StringIO()
        with contextlib.ExitStack() as changes:
            changes.enter_context(mock.patch.object(command, "read_crates", lambda: {"ring": Crate("ring", self.folder)}))
            changes.enter_context(mock.patch.object(command, "check", self.check))
            changes.enter_context(mock.patch.object(scheduling, "check", self.check))
            changes.enter_context(mock.patch.object(kept, "FOLDER", self.kept))
            changes.enter_context(mock.patch.object(command, "seconds_of_provers", lambda: 12.3))
            changes.enter_context(contextlib.redirect_stdout(printed))
            changes.enter_context(contextlib.redirect_stderr(errors))
            status = command.main([*words])
        return status, printed.getvalue().splitlines(), errors.getvalue()

    def test_apply(self):
        self.assertEqual(self.run_command("--apply"), (0, ["bodies: 9 can be applied"], ""))
        self.assertEqual(self.run_command("--apply", "ring/counts_none"), (0, ["bodies: 1 can be applied"], ""))

    def test_page_that_can_not_be_applied(self):
        self.page.write_text(golden("copied.txt").replace("-        self.count()", "-        self.counts()"), encoding="utf-8")
        message = "total_of_none: an old text doesn't stand once in src/ring.rt\n"
        self.assertEqual(self.run_command("--apply"), (1, [], message))
        self.assertEqual(self.run_command(), (1, [], message))

    def test_page_that_can_not_be_read(self):
        self.page.write_text("# Page\n\n## one\n", encoding="utf-8")
        message = "ring/must-fail/ring.md: a heading has no whole body under it\n"
        self.assertEqual(self.run_command("other"), (1, [], message))

    def test_all_refused(self):
        status, lines, _ = self.run_command("ring/counts_none", "ring/always_pushed")
        self.assertEqual(status, 0)
        self.assertEqual(lines[-1], counts(tried=2))
        reason = "Answers.antt:1:1: error: `a`: no"
        self.assertEqual(lines[0], f"ring/counts_none: refused, as it must be: ring::Ring::count: {reason}")

    def test_one_not_refused(self):
        self.proved = {"counts_none"}
        status, lines, _ = self.run_command("ring/counts_none", "ring/always_pushed")
        self.assertEqual(status, 1)
        self.assertEqual(lines[-1], counts(tried=2, failed=1))

    def test_no_body(self):
        self.assertEqual(self.run_command("--help"), (1, [counts()], ""))

    def test_refused_in_an_earlier_run(self):
        self.run_command("ring/counts_none")
        status, lines, _ = self.run_command("ring/counts_none", "ring/always_pushed")
        self.assertEqual(self.tried, ["counts_none", "always_pushed"])
        self.assertTrue(lines[0].startswith("ring/counts_none: refused, as it must be (in an earlier run): ring::Ring::count: "))
        self.assertEqual((status, lines[-1]), (0, counts(tried=1, kept=1)))

    def test_not_refused_in_an_earlier_run(self):
        self.proved = {"counts_none"}
        for _ in range(2):
            self.assertEqual(self.run_command("ring/counts_none")[0], 1)
        self.assertEqual(self.tried, ["counts_none", "counts_none"])

    def test_tried_again(self):
        for words in ([], [], ["--anew"], [], ["--search"]):
            self.run_command(*words, "ring/counts_none")
        self.assertEqual(self.tried, ["counts_none"] * 3)

    def test_all_are_kept(self):
        self.run_command("--anew", "ring/counts_none")
        self.assertEqual(self.run_command("ring/counts_none")[1][-1], counts(kept=1))
        self.assertEqual(self.tried, ["counts_none"])

    def test_by_search(self):
        status, lines, _ = self.run_command("--search", "ring/counts_none")
        self.assertEqual((status, lines[-1]), (0, "bodies: 1 tried, 0 failed"))

    def test_tried_again_after_a_change(self):
        self.run_command("ring/counts_none")
        (self.folder / "proofs/Rings.antt").write_text("pub counted : Type 0\ncounted = Type 0\n", encoding="utf-8")
        self.run_command("ring/counts_none")
        self.page.write_text(golden("copied.txt").replace("counts_none", "counts_nothing"), encoding="utf-8")
        self.run_command("ring/counts_nothing")
        self.assertEqual(self.tried, ["counts_none", "counts_none", "counts_nothing"])

    def test_times(self):
        last = "bodies: {} of 2 took {} s; the others weren't tried here"
        words = ("--times", "ring/counts_none", "ring/always_pushed")
        self.assertEqual(self.run_command(*words), (1, [last.format(0, 0)], ""))
        self.run_command(*words[1:])
        status, lines, _ = self.run_command(*words)
        self.assertEqual((status, self.tried), (0, ["counts_none", "always_pushed"]))
        always, none = "   1.0 ring/always_pushed: ring::Ring::pushed", "   0.0 ring/counts_none: ring::Ring::count"
        self.assertEqual(lines, [always, none, last.format(2, 1)])

    def record_all(self):
        """Records all bodies, and forgets what is kept of them."""
        self.run_command("ring")
        self.assertEqual(self.run_command("--record"), (0, [recorded(9, 9)], ""))
        (self.kept / "ring.json").unlink()
        self.tried.clear()

    def test_records(self):
        self.record_all()
        lines = self.records.read_text(encoding="utf-8").splitlines()
        self.assertEqual([line.split()[0] for line in lines], [*BODIES])
        self.assertTrue(all(re.fullmatch(r"\w+ [0-9a-f]{40}", line) for line in lines))

    def test_records_still_hold(self):
        self.record_all()
        before = self.records.read_text(encoding="utf-8")
        self.assertEqual(self.run_command("--record")[1], [recorded(9, 0)])
        self.assertEqual(self.records.read_text(encoding="utf-8"), before)

    def test_records_that_no_longer_hold(self):
        self.record_all()
        (self.folder / "specs/Rings.antt").write_text("pub octets : Type 1\n", encoding="utf-8")
        self.assertEqual(self.run_command("--record"), (1, [recorded(0, 0)], ""))
        self.assertFalse(self.records.parent.exists())

    def test_nothing_is_recorded_that_was_not_tried(self):
        self.proved = {"always_pushed"}
        self.run_command("ring/counts_none", "ring/always_pushed")
        self.run_command("--record")
        self.assertRegex(self.records.read_text(encoding="utf-8"), r"^counts_none [0-9a-f]+\n\Z")

    def test_drawn_bodies_of_the_recorded_ones(self):
        self.record_all()
        status, lines, _ = self.run_command("--seed", "4")
        drawn = [name for name in BODIES if records.is_drawn(4, Crate("ring", self.folder), BODIES[name])]
        self.assertEqual(len(drawn), 3)
        self.assertEqual(sorted(self.tried), sorted(drawn))
        self.assertEqual(lines[0], "bodies: one recorded body in 4 is tried, as --seed 4 draws them")
        self.assertEqual((status, lines[-1]), (0, counts(tried=3, undrawn=6)))
        self.assertEqual(self.run_command("--seed", "4")[1][-1], counts(kept=3, undrawn=6))

    def test_a_random_number_is_printed_and_repeats_the_draw(self):
        self.record_all()
        seed = re.search(r"--seed (\d+)", self.run_command()[1][0])[1]
        first = [*self.tried]
        (self.kept / "ring.json").unlink(missing_ok=True)
        self.tried.clear()
        self.run_command("--seed", seed)
        self.assertEqual(self.tried, first)

    def test_all_of_the_recorded_ones(self):
        for words in (["--anew"], ["ring"]):
            self.record_all()
            self.assertEqual(self.run_command(*words)[1][-1], counts(tried=9))

    def test_recorded_bodies_whose_inputs_changed(self):
        self.record_all()
        (self.folder / "specs/Rings.antt").write_text("pub octets : Type 1\n", encoding="utf-8")
        self.assertEqual(self.run_command("--seed", "4")[1][-1], counts(tried=9))

    def test_record_of_no_body(self):
        self.record_all()
        self.page.write_text(golden("copied.txt").replace("counts_none", "counts_nothing"), encoding="utf-8")
        message = "crates/ring/refused/ring.txt records counts_none, and must-fail/ring.md has no such body: "
        message += "run `.ci/wrong_bodies --record ring`\n"
        self.assertEqual(self.run_command("--apply"), (1, [], message))
        self.run_command("--record", "ring")
        self.assertEqual(self.run_command("--apply")[0], 0)

    def test_right(self):
        self.proved = {"counts_none", "always_pushed"}
        status, lines, _ = self.run_command("--right", "ring/counts_none", "ring/always_pushed")
        self.assertEqual(status, 0)
        self.assertEqual(lines[0], "ring/counts_none: proved, as it must be: ring::Ring::count_counts_none")
        self.assertEqual(len(lines), 2)

    def test_right_not_proved(self):
        status, lines, _ = self.run_command("--right", "ring/counts_none")
        self.assertEqual((status, lines), (1, ["ring/counts_none: NOT PROVED: ring::Ring::count_counts_none"]))


class Entry(unittest.TestCase):
    """The program of the gate."""

    def test_pages_of_the_repository_can_be_applied(self):
        entry = Path(HERE).parents[2] / ".ci/wrong_bodies"
        done = subprocess.run([sys.executable, entry, "--apply", "plain_text"], capture_output=True, text=True, check=False)
        self.assertEqual((done.returncode, done.stderr), (0, ""))
        self.assertRegex(done.stdout, r"^bodies: \d+ can be applied\n\Z")


if __name__ == "__main__":
    unittest.main()
