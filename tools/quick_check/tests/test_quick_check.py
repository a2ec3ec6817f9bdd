"""Tests of quick_check without the prover: options, commands, copies, recorded outputs."""
import sys
import tempfile
import unittest
from pathlib import Path

sys.path.insert(0, str(Path(__file__).resolve().parents[2]))

from quick_check import __main__ as quick_check  # noqa: E402
from wrong_bodies.crates import crates_in  # noqa: E402

PROVED = """so far: 17 of 20 functions checked
fn low::first: depends on a hole in `Rattle.low.proofs.first.Proof.first_spec`
fn high::reads: depends on a hole in `Rattle.low.proofs.first.Proof.first_spec`
fn high::writes: no holes
fn high::calls: not proved; it calls `low::first` and `low::last`, which are not proved
only=3 holes=2
"""
UNPROVED = """./proofs/reads/Answers.antt:3:9: error: `returns`: `search`: no proof of `0 ≡ 1`
  was found. It stopped 5 lemmas deep
/tmp/copies/low/proofs/first/Proof.antt:1:1: error: `low` has no function `first`
fn high::reads: not proved; it stands on `Rattle.high.proofs.reads.Answers.returns`, which antt refuses; it calls `low::first`, \
which is not proved
fn high::writes: no proof: expected answers in ./proofs/writes/Answers.antt; `search` did not prove `returns`
only=2 holes=2
"""
UNREAD = "src/lib.rt:9:5: error[unknown-name]: unresolved import: there is no `mio` in module `link`\n"


def write_crates(folder):
    """Writes two crates into a folder, and returns them by name."""
    for name, text in {
        "low": "/// Returns the first octet.\npub fn first(octets: &[u8]) -> u8 {\n    octets[0]\n}\n",
        "high": "use low::first;\n\npub fn reads(octets: &[u8]) -> u8 {\n    first(octets)\n}\n",
    }.items():
        path = Path(folder) / name / "src/lib.rt"
        path.parent.mkdir(parents=True)
        path.write_text(text, encoding="utf-8")
    return crates_in("low: md5\nhigh: low hex\n", folder)


class Options(unittest.TestCase):
    def test_crate_alone(self):
        options = quick_check.options_in(["high"])
        self.assertEqual((options.crate, options.functions, options.takes_tests), ("high", [], False))
        self.assertGreaterEqual(options.jobs, 1)

    def test_functions_jobs_and_tests_in_any_order(self):
        options = quick_check.options_in(["--jobs", "3", "high", "reads", "--test", "writes"])
        self.assertEqual((options.functions, options.jobs, options.takes_tests), (["reads", "writes"], 3, True))

    def test_what_is_not_understood(self):
        for words in [], ["--test"], ["high", "--jobs"], ["high", "--jobs", "many"]:
            with self.assertRaises(quick_check.UsageError):
                quick_check.options_in(words)


class Commands(unittest.TestCase):
    def setUp(self):
        room = tempfile.TemporaryDirectory()
        self.addCleanup(room.cleanup)
        self.crates = write_crates(Path(room.name) / "crates")
        self.room = Path(room.name) / "room"
        self.room.mkdir()

    def command(self, *words):
        options = quick_check.options_in(["high", *words])
        return quick_check.command_for(self.crates["high"], options, self.room)

    def test_libraries_of_the_rows_alone(self):
        words = " ".join(self.command())
        for name in "std", "md5", "hex":
            self.assertIn(f"--extern {name}=", words)
        self.assertNotIn("--extern mio=", words)
        self.assertIn(f"--lib low:md5,std={self.room}/low/src/lib.rt", words)

    def test_all_functions_if_none_is_named(self):
        self.assertIn("--only reads", " ".join(self.command()))
        self.assertNotIn("--only reads", " ".join(self.command("writes")))

    def test_copies_have_no_bodies_and_are_written_once(self):
        self.command()
        copy = self.room / "low/src/lib.rt"
        self.assertIn("unreachable!()", copy.read_text(encoding="utf-8"))
        copy.write_text("", encoding="utf-8")
        self.command()
        self.assertEqual(copy.read_text(encoding="utf-8"), "")
        source = self.crates["low"].folder / "src/lib.rt"
        source.write_text(source.read_text(encoding="utf-8").replace("first", "second"), encoding="utf-8")
        # The next run reads the crates again.
        self.crates = crates_in("low: md5\nhigh: low hex\n", source.parents[2])
        self.command()
        self.assertIn("fn second", copy.read_text(encoding="utf-8"))


class Verdicts(unittest.TestCase):
    def test_holes_of_callees_are_no_fault(self):
        verdict = quick_check.verdict_in(PROVED, "high")
        self.assertEqual((verdict.proved, verdict.unproved, verdict.errors), (2, [], []))
        self.assertTrue(verdict.is_good())

    def test_own_faults(self):
        verdict = quick_check.verdict_in(UNPROVED, "high")
        self.assertEqual([line.split(":")[2] for line in verdict.unproved], ["reads", "writes"])
        self.assertEqual(len(verdict.errors), 1)
        self.assertIn("It stopped 5 lemmas deep", verdict.errors[0])
        self.assertFalse(verdict.is_good())

    def test_a_check_that_read_nothing(self):
        verdict = quick_check.verdict_in(UNREAD, "high")
        self.assertEqual((verdict.proved, len(verdict.errors)), (0, 1))
        self.assertFalse(verdict.is_good())


if __name__ == "__main__":
    unittest.main()
