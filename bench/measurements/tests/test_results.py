"""Tests of results.py: means and errors of known series, the tree of the crates, files."""
import hashlib
import json
import subprocess
import tempfile
import unittest
from pathlib import Path

from support import room_of, write_results
from measurements import results
from measurements.results import Figure, Results, Unmeasured


class Means(unittest.TestCase):
    """The expected values were computed by hand."""

    def test_arithmetic(self):
        # The squares of the distances to 5 are 9, 1, 1, 1, 0, 0, 4, 16: 32. The root of 32/7/8 is 0.755929.
        mean, error = results.mean_of([2, 4, 4, 4, 5, 5, 7, 9])
        self.assertEqual(mean, 5)
        self.assertAlmostEqual(error, 0.755929, 6)

    def test_geometric(self):
        # The logarithms are 0, 0.693147, 1.386294: their mean is that of 2, their deviation 0.693147, which is divided by the
        # root of 3. 2 times 0.400189 is 0.800377.
        mean, error = results.geometric_mean_of([1, 2, 4])
        self.assertAlmostEqual(mean, 2, 12)
        self.assertAlmostEqual(error, 0.800377, 6)

    def test_ratio_and_its_inverse(self):
        mean, error = results.geometric_mean_of([0.5, 2.0])
        self.assertAlmostEqual(mean, 1, 12)
        self.assertAlmostEqual(error, 0.693147, 6)

    def test_one_round_has_no_error(self):
        self.assertEqual(results.mean_of([7]), (7, None))
        self.assertEqual(results.geometric_mean_of([1.0]), (1, None))

    def test_ratios_alone_are_geometric(self):
        found = results.figures_of([{"ratio": 1, "us": 1}, {"ratio": 4, "us": 4}])
        self.assertAlmostEqual(found["ratio"].mean, 2, 12)
        self.assertEqual(found["us"].mean, 2.5)

    def test_rounds_with_other_figures(self):
        with self.assertRaisesRegex(Unmeasured, "'ratio', 'us'"):
            results.figures_of([{"us": 1}, {"us": 1, "ratio": 1}])

    def test_spread(self):
        self.assertAlmostEqual(results.spread_of([80, 100, 92]), 0.25, 12)


class Trees(unittest.TestCase):
    """The tree of crates/, in a repository with two files."""

    def setUp(self):
        self.top = room_of(self)
        (self.top / "crates").mkdir()
        (self.top / "crates/a").write_bytes(b"x\n")
        (self.top / "page").write_bytes(b"y\n")
        self.git("init", "--quiet")
        self.git("add", ".")
        self.git("-c", "user.name=x", "-c", "user.email=x", "commit", "--quiet", "-m", "x")

    def git(self, *words):
        subprocess.run(["git", *words], cwd=self.top, check=True)

    def test_committed(self):
        (self.top / "page").write_bytes(b"z\n")
        blob = hashlib.sha1(b"blob 2\0x\n").digest()
        entry = b"100644 a\0" + blob
        wanted = hashlib.sha1(f"tree {len(entry)}\0".encode() + entry).hexdigest()
        self.assertEqual(results.tree_of_crates(self.top), wanted)

    def test_changed_file(self):
        (self.top / "crates/a").write_bytes(b"z\n")
        with self.assertRaisesRegex(Unmeasured, "aren't committed: M crates/a"):
            results.tree_of_crates(self.top)

    def test_new_file(self):
        (self.top / "crates/b").write_bytes(b"")
        with self.assertRaisesRegex(Unmeasured, "crates/b"):
            results.tree_of_crates(self.top)

    def test_staged_change(self):
        (self.top / "crates/a").write_bytes(b"z\n")
        self.git("add", ".")
        with self.assertRaisesRegex(Unmeasured, "crates/a"):
            results.tree_of_crates(self.top)

    def test_no_repository(self):
        with tempfile.TemporaryDirectory() as folder, self.assertRaisesRegex(Unmeasured, "git status"):
            results.tree_of_crates(folder)


class Files(unittest.TestCase):
    def setUp(self):
        self.folder = room_of(self)

    def test_text(self):
        found = Results("speed", {"rounds": 2})
        found.add("a call", [{"us": 1.0}, {"us": 2.0}])
        found.rows["a promise"] = {"is_kept": True, "calls": 12}
        wanted = {
            "rounds": 2,
            "rows": {"a call": {"us": [1.5, 0.5]}, "a promise": {"is_kept": True, "calls": 12}},
        }
        self.assertEqual(json.loads(found.text()), wanted)

    def test_written_and_read(self):
        write_results(self.folder, "speed", {"a call": {"us": (1.23456789, 0.5), "KB": 3}}, relay_spread=0.125)
        found = results.read(self.folder, "speed")
        self.assertEqual(found.figure("a call", "us"), Figure(1.2346, 0.5))
        self.assertEqual(found.figure("a call", "KB"), Figure(3, None))
        self.assertEqual(found.fact("relay_spread"), 0.125)

    def test_missing_results_are_named(self):
        write_results(self.folder, "speed", {"a call": {"us": 1}})
        found = results.read(self.folder, "speed")
        for look, name in (
            (lambda: results.read(self.folder, "weight"), "weight.json"),
            (lambda: found.figure("two calls", "us"), "speed has no row 'two calls'"),
            (lambda: found.figure("a call", "KB"), "speed has no 'KB' in the row 'a call'"),
            (lambda: found.fact("seed"), "speed has no 'seed'"),
        ):
            with self.assertRaisesRegex(Unmeasured, name):
                look()

    def test_files_that_are_no_results(self):
        for text in ("", "{", "[]", "{}", '{"rows": 1}', '{"rows": {"a call": 1}}', '{"rows": {"a call": {"us": [1]}}}'):
            (Path(self.folder) / "speed.json").write_text(text, encoding="utf-8")
            with self.assertRaisesRegex(Unmeasured, "speed.json has no results"):
                results.read(self.folder, "speed")

    def test_one_row_twice(self):
        found = Results("speed", {})
        found.add("a call", [{"us": 1}])
        with self.assertRaisesRegex(Unmeasured, "two rows 'a call'"):
            found.add("a call", [{"us": 2}])

    def test_results_that_are_not_written_need_no_repository(self):
        self.assertNotIn("crates", results.begun("speed", False).facts)

    def test_machine(self):
        self.assertEqual(sorted(results.machine()), ["kernel", "processor", "processors", "rmem_max"])
        self.assertGreaterEqual(results.machine()["processors"], 1)


if __name__ == "__main__":
    unittest.main()
