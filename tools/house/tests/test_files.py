"""Tests of files.py: which files are counted, and what they are."""
import unittest

from support import of
from house import files


class Files(unittest.TestCase):
    def test_counted(self):
        for path in (
            "crates/outbox/src/lib.rt",
            "crates/outbox/specs/Lib.antt",
            "crates/outbox/proofs/outbox/put/Answers.antt",
            ".ci/run",
            "bench/load.c",
            "contrib/plan.schema.json",
            "tools/house/bounds.toml",
        ):
            self.assertTrue(files.is_counted(path), path)

    def test_not_counted(self):
        for path in (
            "README.md",
            "docs/CHECKS.md",
            "tools/wrong_bodies/README.md",
            "bench/results/table.json",
            "tools/wrong_bodies/tests/golden/page.txt",
            "crates/outbox/must-fail/outbox.md",
            "crates/exchange_main/data/plan.toml",
            "crates.txt",
        ):
            self.assertFalse(files.is_counted(path), path)

    def test_language(self):
        for path, text, language in (
            ("a/b.rt", "", "rattle"),
            ("a/b.antt", "", "logic"),
            ("a/b.py", "", "python"),
            ("a/b.h", "", "c"),
            ("a/b", "#!/usr/bin/env python3\n", "python"),
            ("a/b", "#!/bin/sh\n", "shell"),
            ("a/b.json", "{}\n", "text"),
        ):
            self.assertEqual(of(path, text).language, language)

    def test_unit_and_part(self):
        inside, beside = of("crates/outbox/specs/Lib.antt", ""), of("tools/house/files.py", "")
        self.assertEqual((inside.unit, inside.part), ("outbox", "specs"))
        self.assertEqual((beside.unit, beside.part), ("tools", None))

    def test_lines(self):
        self.assertEqual(of("a", "one\ntwo\n").lines, ["one", "two"])
        self.assertEqual(of("a", "one\ntwo").lines, ["one", "two"])
        self.assertEqual(of("a", "").lines, [""])

    def test_the_repository_has_them(self):
        paths = files.tracked()
        self.assertIn("tools/house/tests/test_files.py", paths)
        self.assertIn("crates.txt", paths)


if __name__ == "__main__":
    unittest.main()
