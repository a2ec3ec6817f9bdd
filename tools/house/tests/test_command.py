"""Tests of the command, over files that are given."""
import contextlib
import io
import tempfile
import unittest
from pathlib import Path
from unittest import mock

from support import crate_file
from house import __main__ as command
from house import bounds

TEXT = """[all]
clauses = 1
crates = 2
lines_for_laws = 0
long_lines = 0
proofs_to_source = 0
twins = 0

[crates]
list = { clauses = 1, parameters = 0, proofs_to_source = 0, lines_for_laws = 0 }

[folders]
".ci" = { parameters = 0 }
bench = { parameters = 0 }
contrib = { parameters = 0 }
endurance = { parameters = 0 }
tools = { parameters = 0 }
"""


class Command(unittest.TestCase):
    def setUp(self):
        room = tempfile.TemporaryDirectory()
        self.addCleanup(room.cleanup)
        self.top = Path(room.name)
        (self.top / bounds.PATH).parent.mkdir(parents=True)
        self.write(TEXT)

    def write(self, text):
        """Writes the bounds."""
        (self.top / bounds.PATH).write_text(text, encoding="utf-8")

    def run_with(self, *words, clauses=1):
        """Returns the status and the lines that are printed, of a crate with so many clauses."""
        files = [crate_file("list/src/lib.rt", "fn one()", *["    ensures { A }"] * clauses, "{}")]
        printed = io.StringIO()
        with (
            mock.patch.object(command, "read_files", lambda: files),
            mock.patch.object(command, "read_crates", lambda: {"list": None}),
            mock.patch.object(command, "TOP", self.top),
            mock.patch.object(bounds, "read_text", lambda: (self.top / bounds.PATH).read_text(encoding="utf-8")),
            mock.patch.object(bounds, "text_before", lambda text: TEXT),
            contextlib.redirect_stdout(printed),
            contextlib.redirect_stderr(printed),
        ):
            return command.main(words), printed.getvalue().splitlines()

    def test_within(self):
        status, lines = self.run_with()
        self.assertEqual((status, lines[-1]), (0, "house: within its bounds"))

    def test_above(self):
        status, lines = self.run_with(clauses=2)
        self.assertEqual(status, 1)
        self.assertIn("house: [crates] list, clauses: 2, at most 1", lines)
        self.assertEqual(lines[-1], "house: 2 above their bounds")

    def test_raised(self):
        self.write(TEXT.replace("clauses = 1", "clauses = 2"))
        status, lines = self.run_with(clauses=2)
        self.assertEqual((status, lines[-1]), (1, "house: 2 above their bounds"))
        self.assertTrue(lines[-2].startswith("house: [crates] list, clauses: 2, and was 1: a new `why`"), lines[-2])

    def test_lower(self):
        self.assertEqual(self.run_with("--lower")[0], 0)
        self.assertEqual(bounds.bounds_in((self.top / bounds.PATH).read_text(encoding="utf-8"))["all", "crates"], {"most": 1})
        self.assertEqual(self.run_with("--lower", clauses=2)[0], 1)

    def test_places(self):
        self.assertEqual(self.run_with("--places"), (0, ["house: within its bounds"]))

    def test_unknown_words(self):
        self.assertEqual(self.run_with("--raise")[0], 2)
        self.assertEqual(self.run_with("--lower", "--places")[0], 2)


if __name__ == "__main__":
    unittest.main()
