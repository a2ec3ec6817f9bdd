"""Tests of kept.py."""
import tempfile
import unittest
from pathlib import Path
from unittest import mock

from support import ring_crate
from wrong_bodies import kept
from wrong_bodies.kept import KeptRefusals, Refusal

ONE, OTHER = Refusal("no proof", 1.5), Refusal("another", 0.0)


class Kept(unittest.TestCase):
    """Refusals of bodies of the crate `ring`."""

    def setUp(self):
        room = tempfile.TemporaryDirectory()
        self.addCleanup(room.cleanup)
        self.crate = ring_crate(self)
        self.folder = Path(room.name) / "kept"
        change = mock.patch.object(kept, "FOLDER", self.folder)
        change.start()
        self.addCleanup(change.stop)

    def refusals(self, prover=(1, 2)):
        """Returns what is kept of the crate."""
        return KeptRefusals(self.crate, [*prover])

    def test_nothing_is_kept_at_first(self):
        self.assertIsNone(self.refusals().get("a"))

    def test_later_runs_have_it(self):
        self.refusals().keep({"a": ONE})
        self.assertEqual(self.refusals().get("a"), ONE)
        self.assertIsNone(self.refusals().get("b"))

    def test_refusals_are_added(self):
        first, second = self.refusals(), self.refusals()
        first.keep({"a": ONE})
        second.keep({"b": OTHER})
        self.assertEqual([self.refusals().get(it) for it in "ab"], [ONE, OTHER])
        self.assertEqual(second.get("a"), ONE)

    def test_the_latest_stay(self):
        with mock.patch.object(kept, "MOST", 2):
            for digest in "abac":
                self.refusals().keep({digest: ONE})
        self.assertEqual([*self.refusals().refusals], ["a", "c"])

    def test_another_prover(self):
        self.refusals().keep({"a": ONE})
        self.assertIsNone(self.refusals((1, 3)).get("a"))

    def test_file_that_is_damaged(self):
        self.refusals().keep({"a": ONE})
        for text in ("", "[", "7", "{}", "[1, 2, 3]", "[[1, 2], 3]", '[[1, 2], {"a": 3}]', '[[1, 2], {"a": [3]}]'):
            (self.folder / "ring.json").write_text(text, encoding="utf-8")
            self.assertIsNone(self.refusals().get("a"), text)

    def test_folder_that_can_not_be_written(self):
        self.folder.write_text("no folder", encoding="utf-8")
        self.refusals().keep({"a": ONE})
        self.assertIsNone(self.refusals().get("a"))

    def test_toolchain(self):
        self.assertEqual(kept.prover_here(), kept.prover_here())


if __name__ == "__main__":
    unittest.main()
