"""Tests of inputs.py: on which changes the digest of a body depends."""
import re
import shutil
import tempfile
import unittest
from dataclasses import replace
from pathlib import Path

from support import HERE, golden, write_ring
from wrong_bodies.crates import Crate
from wrong_bodies.inputs import DECIDING, Inputs, program_digest
from wrong_bodies.pages import bodies_on

BODIES = {body.name: body for body in bodies_on("copied", golden("copied.txt"))}


class Digests(unittest.TestCase):
    """The digests of bodies of the crate `ring`, above the crate `pearl`."""

    def setUp(self):
        room = tempfile.TemporaryDirectory()
        self.addCleanup(room.cleanup)
        self.room = Path(room.name)
        for name in ("ring", "pearl"):
            write_ring(self.room / name)

    def digest(self, body="counts_none", room=None, program="program", libraries=()):
        """Returns the digest of a body, by the files as they are now."""
        crate = Crate("ring", (room or self.room) / "ring")
        crate.libraries = [*libraries]
        crate.dependencies = [Crate("pearl", (room or self.room) / "pearl")]
        body = BODIES[body] if isinstance(body, str) else body
        return Inputs(program).digests(crate, [body])[body.name]

    def changes(self, file, old, new, body="counts_none"):
        """Returns whether a body's digest is another one after a change of a file."""
        before = self.digest(body)
        path = self.room / file
        text = path.read_text(encoding="utf-8") if path.is_file() else ""
        path.parent.mkdir(parents=True, exist_ok=True)
        self.assertIn(old, text)
        path.write_text(text.replace(old, new, 1), encoding="utf-8")
        after = self.digest(body)
        path.write_text(text, encoding="utf-8")
        return before != after

    def test_the_same_in_another_folder(self):
        with tempfile.TemporaryDirectory() as other:
            for name in ("ring", "pearl"):
                shutil.copytree(self.room / name, Path(other) / name)
            self.assertEqual(self.digest(room=Path(other)), self.digest())

    def test_program_body_and_row(self):
        body = BODIES["counts_none"]
        others = [
            self.digest(program="another"),
            self.digest(libraries=["md5"]),
            self.digest(replace(body, goal="other")),
            self.digest("counts_one_too_many"),
        ]
        self.assertEqual(len({self.digest(), *others}), 5)

    def test_own_function(self):
        self.assertTrue(self.changes("ring/src/ring.rt", "result ≡ length self.now.octets", "result ≡ 0"))
        self.assertTrue(self.changes("ring/proofs/ring/Ring/count/Answers.antt", "", "pub more : Type 0\n", "sums_one_too_many"))

    def test_other_functions_have_neither_body_nor_proof(self):
        self.assertFalse(self.changes("ring/src/ring.rt", "=> Some(*first)", "=> None"))
        self.assertFalse(self.changes("ring/proofs/ring/first/Invariants.antt", "none", "some"))
        self.assertFalse(self.changes("ring/proofs/ring/first/Answers.antt", "", "pub more : Type 0\n"))

    def test_what_others_promise(self):
        self.assertTrue(self.changes("ring/src/ring.rt", "first(octets: &[u8])", "first(octets: &[u16])"))
        self.assertTrue(self.changes("ring/specs/Rings.antt", "Type 0", "Type 1"))
        self.assertTrue(self.changes("ring/proofs/Rings.antt", "Type 0", "Type 1"))

    def test_crates_below(self):
        self.assertTrue(self.changes("pearl/src/ring.rt", "first(octets: &[u8])", "first(octets: &[u16])"))
        self.assertTrue(self.changes("pearl/specs/Rings.antt", "Type 0", "Type 1"))
        self.assertTrue(self.changes("pearl/proofs/Rings.antt", "Type 0", "Type 1"))
        self.assertFalse(self.changes("pearl/src/ring.rt", "=> Some(*first)", "=> None"))
        self.assertFalse(self.changes("pearl/proofs/ring/Ring/count/Answers.antt", "", "pub more : Type 0\n"))

    def test_lines_that_are_only_a_comment(self):
        self.assertFalse(self.changes("ring/src/lib.rt", "mod ring;", "// A ring.\n  /// Of octets.\nmod ring;"))
        self.assertFalse(self.changes("ring/specs/Rings.antt", "pub", "-- the octets\npub"))
        self.assertTrue(self.changes("ring/src/lib.rt", "mod ring;", "pub mod ring;"))


class Program(unittest.TestCase):
    """The modules that decide on a body."""

    def test_they_import_no_others(self):
        for name in DECIDING:
            text = (HERE.parent / f"{name}.py").read_text(encoding="utf-8")
            self.assertLessEqual({*re.findall(r"^from \.(\w+) import", text, re.M)}, {*DECIDING}, name)

    def test_digest(self):
        self.assertRegex(program_digest(), r"^[0-9a-f]{40}\Z")
        self.assertEqual(program_digest(), program_digest())


if __name__ == "__main__":
    unittest.main()
