"""Tests of quick_plant without the prover: names of impls, recorded outputs, libraries."""
import sys
import tempfile
import unittest
from pathlib import Path
from types import SimpleNamespace

sys.path.insert(0, str(Path(__file__).resolve().parents[2]))

from quick_check import plant  # noqa: E402
from wrong_bodies.crates import crates_in  # noqa: E402

OUTPUT = """note: src/lib.rt:9:5: a clause (`returns`)
fn high::reads_plant0: no proof: expected answers in ./proofs/reads_plant0/Answers.antt; `search` did not prove `returns`
fn high::reads_plant1: no holes
fn high::reads_plant2: depends on a hole in `Rattle.low.proofs.first.Proof.first_spec`
fn high::reads_plant3: not proved; it calls `low::first`, which is not proved
only=4 holes=2
"""


def impl_of(ty, trait, generics=()):
    """Returns the head of an `impl` of a trait, as `rt plant` reads it."""
    return SimpleNamespace(ty=ty.split(), trait=trait.split(), generics=[*generics], is_trait=False)


class Names(unittest.TestCase):
    def test_type_and_trait(self):
        self.assertEqual(plant.name_of_impl(impl_of("PeerError", "From < AllocError >")), "PeerErrorFromAllocError")

    def test_parameters_and_lifetimes_are_left_out(self):
        self.assertEqual(plant.name_of_impl(impl_of("Journal < 'r , R >", "Log", ["'r", "R"])), "JournalLog")

    def test_references(self):
        self.assertEqual(plant.name_of_impl(impl_of("& mut u8", "Rank")), "RefU8Rank")

    def test_methods_of_traits_and_functions(self):
        with tempfile.TemporaryDirectory() as room:
            source = Path(room) / "high/src/lib.rt"
            source.parent.mkdir(parents=True)
            source.write_text("pub fn reads() -> u8 {\n    0\n}\n", encoding="utf-8")
            crate = crates_in("high:\n", room)["high"]
            method = SimpleNamespace(in_trait=True, block=impl_of("Desk", "Log"), module=["desk"], name="log")
            declared = SimpleNamespace(in_trait=True, block=SimpleNamespace(is_trait=True), module=[], name="log")
            self.assertEqual(plant.symbols_of(crate, [method, declared]), ["high::reads", "high::desk::DeskLog::log"])


class Outputs(unittest.TestCase):
    def test_holes_of_callees_are_no_fault(self):
        lines = [line for line in plant.judged(OUTPUT).split("\n") if line.startswith("fn ")]
        self.assertEqual([line.endswith(": proved") for line in lines], [False, True, True, True])

    def test_other_lines_stay(self):
        self.assertIn("note: src/lib.rt:9:5: a clause (`returns`)\n", plant.judged(OUTPUT))


class Libraries(unittest.TestCase):
    def test_sources_of_crates_and_of_the_toolchain(self):
        with tempfile.TemporaryDirectory() as room:
            crates = crates_in("low: md5\nhigh: low hex\n", Path(room) / "crates")
            for _ in range(2):
                found = plant.library_folders(crates["high"], Path(room) / "room")
            self.assertEqual(sorted(found), ["hex", "low", "md5", "std"])
            self.assertEqual((Path(found["low"]) / "lang").readlink(), crates["low"].folder)


class Words(unittest.TestCase):
    def test_jobs(self):
        self.assertEqual(plant.jobs_in(["--only", "reads", "--jobs", "3"]), 3)
        self.assertGreaterEqual(plant.jobs_in([]), 1)


if __name__ == "__main__":
    unittest.main()
