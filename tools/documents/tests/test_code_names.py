"""Tests of the look at the crates that claim that a request for memory was refused."""
import sys
import unittest
from pathlib import Path

sys.path.insert(0, str(Path(__file__).resolve().parents[2]))

from documents.code_names import check_witness, faults_of_witness  # noqa: E402

LINES = "memory_refusals:\nmemory_requests: circular_buffer memory_refusals\ncall_book: memory_requests\n"
SHUT = {
    "memory_refusals/specs/Refused.antt": "pub WasRefused : Type 0\nWasRefused = Unit {0}\n",
    "memory_requests/specs/Refused.antt": "-- The fact.\npub use Rattle.memory_refusals.specs.Refused.{WasRefused}\n",
    "memory_requests/proofs/requests/push/Answers.antt": "use Rattle.memory_refusals.specs.Refused.{asked_in_vain}\n",
    "call_book/specs/Book.antt": "-- memory_refusals is named in a comment alone\n"
    "use Rattle.memory_requests.specs.Refused.{WasRefused}\n",
}


class Witness(unittest.TestCase):
    def faults(self, path, text):
        """Returns the faults with this file beside the others."""
        return faults_of_witness(LINES, {**SHUT, path: text})

    def assert_found(self, path, text):
        self.assertEqual(self.faults(path, text), [f"{path} names memory_refusals"])

    def test_this_repository(self):
        self.assertEqual(check_witness(None), [])

    def test_nothing_is_found_where_all_is_shut(self):
        self.assertEqual(faults_of_witness(LINES, SHUT), [])

    def test_a_dependency(self):
        lines = LINES.replace("call_book: memory_requests", "call_book: memory_requests memory_refusals")
        self.assertEqual(faults_of_witness(lines, SHUT), ["call_book depends on memory_refusals"])

    def test_a_name(self):
        self.assert_found("call_book/proofs/Laws.antt", "use Rattle.memory_refusals.specs.Refused.{asked_in_vain}\n")

    def test_an_alias(self):
        self.assert_found("call_book/proofs/Laws.antt", "use Rattle.memory_refusals.specs.Refused.{asked_in_vain as granted}\n")
        self.assert_found("call_book/proofs/Laws.antt", "use Rattle as R\nuse R.memory_refusals.specs as Facts\n")

    def test_a_whole_module(self):
        self.assert_found("call_book/proofs/Laws.antt", "use Rattle.memory_refusals.specs.Refused\n")
        self.assert_found("call_book/proofs/Laws.antt", "law = package.Rattle.memory_refusals.specs.Refused.asked_in_vain\n")

    def test_a_name_passed_on(self):
        passed = SHUT["memory_requests/specs/Refused.antt"]
        more = passed.replace("{WasRefused}", "{WasRefused, asked_in_vain}")
        self.assert_found("memory_requests/specs/Refused.antt", more)
        self.assert_found("memory_requests/specs/Refused.antt", passed + "pub use Rattle.memory_refusals.specs as Facts\n")
        self.assert_found("memory_requests/specs/Requests.antt", "pub use Rattle.memory_refusals.specs.Refused.{asked_in_vain}\n")
        self.assert_found("memory_requests/proofs/Laws.antt", "use Rattle.memory_refusals.specs.Refused.{asked_in_vain}\n")

    def test_a_split_line(self):
        self.assert_found("call_book/proofs/Laws.antt", "use\n    Rattle.memory_refusals.specs.Refused.{\n    asked_in_vain\n}\n")
        split = "pub use Rattle.memory_refusals\n    .specs.Refused.{WasRefused as shut,\n    asked_in_vain}\n"
        self.assert_found("memory_requests/specs/Refused.antt", split)

    def test_a_fact_that_others_unfold(self):
        path = "memory_refusals/specs/Refused.antt"
        for word in ("unfoldable", "abbrev"):
            faults = self.faults(path, f"{word} {SHUT[path]}")
            self.assertEqual(faults, ["memory_refusals doesn't keep WasRefused shut"])


if __name__ == "__main__":
    unittest.main()
