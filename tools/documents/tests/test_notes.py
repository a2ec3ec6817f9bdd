"""Each call of a locked state that isn't noted is found."""
import sys
import unittest
from pathlib import Path

sys.path.insert(0, str(Path(__file__).resolve().parents[2]))

from documents.notes import unnoted_in  # noqa: E402

NOTED = """impl<J: LedgerSet> NotedPeer<J> {
    /// Returns the peer.
    pub fn number(&self) -> PeerId
        ensures { result ≡ self.now.number }
    {
        self.number
    }

    pub fn tick(&mut self, pass: &mut Pass<J>, now: u64) -> u64
        ensures noted { Notes (mades.Tick self.old.number now result) pass.old pass.new }
    {
        1
    }

    pub fn into_state(self) -> PeerState<J>
        ensures { result ≡ self.state }
    {
        self.state
    }
}
"""


class Notes(unittest.TestCase):
    def test_noted_calls(self):
        self.assertEqual(unnoted_in(NOTED), [])

    def test_call_without_its_note(self):
        spoilt = NOTED.replace("ensures noted {", "ensures made {")
        self.assertEqual(unnoted_in(spoilt), ["NotedPeer::tick"])

    def test_query_without_clauses(self):
        spoilt = NOTED.rstrip("}\n") + "    }\n\n    fn drains(&self) -> bool {\n        self.state.drains\n    }\n}\n"
        self.assertEqual(unnoted_in(spoilt), ["NotedPeer::drains"])

    def test_arguments_on_lines_of_their_own(self):
        head = "    pub fn forget<J: LedgerSet>(\n        &mut self,\n        name: LegName,\n    ) {\n"
        spoilt = f"impl NotedBook {{\n{head}    }}\n}}\n"
        self.assertEqual(unnoted_in(spoilt), ["NotedBook::forget"])

    def test_other_types(self):
        self.assertEqual(unnoted_in(NOTED.replace("NotedPeer", "Pass").replace("noted", "made")), [])


if __name__ == "__main__":
    unittest.main()
