"""Tests of protocol.py."""
import unittest

import support  # noqa: F401
from iax_test import protocol
from iax_test.protocol import ACK, ANSWER, CALLTOKEN, HANGUP, INVAL, NEW, TXACC, TXCNT, UNNUMBERED, VNAK, VOICE, Kind, digit_kind


class Kinds(unittest.TestCase):
    """The codes of full frames."""

    def test_codes(self):
        kinds = (NEW, HANGUP, CALLTOKEN, ANSWER, VOICE, digit_kind(ord("5")))
        self.assertEqual([bytes(kind).hex() for kind in kinds], ["0601", "0605", "0628", "0404", "0204", "0135"])

    def test_no_two_are_the_same(self):
        kinds = [kind for kind in vars(protocol).values() if isinstance(kind, Kind)]
        self.assertEqual(len(kinds), len(set(kinds)))

    def test_frames_without_a_sequence_number(self):
        self.assertEqual(UNNUMBERED, {ACK, INVAL, VNAK, TXCNT, TXACC})


if __name__ == "__main__":
    unittest.main()
