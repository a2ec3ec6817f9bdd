"""Tests of frames.py. The octets are written out by the layouts of RFC 5456."""
import unittest

import support  # noqa: F401
from iax_test import frames
from iax_test.frames import CAPABILITY, FORMAT, FullFrame, element, new_data
from iax_test.protocol import ACCEPT, ACK, AUTHREQ, NEW, Element

NEW_TO_300 = bytes.fromhex("8001 0000 00000000 00 00 06 01 0b020002 0103333030 090400000004 080400000004")
ACCEPTED = bytes.fromhex("8009 8005 0000000d 01 02 06 07 090400000004")


class FullFrames(unittest.TestCase):
    """Full frames, built and read."""

    def test_new(self):
        self.assertEqual(frames.new_frame(1, new_data(b"300", FORMAT, CAPABILITY)), NEW_TO_300)

    def test_fields(self):
        read = FullFrame.read(ACCEPTED)
        self.assertEqual(read, FullFrame(9, 5, 13, 1, 2, ACCEPT, FORMAT, is_retransmitted=True))
        self.assertEqual(read.packed(), ACCEPTED)

    def test_large_numbers_are_reduced(self):
        packed = FullFrame(9, 5, 2**32 + 13, 257, 258, ACCEPT, FORMAT, is_retransmitted=True).packed()
        self.assertEqual(packed, ACCEPTED)

    def test_what_is_full(self):
        self.assertTrue(frames.is_full(ACCEPTED))
        self.assertFalse(frames.is_full(ACCEPTED[:11]))
        self.assertFalse(frames.is_full(b"\x00" + ACCEPTED[1:]))
        self.assertFalse(frames.is_full(b""))

    def test_kind_of_a_datagram(self):
        self.assertTrue(frames.is_of(ACCEPTED, ACCEPT))
        self.assertFalse(frames.is_of(ACCEPTED, NEW))
        self.assertFalse(frames.is_of(ACCEPTED[:11], ACCEPT))

    def test_sequence_numbers(self):
        self.assertTrue(FullFrame(1, 2, 0, 0, 0, AUTHREQ).is_numbered)
        self.assertFalse(FullFrame(1, 2, 0, 0, 0, ACK).is_numbered)

    def test_sent_again_to_a_number(self):
        again = frames.retransmitted(NEW_TO_300, 5)
        self.assertEqual(again, bytes.fromhex("80018005") + NEW_TO_300[4:])

    def test_sent_again_with_another_iseq(self):
        again = frames.retransmitted(ACCEPTED, 5, 259)
        self.assertEqual(again, ACCEPTED[:9] + b"\x03" + ACCEPTED[10:])

    def test_sent_again_before_the_number_is_known(self):
        self.assertEqual(frames.retransmitted(NEW_TO_300, 0), NEW_TO_300)


class Elements(unittest.TestCase):
    """Information elements."""

    def frame(self, data):
        """Returns a frame with these elements."""
        return FullFrame(1, 2, 0, 0, 0, NEW, data)

    def test_found(self):
        self.assertEqual(FullFrame.read(NEW_TO_300).element(Element.CALLED_NUMBER), b"300")

    def test_first_of_two(self):
        data = element(Element.USERNAME, b"one") + element(Element.USERNAME, b"two")
        self.assertEqual(self.frame(data).element(Element.USERNAME), b"one")

    def test_empty(self):
        self.assertEqual(self.frame(element(Element.CALLTOKEN)).element(Element.CALLTOKEN), b"")

    def test_absent(self):
        self.assertIsNone(FullFrame.read(NEW_TO_300).element(Element.USERNAME))
        self.assertIsNone(self.frame(b"\x06").element(Element.USERNAME))

    def test_cause(self):
        self.assertEqual(frames.cause_code(17), bytes.fromhex("2a0111"))

    def test_challenge(self):
        self.assertEqual(frames.challenge_data(b"12"), bytes.fromhex("0e020002 0f023132"))

    def test_answer(self):
        # The digest of "abc" is one of RFC 1321.
        digest = "900150983cd24fb0d6963f7d28e17f72"
        self.assertEqual(frames.md5_result(b"a", b"bc"), digest.encode())
        self.assertEqual(frames.answer_to(b"a", b"bc"), b"\x10\x20" + digest.encode())


class Media(unittest.TestCase):
    """Mini frames and trunk frames."""

    def test_mini_frame(self):
        octets = bytes.fromhex("0007 0030 aabbcc")
        self.assertEqual(frames.mini_frame(7, 2**16 + 48, b"\xaa\xbb\xcc"), octets)
        self.assertEqual(frames.media_of_mini(octets), b"\xaa\xbb\xcc")

    def test_no_media_of_a_full_frame(self):
        self.assertIsNone(frames.media_of_mini(ACCEPTED))

    def test_trunk_frame(self):
        octets = bytes.fromhex("0000 01 00 00000064 0007 0002 aabb 0008 0001 cc")
        self.assertEqual(frames.trunk_frame(100, [(7, b"\xaa\xbb"), (8, b"\xcc")]), octets)

    def test_media_of_a_trunk_frame(self):
        octets = bytes.fromhex("0000 01 01 00000064 0002 0007 0030 aabb 0001 0008 0030 cc")
        self.assertEqual(frames.media_of_trunk(octets), [b"\xaa\xbb", b"\xcc"])
        self.assertEqual(frames.media_of_trunk(ACCEPTED), [])


if __name__ == "__main__":
    unittest.main()
