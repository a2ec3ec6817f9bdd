"""Tests of peers.py. Another peer plays the exchange."""
import unittest

import support  # noqa: F401
from iax_test.frames import FORMAT, FullFrame, element, mini_frame, new_data
from iax_test.peers import AnsweringPeer, Peer
from iax_test.protocol import ACCEPT, ACK, ANSWER, HANGUP, NEW, PING, REJECT, Element


class Pair(unittest.TestCase):
    """A peer, and another in place of the exchange."""

    PEER = Peer

    def setUp(self):
        self.exchange = Peer()
        self.peer = self.PEER(self.exchange.port)
        self.exchange.exchange = ("127.0.0.1", self.peer.port)
        self.addCleanup(self.exchange.close)
        self.addCleanup(self.peer.close)

    def give(self, *fields):
        """Sends a full frame with these fields to the peer."""
        self.exchange.send_octets(FullFrame(*fields).packed())

    def sent(self):
        """Returns the full frames that the peer has sent."""
        self.exchange.frames.clear()
        self.exchange.listen_until_quiet(0.1)
        return self.exchange.frames


class Scripted(Pair):
    """A peer whose frames are sent one by one."""

    def test_call(self):
        leg = self.peer.call(b"300")
        self.assertEqual(self.sent(), [FullFrame(1, 0, 3, 0, 0, NEW, new_data(b"300", FORMAT))])
        self.assertEqual((leg.number, leg.sent, leg.taken), (1, 1, 0))

    def test_call_with_elements(self):
        named = element(Element.USERNAME, b"one")
        self.peer.call(b"300", named, number=7)
        self.assertEqual(self.sent(), [FullFrame(7, 0, 3, 0, 0, NEW, new_data(b"300", named))])

    def test_numbers_follow_each_other(self):
        numbers = [self.peer.open().number, self.peer.open(number=6).number, self.peer.open().number]
        self.assertEqual(numbers, [1, 6, 7])

    def test_acknowledge(self):
        leg = self.peer.call(b"300")
        self.give(9, 1, 5, 0, 1, ACCEPT)
        accepted = leg.expect(ACCEPT, 1)
        self.sent()
        leg.acknowledge(accepted)
        self.assertEqual(self.sent(), [FullFrame(1, 9, 23, 1, 1, ACK)])
        self.assertEqual((leg.remote, leg.sent, leg.taken), (9, 1, 1))

    def test_expect_skips_other_frames(self):
        leg = self.peer.open(9)
        self.give(9, 1, 0, 0, 0, PING)
        self.give(9, 2, 0, 0, 0, ANSWER)
        self.give(9, 1, 0, 1, 0, ANSWER)
        self.assertEqual(leg.expect(ANSWER, 1).oseq, 1)
        self.assertEqual(self.peer.frames, [])

    def test_expect_ends(self):
        self.assertIsNone(self.peer.expect(lambda frame: True, 0))

    def test_called(self):
        self.give(9, 0, 0, 0, 0, NEW)
        leg, new = self.peer.called(1)
        self.assertEqual((leg.number, leg.remote, leg.taken, new.kind), (1, 9, 1, NEW))

    def test_not_called(self):
        self.assertEqual(self.peer.called(0), (None, None))

    def test_last_frame_of_a_kind(self):
        for place in range(3):
            self.give(9, 1, place, place, 0, (PING, ANSWER, PING)[place])
        self.assertEqual(self.peer.frame("a PING", PING).oseq, 2)
        self.assertEqual(len(self.peer.frames), 3)

    def test_call_rejected(self):
        self.give(9, 7, 0, 4, 1, REJECT)
        self.peer.frames.append("a frame of before")
        self.peer.call_rejected(self.exchange.port, 7, new_data(b"9"))
        self.assertEqual(self.sent(), [FullFrame(7, 0, 0, 0, 0, NEW, new_data(b"9")), FullFrame(7, 9, 9, 1, 5, ACK)])

    def test_media_is_no_frame(self):
        self.exchange.send_octets(mini_frame(9, 0, b"abc"))
        self.peer.listen_until_quiet(0.1)
        self.assertEqual(self.peer.frames, [])

    def test_nothing_comes(self):
        self.assertIsNone(self.peer.receive())
        self.assertIsNone(self.peer.receive(0.01))


class Answering(Pair):
    """A peer that answers each call."""

    PEER = AnsweringPeer

    def handled(self, *frames):
        """Has the peer handle frames. Returns what it sends for them, as numbers and kinds."""
        for fields in frames:
            self.give(*fields)
        self.peer.listen_until_quiet(0.1)
        return [(frame.source, frame.destination, frame.oseq, frame.iseq, frame.kind) for frame in self.sent()]

    def test_call(self):
        answers = [(1, 9, 0, 1, ACCEPT), (1, 9, 1, 1, ANSWER)]
        self.assertEqual(self.handled((9, 0, 0, 0, 0, NEW)), answers)

    def test_repeated_call(self):
        self.handled((9, 0, 0, 0, 0, NEW))
        self.assertEqual(self.handled((9, 0, 0, 0, 0, NEW)), [])
        self.assertEqual([*self.peer.legs], [1])

    def test_next_frame(self):
        self.handled((9, 0, 0, 0, 0, NEW))
        self.assertEqual(self.handled((9, 1, 20, 1, 2, HANGUP)), [(1, 9, 2, 2, ACK)])

    def test_frames_that_are_dropped(self):
        self.handled((9, 0, 0, 0, 0, NEW))
        out_of_order, unnumbered, of_no_leg = (9, 1, 20, 2, 2, PING), (9, 1, 20, 1, 2, ACK), (9, 5, 20, 1, 2, PING)
        self.assertEqual(self.handled(out_of_order, unnumbered, of_no_leg), [])


if __name__ == "__main__":
    unittest.main()
