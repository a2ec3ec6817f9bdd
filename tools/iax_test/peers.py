"""Peers of the exchange: UDP sockets of loopback, with the frames and the legs of a peer's calls."""
import select
import socket
import time

from .frames import FORMAT, FullFrame, is_full, new_data
from .ports import LOOPBACK
from .protocol import ACCEPT, ACK, ANSWER, NEW, REJECT, UNNUMBERED
from .waits import PATIENCE, within

# Octets that a datagram may have, and room for those that wait at a peer's socket.
LONGEST, ROOM = 4096, 1 << 22


class Leg:
    """A peer's end of a call: its number and the exchange's, and the counts of numbered frames that it sent and took.

    Frames are stamped by their place: 20 ms for each numbered frame before, and 3."""

    def __init__(self, peer, number, remote=0):
        self.peer, self.number, self.remote = peer, number, remote
        self.sent = self.taken = 0

    def packed(self, kind, data=b""):
        """Returns the octets of the next frame."""
        return FullFrame(self.number, self.remote, 20 * self.sent + 3, self.sent, self.taken, kind, data).packed()

    def send(self, kind, data=b""):
        """Sends the next frame."""
        octets = self.packed(kind, data)
        self.sent += kind not in UNNUMBERED
        self.peer.send_octets(octets)

    def is_next(self, frame):
        """Returns whether a numbered frame is the one to be taken."""
        return frame.oseq == self.taken % 256

    def take(self, frame):
        """Notes a frame as taken, so that the next frame sent acknowledges it."""
        self.remote, self.taken = frame.source, frame.oseq + 1

    def acknowledge(self, frame):
        """Takes a frame, and sends its ACK."""
        self.take(frame)
        self.send(ACK)

    def expect(self, kind, seconds=20):
        """Returns the next frame of this kind to this leg, or None after `seconds` seconds. Skips others."""
        found = self.peer.expect(lambda frame: (frame.kind, frame.destination) == (kind, self.number), seconds)
        if found and not self.remote:
            self.remote = found.source
        return found


class Peer:
    """A peer whose frames a check sends one by one.

    `frames` has the full frames that came and weren't used yet, and `legs` its legs by their numbers. `worker` is the port of
    the exchange; `port` is the peer's own, or 0 for one that the system chooses."""

    LEG = Leg
    # The number of the first leg that the peer opens.
    FIRST_NUMBER = 1

    def __init__(self, worker=None, port=0):
        self.socket = socket.socket(socket.AF_INET, socket.SOCK_DGRAM)
        self.socket.setsockopt(socket.SOL_SOCKET, socket.SO_RCVBUF, ROOM)
        self.socket.bind((LOOPBACK, port))
        self.socket.setblocking(False)
        self.port = self.socket.getsockname()[1]
        self.exchange = (LOOPBACK, worker)
        self.frames, self.legs = [], {}

    def close(self):
        """Closes the socket."""
        self.socket.close()

    def send_octets(self, octets):
        """Sends a datagram to the exchange."""
        self.socket.sendto(octets, self.exchange)

    def send(self, worker, source, destination, timestamp, oseq, iseq, kind, data=b""):
        """Sends a full frame with these fields to a port of the exchange."""
        self.socket.sendto(FullFrame(source, destination, timestamp, oseq, iseq, kind, data).packed(), (LOOPBACK, worker))

    def receive(self, seconds=0):
        """Returns the next datagram, or None if none comes within `seconds` seconds."""
        if seconds and not select.select([self.socket], [], [], seconds)[0]:
            return None
        try:
            return self.socket.recv(LONGEST)
        except (BlockingIOError, ConnectionError):
            return None

    def listen(self, seconds=0):
        """Takes all datagrams that wait; waits at most `seconds` seconds for the first."""
        octets = self.receive(seconds)
        while octets is not None:
            self.take(octets)
            octets = self.receive()

    def listen_until_quiet(self, seconds=0.05):
        """Takes datagrams until none has come for `seconds` seconds."""
        while (octets := self.receive(seconds)) is not None:
            self.take(octets)

    def take(self, octets):
        """Handles a datagram: keeps a full frame."""
        if is_full(octets):
            self.frames.append(FullFrame.read(octets))

    def frame(self, what, kind):
        """Waits for a frame of this kind, and returns the last one. Keeps all frames."""

        def look():
            self.listen_until_quiet()
            return next((frame for frame in reversed(self.frames) if frame.kind == kind), None)

        return within(f"{what} at a peer", PATIENCE, look)

    def expect(self, fits, seconds=20):
        """Returns the next frame for which `fits` is true, or None after `seconds` seconds. Drops those before it."""
        end = time.monotonic() + seconds
        while True:
            for place, frame in enumerate(self.frames):
                if fits(frame):
                    del self.frames[: place + 1]
                    return frame
            self.frames.clear()
            if time.monotonic() > end:
                return None
            self.listen(0.05)

    def open(self, remote=0, number=None):
        """Opens a leg, with the exchange's number if that is known. Its own number follows the greatest one unless it is
        given."""
        if number is None:
            number = max([self.FIRST_NUMBER - 1, *self.legs]) + 1
        self.legs[number] = self.LEG(self, number, remote)
        return self.legs[number]

    def call(self, called, *elements, number=None):
        """Calls a number by a NEW, with these elements behind it, or with the format alone. Returns the leg."""
        leg = self.open(number=number)
        leg.send(NEW, new_data(called, *(elements or (FORMAT,))))
        return leg

    def called(self, seconds=20):
        """Receives a call. Returns its leg and the NEW, or None for both after `seconds` seconds."""
        new = self.expect(lambda frame: frame.kind == NEW, seconds)
        if not new:
            return None, None
        leg = self.open(new.source)
        leg.take(new)
        return leg, new

    def call_rejected(self, worker, source, data):
        """Calls by a NEW with these elements, waits for its REJECT, and acknowledges that."""
        self.frames.clear()
        self.send(worker, source, 0, 0, 0, 0, NEW, data)
        reject = self.frame("REJECT", REJECT)
        self.send(worker, source, reject.source, 9, 1, reject.oseq + 1, ACK)


class AnsweringPeer(Peer):
    """A peer that accepts and answers each call, and acknowledges each frame that comes in its order."""

    def take(self, octets):
        if is_full(octets):
            self.take_frame(FullFrame.read(octets))

    def take_frame(self, frame):
        """Handles a full frame. Drops one that takes no sequence number, or comes out of order."""
        leg = self.leg_of(frame)
        if leg is not None and frame.is_numbered and leg.is_next(frame):
            leg.take(frame)
            self.answer(leg, frame)

    def leg_of(self, frame):
        """Returns the leg of a frame, or None. A NEW opens one, unless the exchange's number has one."""
        if frame.kind != NEW:
            return self.legs.get(frame.destination)
        known = (leg for leg in self.legs.values() if leg.remote == frame.source)
        return next(known, None) or self.open(frame.source)

    def answer(self, leg, frame):
        """Sends what answers a frame that was taken."""
        if frame.kind == NEW:
            leg.send(ACCEPT, FORMAT)
            leg.send(ANSWER)
        else:
            leg.send(ACK)
