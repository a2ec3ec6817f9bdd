"""The way between two exchanges."""
import collections
import select
import socket
import threading
import time

from .frames import FullFrame, is_full
from .peers import LONGEST
from .ports import LOOPBACK


class Link(threading.Thread):
    """The way between two exchanges. Each has one of its two ends, a socket, for its peer, and `workers` has the port of each.
    What one exchange sends to its end comes from the other's end `delay` seconds later. `frames` has the full frames that
    passed."""

    def __init__(self, workers, delay):
        super().__init__(daemon=True)
        self.workers, self.delay, self.frames, self.is_over = workers, delay, [], False
        self.ends = [socket.socket(socket.AF_INET, socket.SOCK_DGRAM) for _ in workers]
        for end in self.ends:
            end.bind((LOOPBACK, 0))
        self.ports = [end.getsockname()[1] for end in self.ends]
        self.waiting = collections.deque()

    def run(self):
        while not self.is_over:
            for end in select.select(self.ends, [], [], 0.002)[0]:
                octets = end.recv(LONGEST)
                if is_full(octets):
                    self.frames.append(FullFrame.read(octets))
                self.waiting.append((time.monotonic() + self.delay, 1 - self.ends.index(end), octets))
            while self.waiting and self.waiting[0][0] <= time.monotonic():
                _, place, octets = self.waiting.popleft()
                self.ends[place].sendto(octets, (LOOPBACK, self.workers[place]))

    def end(self):
        """Ends the thread, and closes both ends."""
        self.is_over = True
        self.join()
        for end in self.ends:
            end.close()
