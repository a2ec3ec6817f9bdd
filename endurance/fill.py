"""A sender without the secret opens as many calls as may wait for its answer, again and again, and fills each with the longest
full frames. The exchange keeps little of it, reports why it ends those legs, and carries the call of another peer."""
import time
from collections import Counter

from exchange import Exchange, plan_of, rows_of, spare_ports, tell_accounts
from iax_test.frames import FORMAT, FullFrame, is_full, new_data, new_frame
from iax_test.peers import Peer
from iax_test.protocol import ACCEPT, ACK, ANSWER, AUTHREQ, TEXT, VNAK

NUMBERS, LONGEST = 512, 1388
# Legs that wait for the answer to a challenge have at most half of the numbers.
WAITING = NUMBERS // 2
# The limit on the program's resident memory, in kilobytes.
MOST = 64 * 1024
# The number of full frames that a leg sends ahead of the exchange's acknowledgements.
AHEAD = 8


class Filler(Peer):
    """The sender: a call for each number that may wait, over one socket."""

    def __init__(self, worker, port):
        super().__init__(worker, port)
        self.socket.connect(self.exchange)
        # By this sender's number: the exchange's, the number of frames sent, and of those that were taken.
        self.calls, self.next, self.count = {}, 0, Counter()

    def send_octets(self, octets):
        try:
            self.socket.send(octets)
        except (BlockingIOError, ConnectionRefusedError):
            return
        self.count["sent"] += 1

    def open_next(self):
        self.next = self.next % 32000 + 1
        self.send_octets(new_frame(self.next, new_data(b"3", FORMAT)))

    def take(self, octets):
        if not is_full(octets):
            return
        frame = FullFrame.read(octets)
        ours, theirs = frame.destination, frame.source
        if frame.kind == AUTHREQ:
            if ours not in self.calls:
                self.count["challenges"] += 1
            self.calls.setdefault(ours, [theirs, 1, 1])
            self.send_octets(FullFrame(ours, theirs, 0, 1, 1, ACK).packed())
        elif ours in self.calls:
            call = self.calls[ours]
            if frame.kind not in (ACK, VNAK):
                # It is over: an INVAL, or another end.
                del self.calls[ours]
                return
            call[2] += (frame.iseq - call[2]) % 256
            if frame.kind == VNAK:
                # A socket dropped the frame that it asks for: that one and those behind it are sent again.
                call[1] = call[2]

    def fill(self):
        for ours, call in list(self.calls.items()):
            theirs, _, taken = call
            while call[1] < taken + AHEAD:
                self.send_octets(FullFrame(ours, theirs, 0, call[1], 1, TEXT, bytes(LONGEST)).packed())
                call[1] += 1

    def run(self, exchange, seconds):
        """Returns the greatest resident memory in that time, in kilobytes."""
        end, most, looked = time.monotonic() + seconds, 0, 0
        while time.monotonic() < end:
            for _ in range(max(0, min(16, WAITING - len(self.calls)))):
                self.open_next()
            self.listen()
            self.fill()
            if time.monotonic() > looked + 0.1:
                looked, most = time.monotonic(), max(most, exchange.kilobytes())
                # A leg that was filled to the end gets no answer any more.
                self.calls = {ours: it for ours, it in self.calls.items() if it[1] < it[2] + AHEAD}
        return most


def carry_a_call(west, east):
    """Sets up a call between two other peers. Returns whether it is answered."""
    caller = west.call(b"8")
    callee, new = east.called(5)
    if not new:
        return False
    callee.acknowledge(new)
    callee.send(ACCEPT, FORMAT)
    if not (accepted := caller.expect(ACCEPT, 5)):
        return False
    caller.acknowledge(accepted)
    callee.send(ANSWER)
    return caller.expect(ANSWER, 5) is not None


def run(tools, report, seconds, seed):
    del seed
    lasts = 4 if seconds is None else seconds
    names = ("worker", "filler", "west", "east")
    ports = dict(zip(names, spare_ports(len(names))))
    peers = {
        "filler": {"port": ports["filler"], "user": "filler", "secret": "unknown to whoever sends", "numbers": NUMBERS},
        "west": {"port": ports["west"]},
        "east": {"port": ports["east"]},
    }
    folder = tools.folder_of("fill")
    plan = plan_of(
        [ports["worker"]], peers, {"8": "east"}, format=4, challenge_ms=1000 if seconds is None else None, retry_ms=500
    )
    exchange = Exchange(folder, plan, "--calls", f"{folder}/calls.csv")
    filler = Filler(ports["worker"], ports["filler"])
    west, east = Peer(ports["worker"], ports["west"]), Peer(ports["worker"], ports["east"])
    try:
        before = exchange.kilobytes()
        most = filler.run(exchange, lasts)
        is_carried = carry_a_call(west, east)
        refused = exchange.metrics().get('iax_datagrams_refused_total{peer="filler",refusal="RecordFull"}', 0)
        exchange.until_idle()
        after = exchange.kilobytes()
        status, lines = exchange.stop()
    finally:
        for it in (filler, west, east):
            it.close()
        exchange.kill()
    endings = Counter(it["ending"] for it in rows_of(f"{folder}/calls.csv") if it["peer"] == "filler")
    report.tell(
        "what isn't authenticated holds little", most < MOST, kilobytes_before=before, at_most=most, after=after,
        calls=filler.count["challenges"], frames=filler.count["sent"],
    )
    report.tell("full frames beyond the bound are refused by name", refused > 0, RecordFull=refused)
    is_told = endings["record_full"] > 0 and set(endings) <= {"record_full", "challenge_timeout", "retries_spent"}
    report.tell("the records say why such legs end", is_told, **endings)
    report.tell("a call of another peer is carried", is_carried)
    tell_accounts(report, "the exchange", status, lines, 0)
