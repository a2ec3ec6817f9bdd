"""Peers that fall silent in each stage of a call: which event frees the numbers of their legs, and when, compared with
docs/SECURITY.md."""
import time

from exchange import Exchange, plan_of, spare_ports, tell_accounts
from iax_test.frames import FORMAT
from iax_test.peers import Peer
from iax_test.protocol import ACCEPT, ANSWER, AUTHREQ, HANGUP, PING, PONG, digit_kind
from iax_test.waits import Failed

RETRY, RETRIES, PING_MS = 200, 2, 1000
# A frame without an acknowledgement ends its leg after this time, in milliseconds.
SPENT = RETRY * (RETRIES + 1)
# The delay that a busy machine may add, and how much earlier than computed an event may be seen.
LATE, EARLY = 6000, 150


class Place:
    """An exchange with two peers, or three: `guarded` has a secret. Nobody else sends here."""

    def __init__(self, folder, ping_ms=PING_MS):
        ports = spare_ports(4)
        peers = {
            "west": {"port": ports[1], "numbers": 4},
            "east": {"port": ports[2], "numbers": 4},
            "guarded": {"port": ports[3], "numbers": 4, "user": "guarded", "secret": "a secret"},
        }
        plan = plan_of(ports[:1], peers, {"2": "east"}, retry_ms=RETRY, max_retries=RETRIES, ping_ms=ping_ms)
        self.exchange = Exchange(folder, plan)
        self.west, self.east, self.guarded = (Peer(ports[0], it) for it in ports[1:])

    def end(self):
        for it in (self.west, self.east, self.guarded):
            it.close()
        return self.exchange.stop()

    def legs(self):
        return {it["number"]: (it["peer"], it["stage"]) for it in self.exchange.legs()}

    def linked(self, answers=True):
        """Sets up a call from the west to the east, which accepts and answers it. All frames are acknowledged."""
        west = self.west.call(b"200")
        east, _ = self.east.called()
        if not east:
            raise Failed("no call came to the east")
        east.send(ACCEPT, FORMAT)
        accepted = west.expect(ACCEPT)
        west.acknowledge(accepted)
        if answers:
            east.send(ANSWER)
            west.acknowledge(west.expect(ANSWER))
        self.until({"Up"} if answers else {"Linked"})
        return west, east

    def until(self, stages):
        end = time.monotonic() + 20
        while time.monotonic() < end:
            if {stage for _, stage in self.legs().values()} == stages:
                return
            time.sleep(0.02)
        raise Failed(f"the legs are {self.legs()}, not {stages}")


def freed_after(place, most):
    """Returns the milliseconds until no leg is left, or None if some are left after the limit."""
    begun = time.monotonic()
    while (elapsed := (time.monotonic() - begun) * 1000) < most + LATE:
        if not place.legs():
            return elapsed
        time.sleep(0.02)
    return None


def tell_freed(report, what, place, least, most):
    """Reports whether the numbers are free after this number of milliseconds, as the plan sets it."""
    found = freed_after(place, most)
    is_kept = found is not None and least - EARLY <= found <= most + LATE
    seen = "never" if found is None else f"after {found:.0f} ms"
    report.tell(f"silent {what}: its numbers come free", is_kept, seen, f"reckoned {least} to {most} ms")


def tell_kept(report, what, place, wanted, milliseconds):
    """Reports whether the legs are still there after this time; then an order hangs them up."""
    time.sleep(milliseconds / 1000)
    found = sorted(place.legs().values())
    report.tell(f"silent {what}: it keeps its number, as is said", found == wanted, f"after {milliseconds} ms", found)
    for number in place.legs():
        place.exchange.ask("DELETE", f"/calls/{number}")
    tell_freed(report, f"{what}, hung up by an order", place, 0, 2 * SPENT)


def tell_hung_up(report, what, place, west):
    """Reports whether the caller of a silent peer is hung up once frames to that peer are spent, and is free once it
    acknowledges the HANGUP."""
    begun = time.monotonic()
    hangup = west.expect(HANGUP)
    elapsed = (time.monotonic() - begun) * 1000
    report.tell(
        f"silent {what}: the caller is hung up", hangup is not None, f"after {elapsed:.0f} ms", f"reckoned about {SPENT} ms"
    )
    west.acknowledge(hangup)
    tell_freed(report, what, place, 0, RETRY)


def after_new(report, place):
    place.west.call(b"299")
    place.until({"Linked", "Waiting"})
    tell_freed(report, "after NEW (both sides)", place, SPENT, 2 * SPENT + RETRY)


def after_new_at_the_called(report, place):
    west = place.west.call(b"200")
    west.acknowledge(west.expect(ACCEPT))
    tell_hung_up(report, "when called", place, west)


def acknowledged_call(place):
    """Places a call whose ACCEPT and NEW are acknowledged. Returns the caller's leg."""
    west = place.west.call(b"200")
    west.acknowledge(west.expect(ACCEPT))
    east, new = place.east.called()
    east.acknowledge(new)
    return west


def after_the_first_acknowledgement(report, place):
    """The called peer acknowledges the NEW and then sends nothing."""
    acknowledged_call(place)
    tell_freed(report, "after its ACK of NEW, the caller too", place, PING_MS + SPENT, PING_MS + 2 * SPENT + 2 * RETRY)


def after_the_first_acknowledgement_alone(report, place):
    """The same, while the caller continues and answers each PING: only frames end it."""
    west = acknowledged_call(place)
    end = time.monotonic() + (3 * SPENT + PING_MS) / 1000
    while time.monotonic() < end:
        if ping := west.expect(PING, 0.2):
            west.take(ping)
            west.send(PONG)
    found = sorted(place.legs().values())
    report.tell(
        "silent after its ACK of NEW, the caller waits: both numbers are kept",
        found == [("east", "Waiting"), ("west", "Linked")], found,
    )
    west.send(HANGUP)
    tell_freed(report, "after its ACK of NEW, once the caller hangs up", place, SPENT, SPENT + RETRY)


def after_authreq(report, place):
    place.guarded.call(b"200")
    place.until({"Challenged"})
    tell_freed(report, "after AUTHREQ", place, SPENT, SPENT + RETRY)


def after_an_acknowledged_authreq(report, place):
    leg = place.guarded.call(b"200")
    leg.acknowledge(leg.expect(AUTHREQ))
    tell_kept(report, "after its ACK of AUTHREQ", place, [("guarded", "Challenged")], 3 * SPENT + PING_MS)


def after_accept(report, place):
    place.linked(answers=False)
    tell_freed(report, "after ACCEPT (both sides)", place, PING_MS // 2 + SPENT, PING_MS + 2 * SPENT + 2 * RETRY)


def after_answer(report, place):
    place.linked()
    tell_freed(report, "after ANSWER (both sides)", place, PING_MS // 2 + SPENT, PING_MS + 2 * SPENT + 2 * RETRY)


def after_hangup(report, place):
    west, _ = place.linked()
    west.send(HANGUP)
    tell_freed(report, "after HANGUP (both sides)", place, SPENT, SPENT + RETRY)


def in_the_middle_of_a_window(report, place):
    """The west sends digits, and the east acknowledges three of eight. Then it is silent, and the west follows the protocol."""
    west, east = place.linked()
    for digit in b"12345678":
        west.send(digit_kind(digit))
    for digit in b"123":
        east.acknowledge(east.expect(digit_kind(digit)))
    tell_hung_up(report, "in the middle of a window", place, west)


def without_pings(tools, report):
    """Without PINGs a call that is up stays up, whichever peer is silent."""
    place = Place(tools.folder_of("silence_without_pings"), ping_ms=0)
    try:
        place.linked()
        tell_kept(report, "on a call that is up, without PINGs", place, [("east", "Up"), ("west", "Up")], 3 * SPENT)
        place.end()
    finally:
        place.exchange.kill()


def run(tools, report, seconds, seed):
    place = Place(tools.folder_of("silence"))
    try:
        for stage in (
            after_new, after_new_at_the_called, after_the_first_acknowledgement,
            after_the_first_acknowledgement_alone, after_authreq, after_an_acknowledged_authreq,
            after_accept, after_answer, after_hangup, in_the_middle_of_a_window,
        ):
            stage(report, place)
            place.until(set())
            for it in (place.west, place.east, place.guarded):
                it.listen(0.05)
                it.frames.clear()
        peers = place.exchange.peers()
        used = (f"{name} {it['legs']} of {it['numbers']}" for name, it in peers.items())
        report.tell("no number is in use at the end", all(it["legs"] == 0 for it in peers.values()), *used)
        status, lines = place.end()
    finally:
        place.exchange.kill()
    without_pings(tools, report)
    tell_accounts(report, "the exchange", status, lines, least=0)
