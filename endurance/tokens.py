"""A sender that never receives the datagrams to the endpoint of its NEWs requests as many calls as it can. The exchange uses
no number and no memory for them, and carries the calls of that endpoint, which has the token, and of another peer."""
import time

from exchange import Exchange, plan_of, spare_ports, tell_accounts
from fill import Filler, carry_a_call
from iax_test.frames import FORMAT, element, new_data, new_frame
from iax_test.peers import Peer
from iax_test.protocol import ACCEPT, CALLTOKEN, Element

NUMBERS, NEWS, SHORT_NEWS = 512, 1_000_000, 40_000
# The limit on the growth of the program's resident memory, in kilobytes.
MOST = 4 * 1024


def new_of(source, token):
    """Returns a NEW, with this token behind the other elements; `None` for none."""
    return new_frame(source, new_data(b"8", FORMAT, b"" if token is None else element(Element.CALLTOKEN, token)))


def flood(port, worker, count, exchange):
    """Sends `count` NEWs: without a token, with invented ones, and with the empty one, which is answered. Returns the
    greatest resident memory."""
    most = 0
    sender = Filler(worker, port)
    for number in range(count):
        token = (None, b"%032x" % number, b"")[number % 3]
        sender.send_octets(new_of(number % 32000 + 1, token))
        if number % 64 == 0:
            # The exchange has to keep up, or its socket drops datagrams.
            time.sleep(0.001)
        if number % 10_000 == 0:
            most = max(most, exchange.kilobytes())
    sender.close()
    return max(most, exchange.kilobytes())


def call_with_a_token(peer):
    """Returns whether a NEW with the token in the answer to its empty one is accepted, and one with another endpoint's
    isn't answered."""
    peer.send_octets(new_of(7, b""))
    asked = peer.expect(lambda frame: (frame.kind, frame.destination) == (CALLTOKEN, 7), 5)
    token = asked and asked.element(Element.CALLTOKEN)
    if not token:
        return False, False, None
    peer.send_octets(new_of(7, token))
    accepted = peer.expect(lambda frame: (frame.kind, frame.destination) == (ACCEPT, 7), 5)
    return True, accepted is not None, token


def run(tools, report, seconds, seed):
    del seed
    count = tools.some(SHORT_NEWS) if seconds is None else tools.some(NEWS)
    names = ("worker", "forged", "other", "west", "east")
    ports = dict(zip(names, spare_ports(len(names))))
    peers = {
        "forged": {"port": ports["forged"], "numbers": NUMBERS, "call_token": True},
        "other": {"port": ports["other"], "call_token": True},
        "west": {"port": ports["west"]},
        "east": {"port": ports["east"]},
    }
    exchange = Exchange(tools.folder_of("tokens"), plan_of([ports["worker"]], peers, {"8": "east"}, format=4, retry_ms=500))
    west, east, other = (Peer(ports["worker"], ports[name]) for name in ("west", "east", "other"))
    forged = None
    try:
        before = exchange.kilobytes()
        most = flood(ports["forged"], ports["worker"], count, exchange)
        legs = len(exchange.legs())
        is_carried = carry_a_call(west, east)
        forged = Peer(ports["worker"], ports["forged"])
        is_given, is_accepted, token = call_with_a_token(forged)
        refusals = 'iax_datagrams_refused_total{peer="%s",refusal="NoToken"}'
        if token:
            other.send_octets(new_of(9, token))
        answered = other.expect(lambda it: True, 0.5)
        metrics = exchange.metrics()
        refused, strange = (metrics.get(refusals % it, 0) for it in ("forged", "other"))
        given = metrics.get('iax_datagrams_rejected_total{peer="forged",rejection="CallToken"}', 0)
        status, lines = exchange.stop()
    finally:
        for it in (west, east, other, forged):
            if it:
                it.close()
        exchange.kill()
    report.tell("NEWs without a token open no leg", legs == 0, news=count, refused=refused, tokens_given=given)
    report.tell("they are refused by name, and counted", refused > 0 and given > 0 and refused <= count, NoToken=refused)
    report.tell("they cost no memory", most - before < MOST, kilobytes_before=before, at_most=most)
    report.tell("a call of another peer is carried", is_carried)
    report.tell("who receives the token can call with it", is_given and is_accepted)
    report.tell("another endpoint can't", strange == 1 and answered is None, NoToken=strange)
    tell_accounts(report, "the exchange", status, lines, 0)
