"""Floods of twelve kinds, one after another, each as fast as a worker takes it. Two calls of other peers have the same worker.
They lose nothing but media that a full socket dropped, and the delay of their media is measured."""
import time
from collections import Counter
from typing import NamedTuple

from exchange import PATIENCE, Exchange, ended, plan_of, spare_ports, tell_accounts
from flood import tell_lost_media
from two_sites import tell_calls, tell_media

WEST, EAST, FAR = "81", "82", "9"
# The length of each part of a short run in seconds, and the most datagrams a second there.
SHORT, SHORT_RATE = 0.5, 20_000
STRANGER = "stranger"
# The age of metrics at most, in seconds: the exchange makes them once a second.
OLDEST = 1.1
# The row of the calls without a flood.
ALONE = "none"
# The latencies of the calls' media in milliseconds, with the names that `calls` has for them.
LATENCIES = {"p50": "p50_us", "p99": "p99_us", "p99.9": "p999_us", "longest": "longest_us"}


def sample(metric, **labels):
    """Returns the name of a metric's sample with these labels."""
    pairs = ",".join(f'{name}="{value}"' for name, value in labels.items())
    return f"iax_{metric}_total{{{pairs}}}"


def refused(name, peer="flood"):
    """Returns the sample of a refusal."""
    return sample("datagrams_refused", peer=peer, refusal=name)


def sent_to(peer="flood"):
    """Returns the sample of the datagrams to a peer."""
    return sample("datagrams_sent", peer=peer)


class Kind(NamedTuple):
    """A kind of flood: its name in floods.c; the sample that it raises, with the least rise for a datagram; and its sender."""

    name: str
    raises: str
    least: float = 0.5
    sender: str = "flood"

    def received(self):
        """Returns the sample of the sender's datagrams."""
        return "iax_strangers_total" if self.sender == STRANGER else sample("datagrams_received", peer=self.sender)


KINDS = (
    Kind("random", "iax_strangers_total", sender=STRANGER),
    Kind("empty", refused("Short")),
    # An entry of no call has no effect, and such a trunk frame isn't refused.
    Kind("unknown_entries", sample("datagrams_received", peer="flood")),
    Kind("no_destination", refused("Unaddressed")),
    Kind("no_token", refused("NoToken", "tokens"), sender="tokens"),
    Kind("empty_token", sent_to("tokens"), sender="tokens"),
    Kind("unknown_call", sent_to()),
    Kind("pings", sent_to()),
    Kind("ahead", sent_to()),
    # All but a few of them repeat, and have no effect.
    Kind("vnaks", sent_to(), least=0),
    # Of each only 16 entries are taken.
    Kind("entries", sample("datagrams_rejected", peer="flood", rejection="ManyEntries")),
    # It is the last, because the exchange repeats its challenges for some seconds.
    Kind("challenged", sent_to("guarded"), sender="guarded"),
)


class Place:
    """The exchange with one worker: the two peers of the calls, those that send the floods, and one that these call."""

    CALLS, OTHERS = ("west", "east"), ("flood", "guarded", "tokens", "far")

    def __init__(self, tools):
        self.tools, names = tools, (*self.CALLS, *self.OTHERS, STRANGER, "worker")
        self.ports = dict(zip(names, spare_ports(len(names))))
        keys = {
            "west": {"user": "west", "secret": "of the west"},
            "guarded": {"user": "guarded", "secret": "of no sender"},
            "tokens": {"call_token": True},
            "far": {"trunk": True},
        }
        peers = {it: {"port": self.ports[it], "numbers": 512} | keys.get(it, {}) for it in (*self.CALLS, *self.OTHERS)}
        # The exchange sends no PING, so it answers those of a flood one by one.
        plan = plan_of(
            [self.ports["worker"]], peers, {WEST: "west", EAST: "east", FAR: "far"}, format=4, ping_ms=0, retry_ms=1000
        )
        self.exchange, self.started = Exchange(tools.folder_of("floods"), plan), []

    def start(self, name, *words, **named):
        """Starts a program of this folder."""
        self.started.append(self.tools.start(name, *words, **named))
        return self.started[-1]

    def flood(self, kind, rate, seed):
        """Starts a flood, which lasts until its program is ended."""
        ports = {"from": self.ports[kind.sender], "to": self.ports["worker"], "far": self.ports["far"]}
        return self.start("floods", kind=kind.name, **ports, prefix=FAR, rate=rate, seed=seed)

    def calls(self, seed):
        """Starts two calls, which last until their program is ended."""
        worker, west, east = (self.ports[it] for it in ("worker", *self.CALLS))
        peers = [f"peer={west}:{worker}:{WEST}:of the west", f"peer={east}:{worker}:{EAST}"]
        talk = {"digits": 1 << 20, "digit_ms": 200, "media_ms": 20, "retry_ms": 500, "quiet_ms": 10_000, "patience": PATIENCE}
        return self.start("calls", *peers, "route=0:1", "route=1:0", at_once=2, **talk, seed=seed)

    def drops(self):
        """Returns the datagrams of the calls that full sockets of the exchange dropped, and those that they didn't send."""
        metrics = self.exchange.metrics()
        dropped = sum(self.exchange.drops_at(self.ports["worker"], self.ports[it]) for it in self.CALLS)
        return dropped, sum(metrics.get(sample("datagrams_lost", peer=it), 0) for it in self.CALLS)

    def kill(self):
        """Ends what still runs."""
        self.exchange.kill()
        for it in self.started:
            it.kill()
            it.wait()


def row_of(seen):
    """Returns the row of the calls' results."""
    times = {name: round(seen[it] / 1000, 2) for name, it in LATENCIES.items()}
    return {
        "frames": seen["media_taken"], "lacking": seen["media_sent"] - seen["media_taken"], "digits": seen["digits_taken"]
    } | times


def alone(place, lasts, seed):
    """Carries two calls without a flood. Returns their results."""
    calls = place.calls(seed)
    time.sleep(lasts)
    return ended(calls)


def during(place, kind, lasts, rate, seed):
    """Carries two calls during a flood. Returns the results of the calls, the row of the flood, and whether it had its effect."""
    before, flood, calls = place.exchange.metrics(), place.flood(kind, rate, seed), place.calls(seed)
    time.sleep(lasts)
    sent, over = ended(flood, 2 * PATIENCE), time.monotonic()
    seen = ended(calls, 2 * PATIENCE)
    time.sleep(max(0, over + OLDEST - time.monotonic()))
    after = place.exchange.metrics()

    def rise(name):
        """Returns by how much a sample has risen."""
        return after.get(name, 0) - before.get(name, 0)

    came = rise(kind.received())
    answers = sum(rise(sent_to(it)) for it in Place.OTHERS)
    row = {"datagrams": came, "a second": round(came / sent["seconds"]), "answers": round(answers / max(1, came), 2)}
    return seen, row | row_of(seen), came > 0 < rise(kind.raises) >= kind.least * came


def tell_row(report, name, row):
    """Prints the row of a flood, and keeps it."""
    report.rows[name] = row
    report.note(f"{name}: " + ", ".join(f"{it} {value:,}" for it, value in row.items()))


def run(tools, report, seconds, seed):
    lasts, rate = (SHORT, tools.some(SHORT_RATE)) if seconds is None else (seconds / len(KINDS), None)
    place, total, weak = Place(tools), Counter(), []
    try:
        tell_row(report, ALONE, row_of(alone(place, lasts, seed)))
        for number, kind in enumerate(KINDS, 1):
            seen, row, has_effect = during(place, kind, lasts, rate, seed + number)
            tell_row(report, kind.name, row)
            total.update({name: value for name, value in seen.items() if isinstance(value, int)})
            total["datagrams"] += row["datagrams"]
            weak += [] if has_effect else [kind.name]
        at_worker, lost = place.drops()
        dropped = {"dropped_at_their_worker": at_worker, "dropped_at_the_peers": total["drops"], "lost_in_sending": lost}
        status, lines = place.exchange.stop()
    finally:
        place.kill()
    report.tell("each flood comes, and has its effect", not weak, datagrams=total["datagrams"], without_effect=weak)
    tell_calls(report, total)
    tell_media(report, total)
    tell_lost_media(report, total, dropped)
    tell_accounts(report, "the exchange", status, lines)
