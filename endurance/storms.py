"""VNAK storms: twenty calls send digits both ways over a bad network between two exchanges, as fast as a few digits on their
way allow. A table of the datagrams between the exchanges by their cause: for each loss rate and each window, without
`vnak_ms` and with it; and on paths of a limited rate, for several `vnak_ms`."""
import itertools
import time
from collections import Counter, namedtuple

from endings import ENDED, Endings
from exchange import PATIENCE, reported
from iax_test.waits import Failed
from two_sites import PREFIX, TRUNK_NAME, Sites

# The loss in percent; the window of the trunk's peers; the rate in thousand bits a second, each way, or 0 for no limit; how
# long a datagram waits for such a path at most; the plan's `retry_ms`, and its `vnak_ms`, where 0 is a plan without the key.
Storm = namedtuple("Storm", "loss window path_kbit queue_ms retry_ms vnak_ms")
REPEATS, REORDER, CALLS, ON_THE_WAY = 5, 40, 20, 10
# The values of a storm that weren't given.
USUAL = Storm(loss=[20], window=[64], path_kbit=[0], queue_ms=[200], retry_ms=[1000], vnak_ms=[0])
# The storms of a long run: no limit; paths with a queue of the right length, and two retry_ms; with longer ones; other losses
# on one.
TABLES = (
    {"loss": [0, 5, 10, 20, 30], "window": [64, 16, 8, 4], "vnak_ms": [0, 60]},
    {"path_kbit": [64, 128, 256, 512, 1024, 2048], "vnak_ms": [0, 20, 40, 60, 100, 200, 400]},
    {"path_kbit": [512, 1024, 2048], "retry_ms": [200], "vnak_ms": [0, 40, 100, 200]},
    {"path_kbit": [256, 512, 1024, 2048], "queue_ms": [2000], "retry_ms": [1000, 200], "vnak_ms": [0, 60, 200]},
    {"path_kbit": [1024], "queue_ms": [5000], "retry_ms": [300], "vnak_ms": [0, 200]},
    {"loss": [5, 10, 30], "path_kbit": [1024], "vnak_ms": [0, 60, 200]},
)
SHORT = ({"loss": [0]}, {"window": [64, 8]}, {"path_kbit": [512], "vnak_ms": [200]})
# The results that are wrong in any storm: of digits, and of offered and hung up calls.
DIGITS, OFFERS = ("wrong_digits", "lacking_digits"), ("offered_twice", "misrouted", "hangups_twice")
CAUSES = ("first", "by_timer", "for_vnak", "acks", "vnaks", "invals")
NAMES = (
    "loss %", "window", "kbit/s", "queue", "retry_ms", "vnak_ms", "on the way", "digits", "a second", "for each", "first",
    "timer", "for VNAK", "ACK", "VNAK", "INVAL", "used", "waited", "no room", "cut",
)


def on_the_way(window):
    """Returns the number of digits that a peer has on their way to the far peer. A leg sends `window - window / 4` frames
    without an acknowledgement, and a call whose leg has no room for a digit is hung up. A digit may be held until its ACK
    is back, so this is at most half of that room."""
    return min(ON_THE_WAY, (window - window // 4) // 2)


def network_of(storm, seconds):
    network = {"loss": storm.loss, "repeats": REPEATS, "reorder_ms": REORDER} if storm.loss else {}
    path = {"path_kbit": storm.path_kbit, "queue_ms": storm.queue_ms, "line_s": seconds} if storm.path_kbit else {}
    return network | path


def a_storm(tools, storm, seconds, seed, spoil=None):
    """Returns the results of `calls` and of the network, and the ends of calls at the exchanges."""
    keys = {"retry_ms": storm.retry_ms, "max_retries": 20, "ping_ms": 20000}
    if storm.vnak_ms:
        keys |= {"format": 4, "vnak_ms": storm.vnak_ms}
    name = "storm_" + "_".join(f"{it}" for it in storm)
    trunk = {"window": storm.window, "numbers": 64}
    sites = Sites(tools, name, seed, trunk=trunk, keys=keys, spoil=spoil, **network_of(storm, seconds))
    try:
        calls = tools.start(
            "calls", *sites.peer_words(), "route=0:2", "route=3:1", seconds=seconds, at_once=tools.some(CALLS), digits=5000,
            on_the_way=on_the_way(storm.window), retry_ms=1000, patience=round(seconds) + 2 * PATIENCE, seed=seed,
        )
        seen = reported(calls, seconds + 5 * PATIENCE)
        for it in sites.exchanges:
            it.until_idle(2 * PATIENCE)
        printed, network = sites.stop()
    finally:
        sites.kill()
    if any(status for status, _ in printed):
        raise Failed(f"the exchanges ended so: {printed}")
    return seen, network, Endings(sites.records, PREFIX, TRUNK_NAME)


def ended_there(seen):
    """Returns the calls that an exchange ended."""
    return sum(seen[it] for it in ENDED)


def for_each(seen, network):
    """Returns the number of datagrams between the exchanges for each digit that came, without media."""
    return sum(network[it] for it in CAUSES) / max(1, seen["digits_taken"])


def cells_of(storm, seconds, seen, network):
    """Returns a row of the table, by the names of its columns. Datagrams are those of the whole run, also for each digit; digits
    are those that came in time."""
    each, in_time = for_each(seen, network), seen["digits_in_time"]
    path = [storm.path_kbit, storm.queue_ms] if storm.path_kbit else ["any", ""]
    place = [storm.loss, storm.window, *path, storm.retry_ms, storm.vnak_ms]
    numbers = [on_the_way(storm.window), in_time, round(in_time / seconds, 1), round(each, 1), *(network[it] for it in CAUSES)]
    line = [network["line_kbit"], network["waited_ms"], network["no_room"]] if storm.path_kbit else ["", "", ""]
    return dict(zip(NAMES, (*place, *numbers, *line, ended_there(seen))))


class Pace:
    """The duration of each storm, so that all of them take about the given time: each continues after its time until all its
    frames have come. A storm without a rate limit, which takes all processors, lasts at most five seconds."""

    def __init__(self, seconds, count):
        self.end = seconds and time.monotonic() + seconds
        self.left, self.after, self.begun, self.lasts = count, [], 0, 0

    def begin(self, storm):
        self.begun, self.lasts = time.monotonic(), 1.5
        if self.end:
            mean_after = sum(self.after) / len(self.after) if self.after else 5
            each = (self.end - self.begun) / self.left
            self.lasts = max(2, each / 2, each - mean_after)
        if not storm.path_kbit:
            self.lasts = min(5, self.lasts)
        return self.lasts

    def is_over(self):
        self.after = [*self.after, time.monotonic() - self.begun - self.lasts][-10:]
        self.left -= 1


class Sums:
    """The results that all storms share, and the datagrams for each digit by storm."""

    def __init__(self):
        self.seen, self.why, self.taken, self.each = Counter(), Counter(), [], {}

    def add(self, storm, seen, network, endings):
        """Returns the wrong results, by kind: how often, and the first place."""
        self.taken.append(seen["digits_taken"])
        self.each[storm] = for_each(seen, network)
        self.seen.update({it: seen[it] for it in (*DIGITS, *OFFERS, *ENDED, "left_out_digits")})
        told = [(*it, endings.why_of(*it[:2])) for it in seen["told"]]
        ended = [why for what, _, _, why in told if what in ENDED]
        self.why.update(why or "unknown" for why in ended)
        # The ends that `calls` has counted but had no room to list.
        self.why["unknown"] += ended_there(seen) - len(ended)
        wrong = [(what, f"call {call} after {moment:.1f} s") for what, call, moment, why in told if not why]
        first = dict(reversed(wrong))
        return [f"{what} {count}, first of {first[what]}" for what, count in Counter(it[0] for it in wrong).items()]

    def counts(self, names):
        return {it: self.seen[it] for it in names}

    def tell(self, report):
        digits, offers, ended = (self.counts(it) for it in (DIGITS, OFFERS, ENDED))
        is_kept = sum(digits.values()) == 0 < min(self.taken)
        left_out = self.seen["left_out_digits"]
        report.tell(
            "each digit is taken once and in order in each storm", is_kept, digits_taken=sum(self.taken), **digits,
            left_out_as_a_call_is_cut=left_out,
        )
        report.tell("each call is offered once and hung up once", not any(offers.values()), **offers)
        unknown = self.why.pop("unknown")
        report.tell(
            "exchanges end calls only for reasons that are in their records", not unknown, **ended, **self.why,
            without_one=unknown,
        )
        self.tell_vnaks(report)

    def tell_vnaks(self, report):
        # Without a loss, or with few digits on their way, there is hardly a VNAK.
        pairs = [it for it in self.each if it.vnak_ms and it.loss and on_the_way(it.window) == ON_THE_WAY]
        pairs = [it for it in pairs if it._replace(vnak_ms=0) in self.each]
        more = [f"{it}" for it in pairs if self.each[it] >= self.each[it._replace(vnak_ms=0)]]
        if pairs:
            promise = "with vnak_ms a digit takes fewer datagrams"
            report.tell(promise, not more, storms=len(pairs), others=len(more), first=more[:1])


def name_of(storm):
    """Returns a storm's name in the results."""
    return ", ".join(f"{name} {value}" for name, value in storm._asdict().items())


def storms_of(tables):
    return [Storm(*it) for table in tables for it in itertools.product(*USUAL._replace(**table))]


def run(tools, report, seconds, seed, given=None, spoil=None):
    storms = storms_of([given] if given else SHORT if seconds is None else TABLES)
    pace, sums = Pace(seconds, len(storms)), Sums()
    report.note("| " + " | ".join(NAMES) + " |")
    report.note("|" + "---|" * len(NAMES))
    for storm in storms:
        lasts = pace.begin(storm)
        seen, network, endings = a_storm(tools, storm, lasts, seed, spoil)
        pace.is_over()
        cells = cells_of(storm, lasts, seen, network)
        report.note("| " + " | ".join(f"{it}" for it in cells.values()) + " |")
        # The name has the first columns.
        report.rows[name_of(storm)] = {it: cells[it] for it in NAMES[len(storm):] if cells[it] != ""}
        for wrong in sums.add(storm, seen, network, endings):
            report.note(f"wrong in {storm}: {wrong}")
    sums.tell(report)
