"""A disk that is full, clocks that jump, sends that fail, no memory: each for a while, by a library that is loaded before the
C library, during calls. The exchange continues too, or ends by name."""
import datetime
import mmap
import re
import struct
import time

from exchange import PATIENCE, Exchange, ended, plan_of, reported, rows_of, spare_ports, tell_accounts
from two_sites import tell_calls

# Places in the page that the library shares (faults.c).
DISK, WALL, MONOTONIC, SENDS, MEMORY = range(5)
DAY, HOUR = 86_400_000, 3_600_000
# A clock in milliseconds that has 32 bits returns to 0 here, after 49.7 days.
PAST_32_BITS = 1 << 32


class Page:
    """The faults to be made, and their counts."""

    def __init__(self, path):
        with open(path, "wb") as it:
            it.write(bytes(4096))
        with open(path, "r+b") as it:
            self.octets = mmap.mmap(it.fileno(), 128)

    def set(self, place, number):
        self.octets[8 * place : 8 * place + 8] = struct.pack("=q", number)

    def count(self, place):
        return struct.unpack("=q", self.octets[64 + 8 * place : 72 + 8 * place])[0]


class Faulty:
    """An exchange with the library loaded before it, during calls."""

    def __init__(self, tools, name, seed, *options):
        self.folder = tools.folder_of(f"faults_{name}")
        self.page = Page(f"{self.folder}/page")
        worker, west, east = spare_ports(3)
        peers = {
            "west": {"port": west, "numbers": 64, "user": "west", "secret": "of the west"}, "east": {"port": east, "numbers": 64}
        }
        environment = {"FAULTS": f"{self.folder}/page", "LD_PRELOAD": tools.built("faults.so")}
        plan = plan_of([worker], peers, {"1": "west", "2": "east"}, retry_ms=300)
        self.exchange = Exchange(self.folder, plan, "--calls", f"{self.folder}/calls.csv", *options, environment=environment)
        self.words = [f"peer={west}:{worker}:1:of the west", f"peer={east}:{worker}:2", "route=0:1", "route=1:0"]
        self.tools, self.seed = tools, seed
        self.calls = self.load()
        time.sleep(0.7)

    def load(self, **more):
        some = self.tools.some
        talk = {"digits": 8, "digit_ms": 50, "media_ms": 100, "hold_ms": 300, "retry_ms": 300, "patience": PATIENCE}
        return self.tools.start("calls", *self.words, **talk, **more, at_once=some(16), rate=some(40), seed=self.seed)

    def end(self):
        """Ends the calls, then the exchange; returns the results and the program's output."""
        seen = ended(self.calls, 2 * PATIENCE)
        self.exchange.until_idle()
        metrics = self.exchange.metrics()
        return seen, metrics, self.exchange.stop()

    def kill(self):
        self.exchange.kill()
        if self.calls.poll() is None:
            self.calls.kill()
            self.calls.wait()


def rounds(lasts):
    """At least one, and more until this number of seconds is over."""
    end = time.monotonic() + lasts
    yield
    while time.monotonic() < end:
        yield


def full_disk(tools, report, lasts, seed):
    faulty = Faulty(tools, "disk", seed, "--log", "info", "--trace", f"{tools.folder_of('faults_disk')}/trace")
    try:
        waiting = 0
        for _ in rounds(lasts):
            faulty.page.set(DISK, 1)
            time.sleep(3)
            waiting = max(waiting, faulty.exchange.metrics()["iax_call_records_waiting"])
            faulty.page.set(DISK, 0)
            time.sleep(1)
        seen, metrics, (status, lines) = faulty.end()
    finally:
        faulty.kill()
    refused = faulty.page.count(DISK)
    report.tell(
        "a full disk: rows wait for it", refused > 0 and waiting > 0, writes_that_failed=refused, rows_that_waited=waiting
    )
    rows = len(rows_of(f"{faulty.folder}/calls.csv"))
    is_whole = rows == 2 * seen["placed"] and metrics["iax_call_records_lost_total"] == 0
    report.tell("a full disk: each leg has its row once there is room", is_whole, rows=rows, calls=seen["placed"])
    logged = len(re.findall("calls.csv is written to again", faulty.exchange.logged()))
    report.tell("a full disk: the log says that it is well again", logged > 0, lines=logged)
    tell_calls(report, seen)
    tell_accounts(report, "the exchange with a full disk", status, lines)


def jumping_clocks(tools, report, lasts, seed):
    faulty = Faulty(tools, "clock", seed)
    try:
        # The service is older than 49.7 days, but for the calls that the first jump finds.
        ahead = PAST_32_BITS
        for _ in rounds(lasts):
            for place, by in ((WALL, DAY), (WALL, -2 * DAY), (MONOTONIC, ahead + 10_000), (MONOTONIC, ahead + HOUR), (WALL, 0)):
                faulty.page.set(place, by)
                time.sleep(0.6)
            # This clock is never set back.
            ahead += HOUR
        seen, _, (status, lines) = faulty.end()
    finally:
        faulty.kill()
    jumped = faulty.page.count(WALL) + faulty.page.count(MONOTONIC)
    report.tell("clocks that jump: they were looked at", jumped > 0, looks=jumped)
    rows = rows_of(f"{faulty.folder}/calls.csv")
    late = [row for row in rows if row["answered_at_ms"] and int(row["opened_ms"]) > PAST_32_BITS]
    report.tell(
        "clocks that jump: calls are answered past 2^32 milliseconds", len(late) > 0, rows=len(rows), answered_late=len(late)
    )
    wrong = [row for row in rows if not is_told_by_one_clock(row)]
    report.tell(
        "clocks that jump: a row's dates are as far apart as its milliseconds", not wrong, wrong_rows=len(wrong), first=wrong[:1]
    )
    tell_calls(report, seen)
    tell_accounts(report, "the exchange with clocks that jump", status, lines)


def is_told_by_one_clock(row):
    opened, ended_at = (datetime.datetime.fromisoformat(row[it]) for it in ("opened", "ended"))
    return round((ended_at - opened).total_seconds() * 1000) == int(row["ended_ms"]) - int(row["opened_ms"])


def failing_sends(tools, report, lasts, seed):
    faulty = Faulty(tools, "sends", seed)
    try:
        for _ in rounds(lasts):
            for one_in in (3, 1, 2, 0):
                faulty.page.set(SENDS, one_in)
                time.sleep(0.8)
        seen, metrics, (status, lines) = faulty.end()
    finally:
        faulty.kill()
    lost = sum(value for name, value in metrics.items() if name.startswith("iax_datagrams_lost_total"))
    refused = faulty.page.count(SENDS)
    report.tell(
        "sends that fail: each is a lost datagram, and counted", lost >= refused > 0, sends_that_failed=refused, lost=lost
    )
    tell_calls(report, seen)
    tell_accounts(report, "the exchange whose sends failed", status, lines)


def no_memory(tools, report, lasts, seed):
    """One request in some number is refused. A call that can't continue for want of memory is hung up, as it should; nothing
    is crossed or taken twice, and once there is memory, calls continue as ever. Otherwise the exchange prints why it ended."""
    faulty = Faulty(tools, "memory", seed)
    try:
        for _ in rounds(lasts):
            for one_in in (100, 10, 0):
                faulty.page.set(MEMORY, one_in)
                time.sleep(1)
        refused = faulty.page.count(MEMORY)
        report.tell("no memory: requests were refused", refused > 0, refused=refused)
        if faulty.exchange.process.poll() is None:
            tell_memory_again(report, faulty)
        else:
            status, lines = faulty.exchange.printed()
            report.tell(
                "no memory: the exchange ends by name", (status, lines[-1:]) == (1, ["refused Memory"]), f"status {status}",
                lines[-1:],
            )
    finally:
        faulty.kill()


def tell_memory_again(report, faulty):
    """The exchange continues: the results of calls while there was no memory, and of those that are placed then."""
    seen = ended(faulty.calls, 2 * PATIENCE)
    faulty.exchange.until_idle()
    names = ("wrong_digits", "wrong_media", "lacking_digits", "hangups_twice", "hangups_back", "offered_twice", "misrouted")
    told = {it: seen[it] for it in (*names, "ended", "cut", "rejected")}
    report.tell("no memory: nothing is crossed, or taken twice", not any(seen[it] for it in names), **told)
    seen = reported(faulty.load(total=10), 2 * PATIENCE)
    faulty.exchange.until_idle()
    status, lines = faulty.exchange.stop()
    tell_calls(report, seen)
    tell_accounts(report, "the exchange without memory", status, lines)


def run(tools, report, seconds, seed):
    lasts = 0 if seconds is None else seconds / 4
    for fault in (full_disk, jumping_clocks, failing_sends, no_memory):
        fault(tools, report, lasts, seed)
