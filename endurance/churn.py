"""Calls set up and ended at half the rate that the exchange can handle, with challenges both ways: memory doesn't grow,
numbers are used again, and the call records of all legs add up."""
import os
import time
from collections import namedtuple

from exchange import PATIENCE, Exchange, plan_of, reported, rows_of, spare_ports, tell_accounts
from memory import Memory, resident_octets
from two_sites import tell_calls

NUMBERS, AT_ONCE, DIGITS = 48, 32, 2
# The limits, in kilobytes: the growth of resident memory outside large blocks, since the first minute or the first third of a
# shorter run; in octets, the growth of the memory held at rest, since the first calls; and in kilobytes, the resident memory
# beyond the most that was ever held at once: the program's own, its threads' stacks, and what the C library keeps.
GROWTH, AT_REST, BESIDE = 1024, 1024, 4096


class Records:
    """The call records, file by file, while they are written: the file is renamed now and then, read, and removed."""

    def __init__(self, path):
        self.path, self.moved = path, None
        self.rows, self.taken, self.sent, self.faults = 0, 0, 0, []
        self.halves, self.serials, self.uses, self.challenged = {}, {}, {}, 0

    def turn(self):
        """Reads the file that was renamed before, to which nothing is written by now, and renames the current one."""
        if self.moved:
            self.read(self.moved)
            os.remove(self.moved)
            self.moved = None
        if os.path.exists(self.path):
            self.moved = f"{self.path}.read"
            os.rename(self.path, self.moved)

    def read(self, path):
        for row in rows_of(path):
            self.add(row)

    def add(self, row):
        self.rows += 1
        self.taken += int(row["digits_taken"])
        self.sent += int(row["digits_sent"])
        number, serial = int(row["number"]), int(row["serial"])
        if serial <= self.serials.get(number, -1):
            self.faults.append(f"serial {serial} of number {number} after {self.serials[number]}")
        self.serials[number] = serial
        self.uses[number] = self.uses.get(number, 0) + 1
        other = self.halves.pop(row["call"], None)
        if other is None:
            self.halves[row["call"]] = row
        else:
            self.compare(other, row)

    def compare(self, one, other):
        """The two legs of a call: the peer opened one and the exchange the other; the peer hung up one, and the exchange the
        other."""
        found = sorted((one["opened_by"], other["opened_by"])) + sorted((one["ending"], other["ending"]))
        if found != ["exchange", "peer", "hung_up_by_peer", "hung_up_here"]:
            self.faults.append(f"call {one['call']}: {found}")
        if one["digits_taken"] != other["digits_sent"] or one["digits_sent"] != other["digits_taken"]:
            digits = [it[name] for it in (one, other) for name in ("digits_taken", "digits_sent")]
            self.faults.append(f"call {one['call']}: digits taken and sent {digits}")


def load_words(ports):
    worker, west, east = ports
    return [f"peer={west}:{worker}:1:of the west", f"peer={east}:{worker}:2:of the east", "route=0:1", "route=1:0"]


def a_run(tools, ports, seconds, **load):
    return tools.start(
        "calls", *load_words(ports), seconds=seconds, at_once=AT_ONCE, digits=DIGITS, retry_ms=1000, patience=PATIENCE, **load
    )


class Look(namedtuple("Look", "elapsed resident held blocks")):
    """The resident and the held memory at a moment, in kilobytes, and each large block, as its resident part and its size."""

    def in_large(self):
        return sum(resident for resident, _ in self.blocks)

    def of_large(self):
        return sum(octets for _, octets in self.blocks)

    def text(self):
        each = ", ".join(f"{resident} of {octets}" for resident, octets in self.blocks)
        large = f"in large blocks {self.in_large()} of {self.of_large()}: {each}"
        return f"{self.elapsed:5.0f} s: KB resident {self.resident}, held {self.held}, {large}"


class Looks:
    """The held and the resident memory of a program, by the seconds since the start. Large blocks are rings and lists that
    are reserved when the program starts, for entries that may have to wait. Their memory is allocated page by page, when they
    are used for the first time."""

    def __init__(self, exchange, memory):
        self.exchange, self.memory, self.begun, self.all = exchange, memory, time.monotonic(), []

    def elapsed(self):
        return time.monotonic() - self.begun

    def look(self):
        process = self.exchange.process.pid
        blocks = [(resident_octets(process, [it]) // 1024, it[1] // 1024) for it in self.memory.large()]
        blocks.sort(key=lambda it: (-it[1], -it[0]))
        self.all.append(Look(self.elapsed(), self.exchange.kilobytes(), self.memory.counts()[0] // 1024, blocks))

    def tell(self, report, seconds):
        for it in self.all:
            report.note(it.text())
        first = min(60, seconds / 3)
        # The look at a minute is a little late.
        early = max(it.resident - it.in_large() for it in self.all if it.elapsed <= first + 1)
        late = max(it.resident - it.in_large() for it in self.all if it.elapsed > first + 1)
        promise = f"beside large blocks memory doesn't grow after the first {first:.0f} s"
        report.tell(promise, late <= early + GROWTH, until_then=f"{early} KB", later=f"{late} KB")
        _, _, most, requests, untold = self.memory.counts()
        resident, bound = max(it.resident for it in self.all), most // 1024 + BESIDE
        is_kept = requests > 0 == untold and resident <= bound
        report.tell("what is resident was asked for", is_kept, f"{resident} KB", at_most=f"{bound} KB")


def at_rest(exchange, memory):
    """Returns the least octets and blocks held while no leg is up. Threads that write continue for a while."""
    exchange.until_idle()
    found = []
    for _ in range(15):
        time.sleep(0.1)
        found.append(memory.counts()[:2])
    return min(found)


def watch(looks, calls, records, seconds):
    """Reads records and memory until the calls have ended."""
    turned, between = 0, min(60, seconds / 8)
    while calls.poll() is None and looks.elapsed() < seconds + 3 * PATIENCE:
        if looks.elapsed() >= len(looks.all) * between:
            looks.look()
        if looks.elapsed() >= turned + min(10, between):
            turned = looks.elapsed()
            records.turn()
        time.sleep(0.1)
    looks.look()


def tell_rest(report, before, after):
    kept = {"octets_before": before[0], "after": after[0], "blocks_before": before[1], "blocks_after": after[1]}
    report.tell("at rest as much is held as before the calls", before[1] > 0 and after[0] <= before[0] + AT_REST, **kept)


def tell_records(report, records, seen, warming):
    placed = seen["placed"] + warming["placed"]
    is_whole = records.rows == 2 * placed and not records.halves
    report.tell(
        "each leg has its row in the call records", is_whole, rows=records.rows, calls=placed,
        rows_without_their_other=len(records.halves),
    )
    digits = (seen["digits_sent"] + warming["digits_sent"], seen["digits_taken"] + warming["digits_taken"])
    adds_up = not records.faults and (records.taken, records.sent) == digits
    wrong = {"wrong_rows": len(records.faults), "first": records.faults[:1]}
    report.tell("the rows add up", adds_up, digits_taken=records.taken, digits_sent=records.sent, **wrong)
    uses = records.uses.values()
    comes_round = len(uses) == 2 * NUMBERS and min(uses) > 1
    least_and_most = {"least_uses": min(uses, default=0), "most_uses": max(uses, default=0)}
    report.tell("numbers come round, and their serials go up", comes_round, numbers=len(uses), **least_and_most)


def run(tools, report, seconds, seed):
    folder, ports = tools.folder_of("churn"), spare_ports(3)
    peers = {
        "west": {"port": ports[1], "user": "west", "secret": "of the west", "numbers": NUMBERS},
        "east": {"port": ports[2], "user": "east", "secret": "of the east", "numbers": NUMBERS},
    }
    records = Records(f"{folder}/calls.csv")
    memory, plan = Memory(tools, f"{folder}/memory"), plan_of(ports[:1], peers, {"1": "west", "2": "east"}, retry_ms=1000)
    exchange = Exchange(folder, plan, "--calls", records.path, environment=memory.environment)
    try:
        lasts = 5 if seconds is None else seconds
        warming = reported(a_run(tools, ports, 1.5 if seconds is None else 10, seed=seed), 3 * PATIENCE)
        before = at_rest(exchange, memory)
        rate = warming["ended"] / warming["seconds"] / 2
        calls = a_run(tools, ports, lasts, rate=max(rate, NUMBERS * 3 / lasts), least=NUMBERS * 3, seed=seed + 1)
        looks = Looks(exchange, memory)
        watch(looks, calls, records, lasts)
        seen = reported(calls, PATIENCE)
        after = at_rest(exchange, memory)
        status, lines = exchange.stop()
        records.turn()
        records.turn()
    finally:
        exchange.kill()
    report.note(f"the exchange set up and ended {2 * rate:.0f} calls a second, and half of that was asked for")
    tell_calls(report, seen)
    is_challenged = seen["challenged"] == 2 * seen["placed"] and not seen["bad_answers"]
    report.tell(
        "each call was challenged twice, and the answers were right", is_challenged, challenged=seen["challenged"],
        bad_answers=seen["bad_answers"],
    )
    looks.tell(report, lasts)
    tell_rest(report, before, after)
    tell_records(report, records, seen, warming)
    tell_accounts(report, "the exchange", status, lines, least=0)
