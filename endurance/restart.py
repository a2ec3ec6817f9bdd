"""The exchange is ended by SIGKILL under load, and started again: old calls get INVAL, new ones work soon, and its files are
readable to their last whole line."""
import csv
import os
import subprocess
import time

from exchange import PATIENCE, Exchange, ended, plan_of, reported, spare_ports
from iax_test.service import PROGRAM
from iax_test.waits import Failed
from two_sites import tell_media

COLUMNS = 35
# How soon a new call is answered, in seconds: by a machine that does nothing else, and by a busy one.
SOON, LATE = 1, 10


class Restarted:
    """An exchange that is started and killed over and over, with one plan and one folder."""

    def __init__(self, tools, seed):
        self.tools, self.seed, self.folder = tools, seed, tools.folder_of("restart")
        self.ports = spare_ports(5)
        worker, west, east, probe1, probe2 = self.ports
        peers = {
            name: {"port": port, "numbers": 64}
            for name, port in (("west", west), ("east", east), ("probe1", probe1), ("probe2", probe2))
        }
        self.plan = plan_of([worker], peers, {"1": "west", "2": "east", "3": "probe1", "4": "probe2"}, retry_ms=500)
        self.exchange = None
        self.started = 0

    def start(self):
        # The least, so that files are overwritten.
        trace = ("--trace", f"{self.folder}/trace", "--trace-limit", "1")
        self.exchange = Exchange(self.folder, self.plan, "--calls", f"{self.folder}/calls.csv", *trace)
        self.started += 1

    def load(self):
        worker, west, east = self.ports[:3]
        peers = [f"peer={west}:{worker}:1", f"peer={east}:{worker}:2"]
        # No call ends on its own: each is cut by the SIGKILL, except those that are hung up early.
        talk = {
            "digits": 400, "digit_ms": 100, "early": 3, "media_ms": 100, "retry_ms": 500, "ping_ms": 1000, "patience": PATIENCE
        }
        return self.tools.start("calls", *peers, "route=0:1", "route=1:0", **talk, at_once=self.tools.some(32), seed=self.seed)

    def probe(self):
        """Starts a call of two other peers, from its NEW to its end. Returns its program."""
        worker, probe1, probe2 = self.ports[0], *self.ports[3:]
        peers = [f"peer={probe1}:{worker}:3", f"peer={probe2}:{worker}:4"]
        return self.tools.start("calls", *peers, "route=0:1", total=1, digits=4, retry_ms=100, patience=PATIENCE, seed=self.seed)

    def legs_that_talk(self):
        """This number of legs were up at once, and only the SIGKILL ends them."""
        end = time.monotonic() + PATIENCE
        while time.monotonic() < end:
            found = sum(it["stage"] == "Up" for it in self.exchange.legs())
            if found >= self.tools.some(32):
                return found
            time.sleep(0.05)
        raise Failed("too few calls are up")


def tell_records(report, path, started):
    with open(path, encoding="utf-8", newline="") as it:
        text = it.read()
    rows = list(csv.reader(text[: text.rfind("\n") + 1].splitlines()))
    short = sum(len(it) != COLUMNS for it in rows)
    headers = sum(it[:2] == ["call", "peer"] for it in rows)
    # If a SIGKILL has cut a row, the next start ends its line: such a row is short.
    is_kept = headers == 1 and len(rows) > 1 and short < started and len(rows[-1]) == COLUMNS
    report.tell(
        "the call records are readable to their last whole line", is_kept, rows=len(rows) - 1, headers=headers, cut_rows=short
    )


def tell_traces(report, folder, plan):
    """Each file as the SIGKILL left it: its lines end at its end, or at an octet 0 with older ones behind it. A moment that
    goes backward is refused, and so are lines that run into older ones."""
    files = sorted(os.listdir(folder))
    lines, older, refused = 0, 0, []
    for name in files:
        with open(f"{folder}/{name}", "rb") as it:
            text, _, behind = it.read().partition(b"\0")
        lines += text.count(b"\n")
        older += len(behind) > 0
        found = subprocess.run(
            [*PROGRAM, "replay", plan, f"{folder}/{name}"], capture_output=True, text=True, timeout=10 * PATIENCE
        )
        if found.returncode != 0 or text[-1:] not in (b"", b"\n"):
            refused.append(f"{name}: {found.stdout[-100:]!r}")
    seen = {"files": len(files), "lines": lines, "with_older_lines": older, "refused": refused}
    report.tell("the traces can be replayed to their last line", lines > 0 and not refused, **seen)


def a_restart(place, limit):
    """Load, SIGKILL, a new start: the number of legs that were up, the time until the new start answered a call, and the
    peers' results."""
    load = place.load()
    try:
        up = place.legs_that_talk()
        time.sleep(0.5)
        place.exchange.kill()
        begun = time.monotonic()
        probe = place.probe()
        place.start()
        serving = time.monotonic() - begun
        probed = reported(probe, PATIENCE)
        time.sleep(limit)
        seen = ended(load, 2 * PATIENCE)
    finally:
        if load.poll() is None:
            load.kill()
    return up, serving, probed, seen


def run(tools, report, seconds, seed):
    place, results = Restarted(tools, seed), []
    end = time.monotonic() + (seconds or 0)
    place.start()
    try:
        while len(results) < 2 or time.monotonic() < end:
            results.append(a_restart(place, 2))
            place.exchange.until_idle()
        status, _ = place.exchange.stop()
    finally:
        place.exchange.kill()
    up = sum(it[0] for it in results)
    inval = sum(it[3]["inval"] for it in results)
    after = sum(it[3]["ended"] for it in results)
    wrong = sum(
        it[3][name] for it in results for name in ("stuck", "cut", "rejected", "wrong_digits", "lacking_digits", "hangups_twice")
    )
    invals = sum(it[3]["invals"] for it in results)
    report.tell(
        "old calls get INVAL", 2 * inval >= up > 0, restarts=len(results), legs_up=up, calls_ended_by_INVAL=inval, invals=invals
    )
    report.tell(
        "the load goes on after each restart", min(it[3]["ended"] for it in results) > 0 == wrong, calls_hung_up=after,
        wrong=wrong,
    )
    slowest = max(it[2]["first_answer"] for it in results)
    limit = LATE if seconds is None else SOON
    works = all(it[2]["ended"] == 1 and it[2]["digits_taken"] == 8 for it in results) and slowest <= limit
    first = (f"{it[2]['first_answer']:.2f} s (serves after {it[1]:.2f} s)" for it in results[:8])
    report.tell(f"a new call is answered within {limit} s of the SIGKILL", works, *first, f"at most {slowest:.2f} s")
    tell_media(report, {name: sum(it[3][name] for it in results) for name in ("media_sent", "media_taken", "wrong_media")})
    report.tell("the last start ends well", status == 0, f"status {status}")
    tell_records(report, f"{place.folder}/calls.csv", place.started)
    tell_traces(report, f"{place.folder}/trace", place.exchange.plan)
