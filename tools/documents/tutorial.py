"""The call between two modems in docs/TWO_SITES.md: its tables, compared with the plan, the modems' files and each
other. `transcripts` compares what `check` and `explain` print there."""
import re
import tempfile
import tomllib
from pathlib import Path

from .pages import blocks_of
from .plan_keys import defaults
from .quantities import number_of
from .sources import columns
from .transcripts import shell

PAGE = "docs/TWO_SITES.md"
# The columns of one run: no rule gives their values.
OF_ONE_RUN = ("serial", "age_ms", "remote", "held", "entries", "silent_ms", "received", "refused", "sent", "round_trip_ms")


def shown(documents):
    """Returns the tables that `ctl` printed, in the page's order: each with its order, and its rows as names and values."""
    tables = []
    for block in blocks_of(documents.text(PAGE)):
        for order, text in re.findall(r"^\$ exchange_main ctl \w+ (\w+)\n((?:[^$\n].*\n?)+)", block, re.M):
            lines = [it.split() for it in text.strip("\n").split("\n")]
            tables.append((order, [dict(zip(lines[0], line)) for line in lines[1:]]))
    return tables


def plan_of_modems(documents):
    """Returns the plan that the page's command makes of `plan new`, and the range of each peer's local numbers."""
    plan = tomllib.loads(made_plan(documents))
    ranges, first = {}, 1
    for peer in plan["peer"]:
        count = int(peer.get("numbers", defaults()["numbers"]))
        ranges[peer["name"]] = (first, first + count - 1)
        first += count
    return plan, ranges


def made_plan(documents):
    """Returns the text of the modems' plan, as the page's command writes it."""
    command = next((it for it in blocks_of(documents.text(PAGE)) if "exchange_main plan new |" in it), "exit 1")
    with tempfile.TemporaryDirectory() as folder:
        _, status = shell(command, folder)
        return Path(folder, "plan.toml").read_text(encoding="utf-8") if status == 0 else ""


def modem_of(documents):
    """Returns the settings of the calling modem."""
    block = next((it for it in blocks_of(documents.text(PAGE)) if re.search(r"^peername +", it, re.M)), "")
    return dict(re.findall(r"^(\w+) +(.+)$", block, re.M))


def faults_of_calls(documents, place, rows):
    """Returns the faults of a table of calls; `place` is 0 for the first, while the call rings."""
    _, ranges = plan_of_modems(documents)
    modem, called = modem_of(documents), re.search(r"ATDT(\d+)", documents.text(PAGE))
    wanted = {
        "stage": "Linked" if place == 0 else "Up",
        "calling": modem.get("cidnumber"),
        "called": called.group(1) if called else None,
        "format": modem.get("codec"),
        "record_limit": defaults()["record_limit"],
    }
    faults = [
        f"{name} is {value}, not {row.get(name)}" for row in rows for name, value in wanted.items() if row.get(name) != value
    ]
    for row in rows:
        low, high = ranges.get(row["peer"], (0, 0))
        others = [it["partner"] for it in rows if it["number"] == row["partner"]]
        faults += [] if low <= int(row["number"]) <= high else [f"{row['peer']} has no local number {row['number']}"]
        faults += [] if others == [row["number"]] else [f"no leg is the partner of {row['number']}"]
    return faults + ([] if [it["peer"] for it in rows] == list(ranges) else ["the legs are of other peers"])


def faults_of_peers(documents, rows):
    """Returns the faults of a table of peers."""
    plan, _ = plan_of_modems(documents)
    faults = [] if [it["name"] for it in rows] == [it["name"] for it in plan["peer"]] else ["the peers are others"]
    for peer, row in zip(plan["peer"], rows):
        wanted = {
            "endpoint": f"{peer['address']}:{peer['port']}",
            "worker": str(peer["worker"]),
            "legs": "1",
            "reach": "up",
            "numbers": str(peer.get("numbers", defaults()["numbers"])),
            "lost": "0",
            "outbox_lost": "0",
            "queue_dropped": "0",
            "auth_failed": "0",
            "unreachable_ms": "-",
        }
        faults += [
            f"{name} of {peer['name']} is {value}, not {row.get(name)}"
            for name, value in wanted.items()
            if row.get(name) != value
        ]
    return faults


def faults_of_ages(documents, calls):
    """Returns a fault if the tables of calls aren't as many seconds apart as the page says."""
    said = re.search(r"\b(\w+) seconds later", documents.text(PAGE))
    if not said or len(calls) < 2:
        return []
    apart = round((int(calls[1][0]["age_ms"]) - int(calls[0][0]["age_ms"])) / 1000)
    return [] if number_of(said.group(1)) == apart else [f"the tables are {apart} seconds apart, not {said.group(1)}"]


def balances(accepted, packed, queued, dropped, quelched=0):
    """Returns whether accounts add up."""
    return accepted == packed + queued + dropped and quelched <= dropped


def check(documents):
    """Returns the faults of what the page shows of the call between modems."""
    faults, calls = [], 0
    tables = shown(documents)
    for order, rows in tables:
        if rows and tuple(rows[0]) != columns().get(order):
            faults.append(f"{order} prints other columns than {' '.join(rows[0])}")
        elif order == "calls":
            faults += faults_of_calls(documents, calls, rows)
            calls += 1
        elif order == "peers":
            faults += faults_of_peers(documents, rows)
        elif order == "accounts":
            faults += [] if balances(*(int(it) for it in rows[0].values())) else ["the accounts don't add up"]
    faults += faults_of_ages(documents, [rows for order, rows in tables if order == "calls"])
    for line in re.findall(r"^    octets (.*)$", documents.text(PAGE), re.M):
        faults += [] if balances(*(int(it) for it in line.split())) else [f"the accounts don't add up: {line}"]
    for received, sent, lost, failed in re.findall(r"^    worker 0 (\d+) (\d+) (\d+) (\d+)$", documents.text(PAGE), re.M):
        faults += [] if lost == failed == "0" else [f"the worker lost {lost} of {sent} and {received}"]
    return faults if calls == 2 else faults + [f"the page shows {calls} tables of calls"]
