"""The parts of docs/PERFORMANCE.md."""
from functools import partial

from .pages import plus_minus, scaled, table, with_error
from .results import RATIO, read

# The rows of the first table: their words, the row and the figure of bench/results/table.json, and a factor.
SPEEDS = (
    ("`serve` to the relay, 1 call", "serve to the relay, 1 call", RATIO, 1),
    (".. 10 calls", "serve to the relay, 10 calls", RATIO, 1),
    (".. 100 calls", "serve to the relay, 100 calls", RATIO, 1),
    (".. 500 calls", "serve to the relay, 500 calls", RATIO, 1),
    (".. 100 calls, trunks both ways", "serve to the relay, 100 calls, trunks both ways", RATIO, 1),
    (".. 500 calls, trunks both ways", "serve to the relay, 500 calls, trunks both ways", RATIO, 1),
    ("`run`, with a client that asks, to `serve`", "run with a client that asks to serve, 100 calls", RATIO, 1),
    ("`run --calls` to `run`, 50 calls end a second", "run --calls to run, 100 calls, 50 ends a second", RATIO, 1),
    ("`run --trace` to `run`", "run --trace to run, 100 calls", RATIO, 1),
    ("32 peers, 30 of them silent, to 2", "32 peers to 2, 100 calls", RATIO, 1),
    ("4 workers to 1", "4 workers to 1, 100 calls each", RATIO, 1),
    ("4 relays to 1", "4 relays to 1", RATIO, 1),
    ("set-up of a call, us", "set-up of a call", "us", 1),
    (".. without the calls of sockets", "set-up of a call", "us without sockets", 1),
    ("copies for a mini frame", "copies for a mini frame", "calls", 1),
    (".. octets in them", "copies for a mini frame", "octets", 1),
    ("`replay`, thousand lines a second, no call", "replay, no call", "lines a second", 1e-3),
    (".. media of 500 calls", "replay, media of 500 calls", "lines a second", 1e-3),
)
# The loads of the table of bursts: octets of media, calls, spacing, and how media comes in and goes out.
FORMATS = {160: "G.711", 33: "GSM"}
LOADS = (
    (160, 512, "at once", "trunk", "trunk"),
    (160, 512, "at once", "trunk", "mini"),
    (160, 512, "at once", "mini", "trunk"),
    (160, 512, "at once", "mini", "mini"),
    (160, 512, "spread", "mini", "mini"),
    (160, 10, "spread", "trunk", "trunk"),
    (33, 512, "at once", "trunk", "trunk"),
    (33, 10, "spread", "mini", "trunk"),
)
# The ways to lose frames: their words, and the figure of bench/results/bursts.json.
LOSSES = (
    ("Dropped", "dropped"),
    ("Full outboxes", "outboxes"),
    ("In sending", "lost"),
    ("Full sockets", "sockets"),
    ("Uncounted", "uncounted"),
)
WAYS = (("trunk", "trunk"), ("trunk", "mini"), ("mini", "trunk"), ("mini", "mini"))
LATENCIES = ("p50", "p99", "p99.9")
WORKERS_CALLS = (128, 256, 512)
RATES = ("5,000", "30,000", "100,000")


def row_of_load(octets, calls, apart, sends, gets):
    """Returns the name of a load's row in bench/results/bursts.json."""
    return f"{sends}, {gets}, {octets}, {calls}, {apart}"


def place_of(found):
    """Returns a line that says on which machine was measured."""
    fact = found.fact
    system = f"Linux {fact('kernel')}, `net.core.rmem_max` {fact('rmem_max'):,}"
    return f"{fact('processor')}, {fact('processors')} processors, {system}."


def circumstances(folder):
    """Makes a line for each machine, and the table of when and how often was measured."""
    everything = {name: read(folder, name) for name in ("table", "bursts", "workers", "processor")}
    rows = []
    for name, found in everything.items():
        spread = f"{100 * found.fact('relay_spread'):.0f} %" if name in ("table", "processor") else ""
        rows.append((f"`{name}.json`", *(found.fact(it) for it in ("date", "rounds")), f"{found.fact('seconds'):g} s", spread))
    places = sorted({place_of(it) for it in everything.values()})
    return "\n".join(places) + "\n\n" + table(("Results", "Date", "Rounds", "Each lasts", "The relay's runs differ by"), rows)


def speeds(folder):
    """Makes the table of ratios and amounts."""
    found = read(folder, "table")
    rows = [(what, *with_error(scaled(found.figure(row, name), factor))) for what, row, name, factor in SPEEDS]
    return table(("What", "Result", "Error"), rows)


def bursts(folder):
    """Makes the table of loads that peers send at once, or spread."""
    found, rows = read(folder, "bursts"), []
    for load in LOADS:
        octets, calls, apart, sends, gets = load
        figure = partial(found.figure, row_of_load(*load))
        entries = plus_minus(figure("entries")) if gets == "trunk" else ""
        times = ", ".join(f"{figure(it).mean:.1f}" for it in LATENCIES)
        packing = (entries, f"{figure('wire').mean:.2f}")
        what = f"{FORMATS[octets]}, {calls} calls, {apart}"
        rows.append((what, f"{sends}, {gets}", *packing, times, plus_minus(figure("us"))))
    head = ("Load", "In, out", "Entries", "Octets, to mini frames", "p50, p99, p99.9, ms", "us a frame")
    return table(head, rows)


def losses(folder):
    """Makes the table of all frames of all loads that didn't come."""
    found = read(folder, "bursts")
    runs = found.fact("rounds") * len(found.rows)
    greatest = max(found.figure(row, "loss %").mean for row in found.rows)
    sums = (sum(found.figure(row, name).mean for row in found.rows) * found.fact("rounds") for _, name in LOSSES)
    cells = (len(found.rows), runs, f"{greatest:.2f} %", *(f"{it:,.0f}" for it in sums))
    return table(("Loads", "Runs", "Greatest loss of a load", *(what for what, _ in LOSSES)), [cells])


def row_of_workers(endpoints, way, calls):
    """Returns the name of a row in bench/results/workers.json."""
    return f"{endpoints}, {', '.join(way)}, {calls}"


def workers(folder):
    """Makes the table of workers whose peers send to one peer: with fewer calls the greatest loss of all ways, with most each."""
    found, (*fewer, most) = read(folder, "workers"), WORKERS_CALLS
    kinds, rows = ("one each", "shared"), []
    lost = {(kind, way, calls): found.figure(row_of_workers(kind, way, calls), "loss %").mean
            for kind in kinds for way in WAYS for calls in WORKERS_CALLS}
    greatest = [max(lost[kind, way, calls] for way in WAYS for calls in fewer) for kind in kinds]
    rows.append((", ".join(f"{it}" for it in fewer), "every way, at most", *(f"{it:.1f}" for it in greatest), ""))
    for way in WAYS:
        row = row_of_workers(kinds[0], way, most)
        times = ", ".join(f"{found.figure(row, it).mean:.1f}" for it in LATENCIES)
        rows.append((most, ", ".join(way), *(f"{lost[kind, way, most]:.1f}" for kind in kinds), times))
    return table(("Calls", "In, out", "Lost, %, endpoint each", "one endpoint", "p50, p99, p99.9, ms"), rows)


def rates(folder):
    """Makes the table of processor time for a frame at ordinary rates."""
    found = read(folder, "processor")
    others = ("exchange, 2 peers", "exchange, 32 peers, 30 silent")
    rows = []
    for rate in RATES:
        relay = plus_minus(found.figure(f"{rate}, relay", "us"))
        rows.append((rate, relay, *(plus_minus(found.figure(f"{rate}, {it}", RATIO)) for it in others)))
    return table(("Frames a second", "Relay, us", "2 peers", "32 peers, 30 silent"), rows)


def parts(folder):
    """Returns the parts of the page by their names."""
    return {it.__name__: partial(it, folder) for it in (circumstances, speeds, losses, bursts, workers, rates)}
