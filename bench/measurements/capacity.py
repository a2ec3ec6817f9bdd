"""The parts of docs/CAPACITY.md: results in the units of a plan, and the reckoning for large systems. All assumptions are
here."""
import math
from functools import partial

from .pages import plus_minus, rounded, scaled, table
from .performance import row_of_load
from .results import RATIO, read

# The most peers and workers of an exchange, and the most numbers of a peer: docs/PLAN.md, "The keys". A call has two legs.
PEERS, WORKERS, NUMBERS = 32, 8, 512
LEGS = PEERS * NUMBERS
# The calls of an exchange: half of the most that it can have.
CALLS = LEGS // 2 // 2
# The minutes of a call: an assumption of the reckoning, as is that calls come alike day and night.
MINUTES = 3
# Frames a second that an exchange receives for a call: one each 20 ms from both sides, as all measurements have it.
FRAMES = 100
# Octets of G.711 in 20 ms (ITU-T G.711: 8,000 a second), of a mini frame before its media (RFC 5456 section 8.1.2), and of IPv4
# and UDP before that (RFC 791, RFC 768).
MEDIA, MINI, HEADERS = 160, 4, 28
# Entries of a talking leg's record in a minute, and the octets of an entry with its data: docs/PLAN.md, "How long a call can
# last".
ENTRIES, ENTRY = 38, 24
# Seconds between two PINGs of a leg, unless the plan says otherwise: docs/PLAN.md, `ping_ms`.
PING = 20
# The calls of the measured loads, and the legs of the measurement at rest (bench/costs.py).
MEASURED_CALLS, MEASURED_LEGS = 512, 4096
# The loads of a processor: how media comes in, goes out, and is spaced.
LOADS = (
    ("trunk", "trunk", "at once"),
    ("trunk", "trunk", "spread"),
    ("trunk", "mini", "at once"),
    ("mini", "mini", "at once"),
    ("mini", "mini", "spread"),
)
# The systems of the reckoning, in calls at once.
SYSTEMS = (10_000, 100_000, 1_000_000)


def limits(folder):
    """Makes the table of limits by design, for which no result is needed."""
    del folder
    return table(("Limit", "Value"), [
        ("legs of a peer", f"{NUMBERS} (`numbers`); a site with more takes several peers"),
        ("peers, workers", f"{PEERS}, {WORKERS}"),
        ("legs of an exchange", f"{LEGS:,}, so {LEGS // 2:,} joined calls"),
        ("length of a call", "[`record_limit`](PLAN.md#how-long-a-call-can-last)"),
    ])


def share_of(us, calls):
    """Returns how much of a processor the media of calls takes, by the microseconds for a frame."""
    return scaled(us, FRAMES * calls / 1e6)


def calls_of_processor(us):
    """Returns the calls whose media fills a processor."""
    return 1e6 / (FRAMES * us.mean)


def media_us(folder, sends, gets, apart="at once"):
    """Returns the microseconds of processor time for a frame of G.711 with 512 calls."""
    return read(folder, "bursts").figure(row_of_load(MEDIA, MEASURED_CALLS, apart, sends, gets), "us")


def processor(folder):
    """Makes the table of calls that a processor carries."""
    rows = []
    for sends, gets, apart in LOADS:
        us = media_us(folder, sends, gets, apart)
        used = plus_minus(share_of(scaled(us, 100), MEASURED_CALLS))
        rows.append((f"{sends}, {gets}", apart, plus_minus(us), used, rounded(calls_of_processor(us), 2)))
    return table(("In, out", "Datagrams", "us a frame", "512 calls, %", "Reckoned: calls a processor"), rows)


def percent_at_rest(found, legs):
    """Returns the percent of a processor that a service with legs at rest takes: its share without them, theirs, and that of
    their PINGs."""
    rows = ("idle service", f"{MEASURED_LEGS:,} legs at rest")
    idle, loaded = (found.figure(row, "percent of a processor").mean for row in rows)
    # A microsecond of each second is a ten thousandth of a percent.
    pings = legs / PING * found.figure("PING and PONG of a leg", "us").mean / 10_000
    return idle + (loaded - idle) * legs / MEASURED_LEGS + pings


def others(folder):
    """Makes the table of other work."""
    found = read(folder, "table")
    us = [
        ("a call: set-up, answer and end", "set-up and end of a call"),
        (".. with MD5 on both legs", "set-up and end of a call, MD5 on both legs"),
        ("a row of `--calls`, one for each leg", "row of the call records"),
        ("a PING and its PONG", "PING and PONG of a leg"),
    ]
    rows = [(what, f"{plus_minus(found.figure(row, 'us'))} us") for what, row in us]
    idle = (found.figure("idle service", it) for it in ("percent of a processor", "wake-ups a second"))
    percent, wake_ups = (rounded(it.mean, 2) for it in idle)
    at_rest = percent_at_rest(found, LEGS)
    workers = found.figure("4 workers to 1, 100 calls each", RATIO)
    return table(("Other work", "Processor time"), [
        *rows,
        ("an idle service, one worker", f"{percent} % of a processor, {wake_ups} wake-ups a second"),
        (f"reckoned: {LEGS:,} legs at rest, a PING each {PING} s", f"{rounded(at_rest, 2)} % of a processor"),
        ("4 workers", f"{plus_minus(workers)} times the frames of one"),
    ])


def record_kilobytes(minutes):
    """Returns by how much the record of a talking leg grows."""
    return minutes * ENTRIES * ENTRY / 1000


def stream_kilobits(wire=1):
    """Returns the network's load of one way of a call, by the octets to those of mini frames."""
    return wire * (MEDIA + MINI + HEADERS) * 8 * FRAMES / 2 / 1000


def wire_of(folder, octets):
    """Returns the octets of full trunk frames, to those of mini frames."""
    return read(folder, "bursts").figure(row_of_load(octets, MEASURED_CALLS, "at once", "trunk", "trunk"), "wire").mean


def memory(folder):
    """Makes the table of memory."""
    found = read(folder, "table")
    idle, call = found.figure("idle service", "KB"), found.figure("set-up of a call", "KB")
    names = ("a peer", "--calls", "a worker")
    peer, records, worker = (found.figure("reserved memory", f"KB of {it}").mean / 1000 for it in names)
    return table(("What", "Memory"), [
        ("an idle service with two peers", f"{rounded(idle.mean / 1000, 2)} MB"),
        ("reserved for a peer", f"{rounded(peer, 2)} MB"),
        ("reserved for `--calls`", f"{rounded(records, 2)} MB, and {rounded(worker, 2)} MB for each further worker"),
        ("a call at its set-up", f"{plus_minus(call)} KB"),
        ("reckoned: a call that talks, each hour", f"{rounded(2 * record_kilobytes(60), 2)} KB"),
    ])


def disk_and_network(folder):
    """Makes the table of disk and network."""
    found = read(folder, "table")
    row, frame = found.figure("row of the call records", "octets").mean, found.figure("trace of voice", "octets a frame").mean
    return table(("What", "Amount"), [
        ("a call's two rows", f"{rounded(2 * row, 2)} octets; a million calls {rounded(2 * row, 2)} MB"),
        ("a trace of 100 calls of voice", f"{rounded(100 * FRAMES * frame / 1e6, 2)} MB a second"),
        ("a way of a call, mini frames", f"{rounded(stream_kilobits())} kbit/s; a call has two in and two out"),
        ("full trunk frames, to that", f"G.711 {wire_of(folder, MEDIA):.2f}, GSM {wire_of(folder, 33):.2f}"),
    ])


def system(folder, calls):
    """Returns what a system needs for this number of calls at once: a list of names and amounts."""
    found, set_ups = read(folder, "table"), calls / (MINUTES * 60)
    busy = found.figure("set-up and end of a call, MD5 on both legs", "us").mean * set_ups / 1e6
    held = found.figure("set-up of a call", "KB").mean + 2 * record_kilobytes(MINUTES)
    network = 2 * calls * stream_kilobits(wire_of(folder, MEDIA)) / 1e6
    rows = 2 * found.figure("row of the call records", "octets").mean * set_ups * 86_400 / 1e9
    trunks, spread = media_us(folder, "trunk", "trunk"), media_us(folder, "mini", "mini", "spread")
    return [
        ("exchanges", f"{math.ceil(calls / CALLS)}"),
        ("processors, trunk frames at once", rounded(share_of(trunks, calls).mean, 2)),
        ("processors, mini frames spread", rounded(share_of(spread, calls).mean, 2)),
        ("set-ups a second", rounded(set_ups)),
        ("processors for calls with MD5", rounded(busy, 2)),
        ("memory for calls, GB", rounded(held * calls / 1e6, 2)),
        ("network each way, trunk frames, Gbit/s", rounded(network, 2)),
        ("call records a day, GB", rounded(rows, 2)),
    ]


def reckoning(folder):
    """Makes the table of large systems."""
    columns = [system(folder, it) for it in SYSTEMS]
    rows = [(names[0][0], *(amount for _, amount in names)) for names in zip(*columns)]
    share = share_of(media_us(folder, "trunk", "trunk"), CALLS).mean
    text = (
        f"Assumptions: at most {PEERS} sites, each a peer of every exchange; {CALLS:,} calls an exchange, half of its limit;"
        f" calls of {MINUTES} minutes, day and night, each through one exchange. With trunk frames at once the media of an"
        f" exchange then takes {rounded(100 * share, 2)} % of a processor."
    )
    return text + "\n\n" + table(("Calls at once", *(f"{it:,}" for it in SYSTEMS)), rows)


def parts(folder):
    """Returns the parts of the page by their names."""
    names = {it.__name__.replace("_", " "): it for it in (limits, processor, others, memory, disk_and_network, reckoning)}
    return {name: partial(it, folder) for name, it in names.items()}
