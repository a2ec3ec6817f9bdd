"""The costs of a service at rest and of its calls: processor time, wake-ups, memory, octets of records. Each function of a row of
bench/table measures one round, and returns its figures by name."""
import os
import re
import shutil
import time

from exchange import PATIENCE, Exchange, plan_of, reported, spare_ports
from iax_test.waits import Failed, within
from memory import Memory

# Pairs of peers whose calls are held, and the calls of a pair, the most that a peer can have.
PAIRS, CALLS = 4, 512
LEGS = 2 * PAIRS * CALLS
# The calls that are set up and hung up at the same time.
AT_ONCE = 32
# The seconds after which a service that has started, or whose calls are set up, rests.
SETTLES = 1
# Milliseconds between two PINGs of a leg: no PING is sent while a round is measured, or each leg sends one in each second.
NO_PING, PING = 600_000, 1_000
# The name of a figure.
PROCESSOR = "percent of a processor"


def processor_seconds(process):
    """Returns the processor time of a process, with the system's for it."""
    # The clock that clock_getcpuclockid(3) returns on Linux; Python has no call for it.
    return time.clock_gettime((~process << 3) | 2)


def wake_ups(process):
    """Returns how often threads of a process have waited."""
    found = 0
    for thread in os.listdir(f"/proc/{process}/task"):
        with open(f"/proc/{process}/task/{thread}/status", encoding="ascii") as it:
            found += int(re.search(r"^voluntary_ctxt_switches:\s+(\d+)", it.read(), re.M)[1])
    return found


def at_rest(exchange, seconds):
    """Returns the share of a processor and the wake-ups a second of a service for whose peers nothing happens."""
    process = exchange.process.pid
    time.sleep(SETTLES)
    begun, used, woken = time.monotonic(), processor_seconds(process), wake_ups(process)
    time.sleep(seconds)
    used, woken, lasted = processor_seconds(process) - used, wake_ups(process) - woken, time.monotonic() - begun
    return {PROCESSOR: 100 * used / lasted, "wake-ups a second": woken / lasted}


def plan_of_pairs(ports, pairs, ping_ms, secret=None):
    """Returns a plan of one worker, and of pairs of peers, as `calls` plays them: with the words of its peers and routes."""
    given = {"numbers": CALLS, "user": "peer", "secret": secret} if secret else {"numbers": CALLS}
    peers = {f"peer{place}": {"port": port} | given for place, port in enumerate(ports[1:])}
    routes = {f"{place}": name for place, name in enumerate(peers)}
    words = [":".join(filter(None, (f"peer={port}", f"{ports[0]}", f"{place}", secret))) for place, port in enumerate(ports[1:])]
    words += [f"route={place}:{place + 1}" for place in range(0, 2 * pairs, 2)]
    return plan_of(ports[:1], peers, routes, format=4, ping_ms=ping_ms), words


def idle_service(tools, seconds):
    """Measures a service with two peers and one worker, without a call."""
    plan, _ = plan_of_pairs(spare_ports(3), 1, NO_PING)
    exchange = Exchange(tools.folder_of("idle"), plan)
    try:
        return at_rest(exchange, seconds) | {"KB": exchange.kilobytes()}
    finally:
        exchange.kill()


def held(tools, peers=2, workers=1, options=()):
    """Returns the octets that a service without a call has reserved, as it asked for them."""
    folder, ports = tools.folder_of("held"), spare_ports(workers + peers)
    memory = Memory(tools, f"{folder}/memory")
    names = {f"peer{place}": {"port": port, "worker": place % workers} for place, port in enumerate(ports[workers:])}
    exchange = Exchange(folder, plan_of(ports[:workers], names, {}, format=4), *options, environment=memory.environment)
    try:
        time.sleep(SETTLES / 4)
        found = memory.counts()[0]
    finally:
        exchange.kill()
    if not found:
        raise Failed("the program has another allocator, so its requests aren't counted")
    return found


def reserved(tools):
    """Measures the memory that is reserved at the start: for a peer, for call records, and for a further worker with these."""
    records = ("--calls", f"{tools.folder_of('held')}/calls.csv")
    plain, recorded = held(tools), held(tools, options=records)
    return {
        "KB of a peer": (held(tools, peers=4) - plain) / 2000,
        "KB of --calls": (recorded - plain) / 1000,
        "KB of a worker": (held(tools, workers=2, options=records) - recorded) / 1000,
    }


def legs_at_rest(tools, seconds, ping_ms=NO_PING):
    """Measures a service whose legs are up, without media. Peers answer PINGs and send none."""
    plan, words = plan_of_pairs(spare_ports(1 + 2 * PAIRS), PAIRS, ping_ms)
    exchange, wanted = Exchange(tools.folder_of("legs"), plan), PAIRS * CALLS
    held = {"total": wanted, "at_once": wanted, "hold_ms": 3_600_000, "retry_ms": 1000, "patience": PATIENCE}
    calls = tools.start("calls", *words, **held)
    try:
        within("all calls are up", PATIENCE, lambda: all_up(exchange.legs(), LEGS))
        return {PROCESSOR: at_rest(exchange, seconds)[PROCESSOR]}
    finally:
        calls.kill()
        calls.wait()
        exchange.kill()


def all_up(legs, wanted):
    """Returns whether this number of legs is there, and all are up."""
    return legs is not None and len(legs) == wanted and all(it["stage"] == "Up" for it in legs)


def a_ping(tools, seconds):
    """Measures a PING of the exchange and the peer's answer, by what legs take with PINGs and without."""
    # The legs' PINGs come together, so only a time of whole periods has its share of them.
    lasts = max(1, round(seconds * 1000 / PING)) * PING / 1000
    percent = legs_at_rest(tools, lasts, PING)[PROCESSOR] - legs_at_rest(tools, lasts)[PROCESSOR]
    # A percent of a processor is 10,000 microseconds of each second.
    return {"us": percent * 10_000 / (LEGS * 1000 / PING)}


def calls_over(tools, seconds, secret=None, options=()):
    """Has calls set up and hung up as fast as the peers can. Returns the processor time of the service and the calls."""
    plan, words = plan_of_pairs(spare_ports(3), 1, NO_PING, secret)
    exchange = Exchange(tools.folder_of("calls"), plan, *options)
    try:
        used = processor_seconds(exchange.process.pid)
        calls = tools.start("calls", *words, seconds=seconds, at_once=AT_ONCE, retry_ms=1000, patience=PATIENCE)
        seen = reported(calls, seconds + 2 * PATIENCE)
        used = processor_seconds(exchange.process.pid) - used
        exchange.until_idle()
        status, lines = exchange.stop()
    finally:
        exchange.kill()
    if status or not seen["placed"] == seen["ended"] > 0 or bool(secret) != (seen["challenged"] == 2 * seen["placed"]):
        raise Failed(f"the exchange ended with status {status}, {lines}; the peers: {seen}")
    return used, seen["ended"]


def a_call(tools, seconds, secret=None):
    """Measures a call that is set up, answered and hung up; with a secret both legs are challenged."""
    used, calls = calls_over(tools, seconds, secret)
    return {"us": used / calls * 1e6}


def a_record(tools, seconds):
    """Measures a row of the call records, one for each leg: its octets, and its processor time, by calls with records and calls
    without."""
    path = f"{tools.folder_of('calls')}/calls.csv"
    used, calls = calls_over(tools, seconds, options=("--calls", path))
    with open(path, "rb") as it:
        head, *rows = it.read().splitlines(keepends=True)
    os.remove(path)
    if not head or len(rows) != 2 * calls:
        raise Failed(f"{len(rows)} rows of {calls} calls")
    without = a_call(tools, seconds)["us"]
    return {"us": (used / calls * 1e6 - without) / 2, "octets": sum(map(len, rows)) / len(rows)}


def a_trace(tools, seconds):
    """Measures the octets that a trace has for each frame of G.711, all other lines included, while calls talk."""
    folder, (plan, words) = tools.folder_of("trace"), plan_of_pairs(spare_ports(3), 1, NO_PING)
    exchange = Exchange(folder, plan, "--trace", f"{folder}/files")
    talk = {"total": AT_ONCE, "at_once": AT_ONCE, "media_ms": 20, "hold_ms": round(1000 * seconds), "patience": PATIENCE}
    try:
        seen = reported(tools.start("calls", *words, **talk), seconds + 2 * PATIENCE)
        exchange.until_idle()
        exchange.stop()
        octets = sum(written(f"{folder}/files/{it}") for it in os.listdir(f"{folder}/files"))
    finally:
        exchange.kill()
    shutil.rmtree(folder)
    return {"octets a frame": octets / seen["media_sent"]}


def written(path):
    """Returns the octets of a file of a trace up to its end, which an octet 0 marks if older lines follow."""
    with open(path, "rb") as it:
        return len(it.read().partition(b"\0")[0])
