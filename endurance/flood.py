"""A peer of the plan and strangers send as many datagrams as the exchange takes, of all kinds, during the calls of other
peers. These calls lose nothing but media that a full socket dropped."""
from exchange import PATIENCE, Exchange, plan_of, reported, spare_ports, tell_accounts
from iax_test.peers import Peer
from two_sites import tell_calls, tell_media

# No chance makes a called number of the flood begin like one of these.
WEST, EAST, FLOOD = "8888888881", "8888888882", "9"
# Names of refusals that a flood of all kinds has to meet.
REFUSALS = {"Short", "NoCall", "NoSource", "Cut", "EntryCut", "MetaCommand", "TooLong", "NoNumber"}


def plan_of_flood(ports):
    """The calls' peers have one worker. The peer that isn't trusted has another, with a peer for its calls that never
    answers."""
    peers = {
        "west": {"port": ports["west"], "user": "west", "secret": "of the west"},
        "east": {"port": ports["east"]},
        "flood": {"port": ports["flood"], "worker": 1, "numbers": 32},
        "silent": {"port": ports["silent"], "worker": 1, "numbers": 16},
    }
    workers = [ports["worker0"], ports["worker1"]]
    return plan_of(workers, peers, {WEST: "west", EAST: "east", FLOOD: "silent"}, retry_ms=500, ping_ms=5000)


def start_floods(tools, ports, count, burst, seconds, seed):
    """Starts the flood of the peer at its worker, and that of a stranger at each worker. Returns their programs."""
    floods = [("flood", "worker1"), ("stranger0", "worker0"), ("stranger1", "worker1")]
    return [
        tools.start(
            "flood", f"from={ports[name]}", f"to={ports[worker]}", count=count, seconds=seconds, prefix=FLOOD, long_burst=burst,
            seed=seed + place,
        )
        for place, (name, worker) in enumerate(floods)
    ]


def tell_flood(report, sent, metrics):
    total = sum(it["sent"] for it in sent)
    kinds = {name: sum(it[name] for it in sent) for name in ("calls", "frames", "minis", "trunks", "by_chance", "mutated", "cut")}
    received = metrics['iax_datagrams_received_total{peer="flood"}'] + metrics["iax_strangers_total"]
    bursts = sum(it["long_bursts"] for it in sent)
    is_a_flood = received > 0 and min(kinds.values()) > 0
    report.tell("the exchange took a flood", is_a_flood, datagrams=total, of_these_received=received, long_bursts=bursts, **kinds)
    refused = {
        name.split('refusal="')[1].split('"')[0]: value
        for name, value in metrics.items() if 'peer="flood",refusal="' in name and value
    }
    report.tell("what is no frame of a call is refused by name", REFUSALS <= set(refused), **refused)


def tell_lost_media(report, seen, dropped):
    lacking = seen["media_sent"] - seen["media_taken"]
    report.tell(
        "media lacks only where a full socket dropped it", 0 <= lacking <= sum(dropped.values()), lacking=lacking, **dropped
    )


def run(tools, report, seconds, seed):
    names = ("worker0", "worker1", "west", "east", "flood", "silent", "stranger0", "stranger1")
    ports = dict(zip(names, spare_ports(len(names))))
    lasts, count, burst = (5, tools.some(60_000), tools.some(5000)) if seconds is None else (seconds, 1 << 40, tools.some(20_000))
    exchange = Exchange(tools.folder_of("flood"), plan_of_flood(ports))
    silent = Peer(port=ports["silent"])
    try:
        peers = [f"peer={ports['west']}:{ports['worker0']}:{WEST}:of the west", f"peer={ports['east']}:{ports['worker0']}:{EAST}"]
        talk = {"digits": 20, "digit_ms": 20, "media_ms": 60, "hold_ms": 500, "retry_ms": 500, "patience": PATIENCE}
        calls = tools.start(
            "calls", *peers, "route=0:1", "route=1:0", seconds=lasts, at_once=max(2, tools.some(8)), **talk, seed=seed
        )
        floods = start_floods(tools, ports, count, burst, lasts, seed)
        sent = [reported(it, lasts + PATIENCE) for it in floods]
        seen = reported(calls, lasts + 2 * PATIENCE)
        metrics = exchange.metrics()
        lost = sum(value for name, value in metrics.items() if name.startswith("iax_datagrams_lost_total"))
        dropped = {"dropped_at_their_worker": exchange.drops_at(ports["worker0"]), "dropped_at_the_peers": seen["drops"]}
        dropped["lost_in_sending"] = lost
        status, lines = exchange.stop()
    finally:
        silent.close()
        exchange.kill()
    tell_flood(report, sent, metrics)
    tell_calls(report, seen)
    tell_media(report, seen)
    tell_lost_media(report, seen, dropped)
    tell_accounts(report, "the exchange", status, lines)
