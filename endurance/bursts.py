"""Peers send the media of all their calls at once, every 20 ms, as an Asterisk with `trunk=yes` does. The exchange loses no
frame, and packs its trunk frames full. `bench/bursts` measures with the parts of this file."""
from typing import NamedTuple

from exchange import PATIENCE, Exchange, plan_of, reported, spare_ports, tell_accounts

# The limits of the scene:
# - the calls of a burst, the most that a peer can have, and the seconds for which they send;
# - the most frames that the exchange may lose, apart from those that the system dropped at full sockets;
# - the fewest entries of a trunk datagram, on average: eight frames of G.711 fill one of 1,400 octets. Plans before version 4,
#   and a `trunk_ms` of 0, pack all queued media at each tick. So these have no limit, nor have too few calls to fill several
#   datagrams.
CALLS = 512
SECONDS = 2
MOST_LOST = 0
LEAST_ENTRIES = 7
ENOUGH_CALLS = 64
FORMAT = 4
# The most octets of a trunk frame: of the peers (`trunkmtu` of an Asterisk), and of the exchange.
PEERS_MTU, MTU = 1240, 1400
# Octets before the media: of a mini frame, of a trunk frame, of its entries without and with a timestamp, and of IPv4 and UDP.
MINI, TRUNK, ENTRY, STAMPED, HEADERS = 4, 8, 4, 6, 28
# The way in which media is sent, and its name for `paced`.
KINDS = {"mini": 0, "trunk": 1, "timestamps": 2}
FORMATS = {160: "ulaw", 33: "gsm"}


class Load(NamedTuple):
    """The media that peers send."""

    calls: int = CALLS
    # Pairs of these call each other; or this number of peers, if any, gather at one more.
    peers: int = 2
    gather: int = 0
    # Octets of media in a frame; the way in which media is sent to the exchange, and from there.
    octets: int = 160
    sends: str = "trunk"
    gets: str = "trunk"
    # Microseconds between two datagrams of a peer: 0 is back to back, -1 spreads them over `every_ms`.
    gap_us: float = 0
    # Milliseconds between two frames of a call.
    every_ms: int = 20
    # 1 if only the callers send.
    ways: int = 2
    # Peers that the plan has besides.
    silent: int = 0
    # Workers, which serve the peers by turns, and the number of their endpoints: one for all, or one each.
    workers: int = 1
    endpoints: int = 1

    def pairs(self):
        """Returns the caller, the called peer and the calls of each pair."""
        if self.gather:
            ends = [(place, self.gather) for place in range(self.gather)]
        else:
            ends = [(place, place + 1) for place in range(0, self.peers, 2)]
        each, more = divmod(self.calls, len(ends))
        return [(*it, each + (place < more)) for place, it in enumerate(ends)]

    def talking(self):
        return self.gather + 1 if self.gather else self.peers

    def numbers(self, peer):
        return sum(count for one, other, count in self.pairs() if peer in (one, other))

    def frames_in_one(self, kind, mtu):
        """Returns the greatest number of frames in a datagram of this kind."""
        if kind == "mini":
            return 1
        return (mtu - TRUNK) // (self.octets + (STAMPED if kind == "timestamps" else ENTRY))


def prefix_of(peer):
    return f"7{peer:02}"


def plan_of_load(load, ports, keys):
    trunk = {"trunk": load.gets != "mini", "trunk_timestamps": load.gets == "timestamps", "formats": [FORMATS[load.octets]]}
    own = ports[load.endpoints:]
    peers = {
        f"peer{place}": {"port": own[place], "worker": place % load.workers, "numbers": max(1, load.numbers(place))} | trunk
        for place in range(load.talking())
    }
    peers |= {f"silent{place}": {"port": own[load.talking() + place], "numbers": 8} for place in range(load.silent)}
    routes = {prefix_of(place): f"peer{place}" for place in range(load.talking())}
    workers = [ports[place % load.endpoints] for place in range(load.workers)]
    return plan_of(workers, peers, routes, **{"format": FORMAT, "ping_ms": 600000} | keys)


def paced_words(load, ports):
    own = ports[load.endpoints:]
    words = [
        f"peer={own[place]}:{ports[place % load.workers % load.endpoints]}:{prefix_of(place)}" for place in range(load.talking())
    ]
    words += [f"pair={one}:{other}:{count}" for one, other, count in load.pairs()]
    how = {
        "octets": load.octets, "gap_us": load.gap_us, "every_ms": load.every_ms, "ways": load.ways, "trunk": KINDS[load.sends],
        "mtu": PEERS_MTU,
    }
    return words + [f"{name}={value}" for name, value in how.items()]


def drops_at(port):
    """Returns the datagrams that the system dropped at the sockets of a local port."""
    with open("/proc/net/udp", encoding="ascii") as it:
        rows = [line.split() for line in it.readlines()[1:]]
    return sum(int(row[-1]) for row in rows if int(row[1].rpartition(":")[2], 16) == port)


def drops_on_the_way():
    """Returns the datagrams that the system dropped before any socket, because too many waited for a processor."""
    with open("/proc/net/softnet_stat", encoding="ascii") as it:
        return sum(int(line.split()[1], 16) for line in it)


def measured(tools, load, seconds, **keys):
    """Sends a load through the exchange. Returns the report of `paced` with the counts of the exchange and of the system, the
    exchange's status, and its last lines."""
    ports, on_the_way = spare_ports(load.endpoints + load.talking() + load.silent), drops_on_the_way()
    exchange = Exchange(tools.folder_of("bursts"), plan_of_load(load, ports, keys))
    try:
        paced = tools.start("paced", *paced_words(load, ports), seconds=seconds, process=exchange.process.pid, patience=PATIENCE)
        seen = reported(paced, seconds + 4 * PATIENCE)
        exchange.until_idle()
        seen["dropped_at_worker"] = sum(drops_at(it) for it in ports[:load.endpoints])
        seen["dropped_on_the_way"] = drops_on_the_way() - on_the_way
        seen["accounts"], seen["peers"] = exchange.ask("GET", "/accounts"), exchange.peers()
        status, lines = exchange.stop()
    finally:
        exchange.kill()
    return seen, status, lines


def lost_in_sending(seen):
    """Returns the datagrams that the exchange's sockets didn't take."""
    return sum(it["lost"] for it in seen["peers"].values())


def lost_in_outboxes(seen):
    """Returns the frames for which the exchange's outboxes had no room."""
    return sum(it["outbox_lost"] for it in seen["peers"].values())


def lost_by_system(load, seen):
    """Returns how many frames the system may have dropped, at full sockets or before them."""
    come, go = load.frames_in_one(load.sends, PEERS_MTU), load.frames_in_one(load.gets, MTU)
    return seen["dropped_at_worker"] * come + seen["drops"] * go + seen["dropped_on_the_way"] * max(come, go)


def entries_of(seen):
    """Returns the entries of a trunk datagram, on average."""
    return seen["entries"] / seen["trunks"] if seen["trunks"] else 0


def tell_loss(report, what, load, seen):
    lacking, by_system = seen["sent"] - seen["taken"], lost_by_system(load, seen)
    dropped = {"dropped_at_the_exchange's_sockets": seen["dropped_at_worker"], "at_the_peers'": seen["drops"]}
    dropped["on_the_way"] = seen["dropped_on_the_way"]
    own = {"octets_that_it_dropped": seen["accounts"]["dropped"], "datagrams_lost_in_sending": lost_in_sending(seen)}
    own["frames_lost_in_outboxes"] = lost_in_outboxes(seen)
    is_kept = seen["sent"] > 0 and lacking <= by_system + MOST_LOST and seen["accounts"]["dropped"] <= MOST_LOST * load.octets
    share = f"{lacking / max(1, seen['sent']):.3%}"
    report.tell(
        f"{what}, no frame is lost but by full sockets", is_kept, sent=seen["sent"], lacking=lacking, that_is=share, **dropped,
        **own,
    )
    wrong = {it: seen[it] for it in ("strange", "twice", "cut")}
    # A voice full frame, one in 65.5 s, may overtake media that waits for a trunk frame.
    is_kept = not any(wrong.values()) and seen["disordered"] <= seen["voices"]
    order = {"disordered": seen["disordered"], "voice_full_frames": seen["voices"]}
    report.tell(f"{what}, frames come once, in order, and in their call", is_kept, **wrong, **order)


def tell_packing(report, load, seen, is_full):
    entries, wire = entries_of(seen), seen["wire_octets"]
    as_minis = (seen["entries"] + seen["minis"]) * (HEADERS + MINI + load.octets)
    is_kept = seen["trunks"] > 0 == seen["minis"] and (entries >= LEAST_ENTRIES or not is_full)
    asked = f"at least {LEAST_ENTRIES}" if is_full else "any"
    report.tell(
        "media is packed into trunk frames", is_kept, f"{entries:.2f} entries a datagram, {asked}", octets=wire,
        as_mini_frames=as_minis,
    )


def tell_pace(report, what, seen):
    times = ", ".join(
        f"{name} {seen[key] / 1000:.1f}" for name, key in (("p50", "p50_us"), ("p99", "p99_us"), ("p99.9", "p999_us"))
    )
    report.note(f"{what}: {seen['turns']} bursts, {seen['left_out']} left out as the peers were late; latency in ms: {times}")


def run(tools, report, seconds, seed, **keys):
    # With the gate's share of a half, too, these are all calls.
    calls, lasts = min(CALLS, tools.some(2 * CALLS)), seconds / 3 if seconds else SECONDS
    keys = {"format": FORMAT} | {name: value for name, value in keys.items() if value is not None}
    # A burst of trunk frames that is sent on as mini frames fills an outbox unless turns are bounded.
    for sends, gets in (("trunk", "trunk"), ("trunk", "mini"), ("mini", "mini")):
        load, what = Load(calls=calls, sends=sends, gets=gets), f"{sends} to {gets}"
        seen, status, lines = measured(tools, load, lasts, **keys)
        tell_pace(report, what, seen)
        tell_loss(report, what, load, seen)
        if gets == "trunk":
            tell_packing(report, load, seen, calls >= ENOUGH_CALLS and keys["format"] >= 4 and keys.get("trunk_ms", 1) > 0)
        tell_accounts(report, f"the exchange, {what}", status, lines)
