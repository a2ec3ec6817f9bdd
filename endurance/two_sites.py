"""Two exchanges, joined by a trunk over a network that loses, repeats, delays and reorders: calls both ways, with digits and
media both ways, hung up from both ends."""
from exchange import PATIENCE, RETRY_MS, Exchange, ended, plan_of, reported, spare_ports, tell_accounts

LOSS, REPEATS, DELAY, REORDER = 8, 5, 5, 20
SECRET = "between the two sites"
# The name that each exchange has for the other.
TRUNK_NAME = "far"
# The number of digits of a called number that select the called peer.
PREFIX = 2
TRUNK = {"user": "site", "secret": SECRET, "trunk": True, "numbers": 256}


class Sites:
    """Two exchanges, a network between them, and two peers at each: the first of each site has a secret."""

    def __init__(self, tools, name, seed, trunk=None, keys=None, **network):
        folder = tools.folder_of(name)
        self.ports = dict(zip(("a", "b", "net_a", "net_b", "west1", "west2", "east1", "east2"), spare_ports(8)))
        keys = keys or {}
        self.exchanges, self.records, self.network = [], [], None
        try:
            for worker, far, names, routes in (
                ("a", "net_a", ("west1", "west2"), {"11": "west1", "12": "west2", "2": TRUNK_NAME}),
                ("b", "net_b", ("east1", "east2"), {"21": "east1", "22": "east2", "1": TRUNK_NAME}),
            ):
                peers = {it: {"port": self.ports[it], "numbers": 128} | self.secret_of(it) for it in names}
                peers[TRUNK_NAME] = {"port": self.ports[far]} | TRUNK | (trunk or {})
                plan = plan_of([self.ports[worker]], peers, routes, **keys)
                self.records.append(f"{folder}/{worker}.csv")
                self.exchanges.append(Exchange(f"{folder}/{worker}", plan, "--calls", self.records[-1]))
            ends = [f"a={self.ports['net_a']}:{self.ports['a']}", f"b={self.ports['net_b']}:{self.ports['b']}"]
            self.network = tools.start("network", *ends, seed=seed, retry_ms=keys.get("retry_ms", RETRY_MS), **network)
        except BaseException:
            self.kill()
            raise

    @staticmethod
    def secret_of(name):
        return {"user": name, "secret": f"a secret of {name}"} if name.endswith("1") else {}

    def peer_words(self):
        """Returns the peers as `calls` takes them: 0 and 1 in the west, 2 and 3 in the east."""
        words = []
        for name, worker, prefix in (("west1", "a", "11"), ("west2", "a", "12"), ("east1", "b", "21"), ("east2", "b", "22")):
            secret = self.secret_of(name).get("secret")
            words.append(f"peer={self.ports[name]}:{self.ports[worker]}:{prefix}" + (f":{secret}" if secret else ""))
        return words

    def stop(self):
        """Ends everything; returns the output of each exchange, and the network's counts."""
        printed = [it.stop() for it in self.exchanges]
        return printed, ended(self.network)

    def kill(self):
        for it in self.exchanges:
            it.kill()
        if self.network and self.network.poll() is None:
            self.network.kill()
            self.network.wait()


def tell_calls(report, seen):
    """Reports the promises about calls that were placed, whatever is between their ends."""
    refused = {name: seen[name] for name in ("rejected", "cut", "inval", "stuck")}
    is_whole = seen["placed"] == seen["answered"] == seen["ended"] > 0 and not any(refused.values())
    counts = {name: seen[name] for name in ("placed", "answered", "ended")}
    report.tell("each call is answered, and ends once it is hung up", is_whole, **counts, **refused)
    offers = {name: seen[name] for name in ("offered_twice", "misrouted")}
    report.tell("each call is offered once, where it leads to", not any(offers.values()), **offers)
    digits = {name: seen[name] for name in ("digits_sent", "digits_taken", "wrong_digits", "lacking_digits")}
    report.tell(
        "each digit is taken once and in order", seen["digits_taken"] > 0 and seen["wrong_digits"] + seen["lacking_digits"] == 0,
        **digits,
    )
    hangups = {
        name: seen[name]
        for name in ("hung_up_by_caller", "hung_up_by_called", "hangups_missing", "hangups_twice", "hangups_back")
    }
    wrong = seen["hangups_missing"] + seen["hangups_twice"] + seen["hangups_back"]
    from_both = seen["placed"] < 20 or seen["hung_up_by_caller"] * seen["hung_up_by_called"] > 0
    report.tell("each call is hung up once at its far end", wrong == 0 and from_both, **hangups)


def tell_media(report, seen):
    media = {name: seen[name] for name in ("media_sent", "media_taken", "wrong_media")}
    report.tell("no media of another call", seen["wrong_media"] == 0 < seen["media_taken"], **media)


def run(tools, report, seconds, seed, spoil=None):
    sites = Sites(tools, "two_sites", seed, loss=LOSS, repeats=REPEATS, delay_ms=DELAY, reorder_ms=REORDER, spoil=spoil)
    try:
        routes = ["route=0:2", "route=2:0", "route=1:3", "route=3:1", "route=0:3", "route=2:1"]
        load = {"total": tools.some(48)} if seconds is None else {"seconds": seconds}
        talk = {"digits": 12, "early": 4, "media_ms": 40, "hold_ms": 500, "ping_ms": 700, "patience": PATIENCE}
        calls = tools.start("calls", *sites.peer_words(), *routes, **load, **talk, at_once=tools.some(24), seed=seed)
        seen = reported(calls, (seconds or 0) + 3 * PATIENCE)
        for it in sites.exchanges:
            it.until_idle()
        printed, network = sites.stop()
    finally:
        sites.kill()
    tell_calls(report, seen)
    report.tell(
        "challenges are answered", seen["challenged"] > 0 == seen["bad_answers"], challenged=seen["challenged"],
        bad_answers=seen["bad_answers"],
    )
    tell_media(report, seen)
    for name, (status, lines) in zip(("the west", "the east"), printed):
        tell_accounts(report, name, status, lines)
    report.tell(
        "the network was bad", network["lost"] * network["repeated"] * network["by_timer"] * network["for_vnak"] > 0, **network
    )
