"""The text of a plan."""
import json

from .ports import LOOPBACK


def lines_of(keys):
    """Returns a line for each key whose value isn't None."""
    return "".join(f"{key} = {json.dumps(value)}\n" for key, value in keys.items() if value is not None)


def peer_text(keys, plan_format=1):
    """Returns the table of a peer by its keys: at loopback, with the first worker and the format ulaw unless these say
    otherwise. In a plan of format 4 it expects no POKE unless they say so."""
    usual = {"address": LOOPBACK, "worker": 0, "formats": ["ulaw"]} | ({"qualify_ms": 0} if plan_format == 4 else {})
    return "[[peer]]\n" + lines_of(usual | keys)


def plan_text(keys, workers, peers, routes=()):
    """Returns the text of a plan: its keys, its workers, each an address and a port, its peers, each by its keys, and its
    routes, each a prefix, the name of a peer, and that of its source if it has one."""
    text = lines_of(keys)
    for address, port in workers:
        text += "[[worker]]\n" + lines_of({"address": address, "port": port})
    text += "".join(peer_text(peer, keys["format"]) for peer in peers)
    return text + "".join("[[route]]\n" + lines_of(dict(zip(("prefix", "peer", "source"), route))) for route in routes)
