"""Shared parts of the gate's scripts that run the program: the service, its plan, and its clients. tools/iax_test has the
peers.

They need the program as `rt ci` has built it. A failed check ends a script, with its name and a sentence."""
import itertools
import json
import os
import re
import resource
import socket
import subprocess
import sys
import time
import tomllib

from iax_test import plans, service
from iax_test.control import answer_to, read_all, request
from iax_test.ports import LOOPBACK, is_spare
from iax_test.protocol import Element
from iax_test.service import PROGRAM
from iax_test.waits import Failed

TOP = os.path.dirname(os.path.dirname(os.path.realpath(__file__)))
PART = os.path.basename(sys.argv[0])
# Below those of endurance/, which begin at 11000.
PORTS = itertools.count(6000 + 800 * ("service", "control", "call_files", "traces", "sizes", "starts").index(PART))


def run_checks(main):
    """Runs the main function of a script."""
    try:
        main()
    except Failed as failed:
        raise SystemExit(f"{PART}: {failed}") from None


def same(what, found, wanted):
    """Fails unless both values are the same."""
    if found != wanted:
        raise Failed(f"{what}: {found!r}, not {wanted!r}")


# The message of a service that runs as root, behind the level.
AS_ROOT = "runs as root: a user of its own is enough"


def without_root(logged):
    """Returns the lines of a log, except the one that says that the service runs as root."""
    return "".join(line for line in logged.splitlines(True) if not line.endswith(f" {AS_ROOT}\n"))


def plan_text(workers, peers, head="format = 1"):
    """Returns the text of a plan: its head, its workers, each an address and a port, and its peers. A peer is a name, its
    port at loopback, the place of its worker, its number of call numbers, and further lines. Numbers that begin with 3 lead
    to the peer `east`, if there is one."""
    rows = [
        {"name": name, "port": port, "worker": worker, "numbers": numbers} | tomllib.loads("\n".join(lines))
        for name, port, worker, numbers, *lines in peers
    ]
    routes = [("3", row["name"]) for row in rows if row["name"] == "east"]
    return plans.plan_text(tomllib.loads(head), workers, rows, routes)


def write_plan(file, worker, west, east):
    """Writes the plan of a worker with two peers, of which the west has a secret."""
    secret = ('user = "exchange"', 'secret = "a secret of the west"')
    with open(file, "w", encoding="utf-8") as plan:
        peers = [("west", west.port, 0, 4, *secret), ("east", east.port, 0, 4)]
        plan.write(plan_text([(LOOPBACK, worker)], peers, "format = 1\nrecord_limit = 65536"))


def element_of(frame, code):
    """Returns the value of an information element of a full frame. Fails without it."""
    value = frame.element(code)
    if value is None:
        raise Failed(f"no element {code:#x} in {frame.packed().hex()}")
    return value


def challenge_of(frame):
    """Returns the challenge of an AUTHREQ."""
    return element_of(frame, Element.CHALLENGE)


def spare(kind):
    """Returns a port that nobody has. Each part has its own ports, which the system gives nobody. Parts run at the same
    time, so another program could get a released port before this one binds it."""
    return next(port for port in PORTS if is_spare(port, kind))


def spare_port():
    return spare(socket.SOCK_DGRAM)


def spare_tcp_port():
    return spare(socket.SOCK_STREAM)


def status_and_body(octets):
    head, _, body = octets.partition(b"\r\n\r\n")
    lines = head.split(b"\r\n")
    fields = dict(line.split(b": ", 1) for line in lines[1:])
    same("Content-Length", int(fields[b"Content-Length"]), len(body))
    return int(lines[0].split()[1]), json.loads(body), fields


def said(path, octets):
    """Returns the service's answer to these octets."""
    return status_and_body(answer_to(path, octets))


def ask(path, method, target, body=None):
    return said(path, request(method, target, body))[:2]


def ctl(path, *words):
    """Returns the output of `ctl`, and its status."""
    done = subprocess.run([*PROGRAM, "ctl", path, *words], capture_output=True, text=True, timeout=20)
    return done.stdout, done.returncode


LABEL = r'([a-z_]+)="((?:[^"\\\\\n]|\\\\["n\\\\])*)"'
SAMPLE = re.compile(rf"([a-z_]+)(?:{{({LABEL}(?:,{LABEL})*)}})? ([0-9]+)")


def samples_of(text):
    """Returns the samples of a text in Prometheus' form, by name and labels, each below the HELP and TYPE of its family."""
    samples, name, kind = {}, None, None
    for line in text.splitlines():
        if line.startswith("# HELP "):
            name, kind = line.split(" ", 3)[2], None
            same(f"what {name} means", len(line.split(" ", 3)[3]) > 10, True)
            same(f"{name} comes once", any(sample[0] == name for sample in samples), False)
        elif line.startswith("# TYPE "):
            same("HELP stands before TYPE", line.split()[2], name)
            kind = line.split()[3]
            same(f"the kind of {name}", kind, "counter" if name.endswith("_total") else "gauge")
        else:
            read = SAMPLE.fullmatch(line)
            same(f"a sample: {line!r}", read is not None and (read[1], kind is None), (name, False))
            labels = tuple(re.findall(LABEL, read[2] or ""))
            same(f"{line} comes once", (name, labels) in samples, False)
            samples[name, labels] = int(read[len(read.groups())])
    return samples


# The moment of the last scrape of each port. The service makes metrics once a second at most.
SCRAPED_AT = {}


def scraped(port, request=b"GET /metrics HTTP/1.1\r\nHost: x\r\n\r\n"):
    """Returns the status, the body and the fields of the answer at the metrics' address."""
    with socket.create_connection((LOOPBACK, port), timeout=10) as client:
        client.sendall(request)
        head, _, body = read_all(client).partition(b"\r\n\r\n")
    SCRAPED_AT[port] = time.monotonic()
    lines = head.split(b"\r\n")
    fields = dict(line.split(b": ", 1) for line in lines[1:])
    same("Content-Length", int(fields[b"Content-Length"]), len(body))
    return int(lines[0].split()[1]), body.decode(), fields


def metrics(port):
    """Returns the samples of metrics that are made for this request, if nobody else scrapes the port."""
    time.sleep(max(0, SCRAPED_AT.get(port, 0) + 1.05 - time.monotonic()))
    status, body, fields = scraped(port)
    same("GET /metrics", (status, fields[b"Content-Type"]), (200, b"text/plain; version=0.0.4"))
    return samples_of(body)


def of(name, **labels):
    return name, tuple(labels.items())


class Service(service.Service):
    """The program, running, with a limit on the size of files if one is given. Its log is written to a file."""

    def __init__(self, plan, path, *options, environment=None, limit=None):
        limits = (lambda: resource.setrlimit(resource.RLIMIT_FSIZE, (limit, limit))) if limit else None
        super().__init__(plan, path, *options, log=f"{path}.log", environment=environment, before=limits)


def stages(path):
    status, calls = ask(path, "GET", "/calls")
    same("GET /calls", status, 200)
    return {call["number"]: call["stage"] for call in calls["calls"]}
