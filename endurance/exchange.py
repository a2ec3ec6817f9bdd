"""The program under load: its plan, its start and stop, and the output of its control socket, metrics and accounts; and the C
programs of this folder."""
import csv
import ctypes
import json
import os
import re
import signal
import socket
import subprocess

from iax_test.plans import plan_text
from iax_test.ports import LOOPBACK, is_spare, spare_port_of_system
from iax_test.service import Service
from iax_test.waits import Failed, within

HERE = os.path.dirname(os.path.realpath(__file__))
# The time that a step may take on a busy machine, in seconds.
PATIENCE = 60
# The time for which a frame waits for its acknowledgement unless a plan sets it, in milliseconds; with twenty retries a
# machine may stand still for some seconds before a call is given up.
RETRY_MS = 400


def ends_with_this():
    """Makes a started process end when this one does, for any reason (PR_SET_PDEATHSIG)."""
    ctypes.CDLL(None).prctl(1, signal.SIGKILL)


class Report:
    """One line for each promise of a scene, with the values seen."""

    def __init__(self, scene):
        self.scene, self.broken, self.count = scene, 0, 0
        # The named values of each promise, and the other results of the scene by row.
        self.promises, self.rows = {}, {}

    def tell(self, promise, is_kept, *seen, **named):
        """Prints whether a promise is kept, with the values seen."""
        said = [str(it) for it in seen] + [f"{name.replace('_', ' ')} {value}" for name, value in named.items()]
        print(f"{self.scene:<10} {'ok' if is_kept else 'BROKEN':<6} {promise}: {', '.join(said)}", flush=True)
        self.count += 1
        self.broken += not is_kept
        # A scene with several parts makes some promises in each.
        times = sum(it.partition(" (part ")[0] == promise for it in self.promises)
        values = {name: value for name, value in named.items() if isinstance(value, (int, float, str))}
        self.promises[f"{promise} (part {times + 1})" if times else promise] = {"is_kept": bool(is_kept)} | values

    def note(self, text):
        print(f"{self.scene:<10}        {text}", flush=True)


class Tools:
    """The C programs of this folder and of bench/, each built when it is first needed, and the folder for the files of
    scenes."""

    LEG = ("leg.c", "wire.c", "program.c")
    CALL = ("call.c", "latency.c", "md5.c", *LEG)
    FILES = {
        "calls": (("calls.c", *CALL), ["-lm"]),
        "network": (("network.c", "program.c"), []),
        "flood": (("flood.c", *LEG), []),
        "floods": (("floods.c", *CALL), ["-lm"]),
        "paced": (("../bench/paced.c", "../bench/paced_calls.c", "../bench/paced_report.c", "latency.c", *LEG), ["-lm"]),
        "relay": (("../bench/relay.c",), []),
        "faults.so": (("faults.c",), ["-shared", "-fPIC", "-fno-builtin", "-ldl"]),
        "memory.so": (("memory.c",), ["-shared", "-fPIC", "-fno-builtin"]),
    }

    def __init__(self, folder, share=1):
        self.folder, self.share = folder, share

    def built(self, name):
        path = f"{self.folder}/{name}"
        if not os.path.exists(path):
            files, options = self.FILES[name]
            subprocess.run(["cc", "-O2", "-o", path, *(f"{HERE}/{it}" for it in files), *options], check=True)
        return path

    def start(self, name, *words, **named):
        """Starts one of them; `reported` waits for its end."""
        words = [self.built(name), *words, *(f"{name}={value}" for name, value in named.items() if value is not None)]
        return subprocess.Popen(words, stdout=subprocess.PIPE, text=True, preexec_fn=ends_with_this)

    def some(self, count):
        """This part of a load, or a share of it for a program that is slow."""
        return max(1, round(count * self.share))

    def folder_of(self, name):
        path = f"{self.folder}/of_{name}"
        os.makedirs(path, exist_ok=True)
        return path


def reported(process, seconds):
    """Returns the output of a C program at its end, for which it waits this long."""
    try:
        printed, _ = process.communicate(timeout=seconds)
    except subprocess.TimeoutExpired as late:
        process.kill()
        raise Failed(f"{process.args[0]} doesn't end") from late
    if process.returncode != 0:
        raise Failed(f"{process.args[0]} ended with status {process.returncode}")
    return json.loads(printed)


def ended(process, seconds=PATIENCE):
    """Ends it, and returns its output."""
    process.send_signal(signal.SIGTERM)
    return reported(process, seconds)


# Ports that the system gives nobody on its own, in blocks. Scenes that run at the same time use different blocks, so that
# none takes a port that another has found to be spare. Each goes round in its block.
BLOCK, FIRST_PORT, BLOCKS = 120, 11000, 175
next_port = 0


def spare_ports(count):
    """This number of ports, no two the same."""
    global next_port
    found = []
    for _ in range(BLOCK):
        port = FIRST_PORT + os.getpid() % BLOCKS * BLOCK + next_port % BLOCK
        next_port += 1
        if is_spare(port):
            found.append(port)
        if len(found) == count:
            return found
    raise Failed("there aren't enough spare ports")


def plan_of(workers, peers, routes, **keys):
    """Returns a plan by the workers' ports, the peers by name with their keys, and the routes by prefix."""
    values = {"format": 2, "retry_ms": RETRY_MS, "max_retries": 20, "ping_ms": 2000, "record_limit": 65536} | keys
    rows = [{"name": name} | given for name, given in peers.items()]
    return plan_text(values, [(LOOPBACK, port) for port in workers], rows, routes.items())


class Exchange(Service):
    """The program, running as a service. Its log is a file next to its plan."""

    def __init__(self, folder, plan, *options, environment=None):
        os.makedirs(folder, exist_ok=True)
        self.metrics_port = spare_port_of_system(socket.SOCK_STREAM)
        with open(f"{folder}/plan.toml", "w", encoding="utf-8") as it:
            it.write(plan)
        options = ["--metrics", f"{LOOPBACK}:{self.metrics_port}", *options]
        files = {"log": f"{folder}/log", "environment": environment}
        super().__init__(f"{folder}/plan.toml", f"{folder}/control", *options, **files, before=ends_with_this, patience=PATIENCE)

    def legs(self):
        found = self.ask("GET", "/calls")
        return None if found is None else found["calls"]

    def peers(self):
        return {it["name"]: it for it in self.ask("GET", "/peers")["peers"]}

    def metrics(self):
        """Returns each sample by its name and labels, as the text has them."""
        with socket.create_connection(("127.0.0.1", self.metrics_port), timeout=20) as it:
            it.sendall(b"GET /metrics HTTP/1.1\r\nHost: x\r\n\r\n")
            answer = b""
            while piece := it.recv(65536):
                answer += piece
        lines = answer.partition(b"\r\n\r\n")[2].decode().splitlines()
        return {it.rpartition(" ")[0]: int(it.rpartition(" ")[2]) for it in lines if not it.startswith("#")}

    def drops_at(self, port, peer=None):
        """Returns how many datagrams the system has dropped at the program's sockets of this port, or at the one that is
        connected to this port of a peer. (The metrics count them only once in ten seconds.)"""
        with open("/proc/net/udp", encoding="ascii") as it:
            sockets = [line.split() for line in it]
        mine = [it for it in sockets if it[1] == f"0100007F:{port:04X}"]
        return sum(int(it[-1]) for it in mine if peer is None or it[2] == f"0100007F:{peer:04X}")

    def kilobytes(self):
        """Resident memory, without that of files, which the system takes and gives back as it likes."""
        with open(f"/proc/{self.process.pid}/status", encoding="ascii") as it:
            return int(re.search(r"RssAnon:\s+(\d+)", it.read())[1])

    def processor_seconds(self):
        with open(f"/proc/{self.process.pid}/stat", encoding="ascii") as it:
            fields = it.read().rpartition(")")[2].split()
        return (int(fields[11]) + int(fields[12])) / os.sysconf("SC_CLK_TCK")

    def is_idle(self):
        return self.legs() == []

    def until_idle(self, seconds=PATIENCE):
        within("no leg is left", seconds, self.is_idle)

    def stop(self):
        """Stops it, and returns its output, as its status and its lines."""
        self.ask("POST", "/stop")
        return self.printed()

    def printed(self):
        status, printed = self.ended(PATIENCE)
        return status, printed.splitlines()


def accounts_of(lines):
    """Accepted, packed, queued and dropped octets of media, from the program's output at its end."""
    found = [it.split()[1:] for it in lines if it.startswith("octets ")]
    return [int(it) for it in found[0]] if len(found) == 1 else None


def tell_accounts(report, what, status, lines, least=1):
    """Reports whether the program ended well, with accounts that balance over at least `least` octets."""
    octets = accounts_of(lines)
    is_kept = status == 0 and octets is not None and octets[0] == sum(octets[1:]) and octets[0] >= least
    report.tell(
        f"the accounts of {what} balance", is_kept, f"status {status}", "octets accepted, packed, queued, dropped",
        *(octets or [lines]),
    )


def rows_of(path):
    """Returns the complete rows of a file of call records."""
    with open(path, encoding="utf-8", newline="") as it:
        text = it.read()
    return list(csv.DictReader(text[: text.rfind("\n") + 1].splitlines()))
