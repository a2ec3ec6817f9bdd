"""Runs the commands that pages show, and compares their output."""
import csv
import functools
import io
import json
import os
import re
import shutil
import sqlite3
import subprocess
import tempfile
import threading
import time
from pathlib import Path

from iax_test.peers import AnsweringPeer
from iax_test.ports import spare_port_of_system
from iax_test.protocol import NEW
from iax_test.service import PROGRAM, Service

from .pages import TOP, blocks_of, section_of
from .sources import number_in, plan_keys, source

DATA = TOP / "crates/exchange_main/data"
PAGES = ("README.md", "docs/TWO_SITES.md", "docs/PLAN.md", "docs/CLI.md")


def plan_at_spare_ports(text):
    """Returns a plan at loopback, with other ports and addresses. Two workers of one endpoint still share one."""
    ports = {}

    def spare(match):
        """Returns the lines of an endpoint with a spare port."""
        key = match.group(0) if "[[worker]]" in match.group(0) else match.start()
        if key not in ports:
            ports[key] = spare_port_of_system()
        return f'{match.group(1)}address = "127.0.0.1"\nport = {ports[key]}'

    return re.sub(r'((?:\[\[worker\]\]|name = "[\w-]+")\n)address = "[^"]+"\nport = \d+', spare, text)


@functools.cache
def program_folder():
    """Returns a folder that has the program as `exchange_main`, and the plan and the script of its data. It lasts as long as
    this process."""
    folder = tempfile.TemporaryDirectory()
    (Path(folder.name) / "bin").mkdir()
    (Path(folder.name) / "bin/exchange_main").symlink_to(os.path.realpath(PROGRAM[0]))
    (Path(folder.name) / "data").mkdir()
    for name in ("plan.toml", "script"):
        shutil.copy(DATA / name, f"{folder.name}/data")
    return folder


def shell(command, folder):
    """Returns the output of a command in a folder, and its status; `exchange_main` is the program."""
    path = f"{program_folder().name}/bin:{os.environ['PATH']}"
    done = subprocess.run(
        ["sh", "-c", command],
        cwd=folder,
        capture_output=True,
        text=True,
        timeout=20,
        env={**os.environ, "PATH": path},
        check=False,
    )
    return done.stdout, done.returncode


def plain(text):
    """Returns the lines of a text with 0 in place of each number, and one blank in place of several."""
    return [re.sub(r"[ \t]+", " ", re.sub(r"\d+", "0", it)).strip() for it in text.strip("\n").split("\n")]


def fits(printed, expected):
    """Returns whether lines were printed as expected; `...` stands for any lines."""
    if not expected or not printed:
        return not printed and all(it == "..." for it in expected)
    if expected[0] == "...":
        return any(fits(printed[it:], expected[1:]) for it in range(len(printed) + 1))
    return printed[0] == expected[0] and fits(printed[1:], expected[1:])


def is_plan(block):
    """Returns whether a block is a whole plan."""
    return bool(re.match(r"(#.*\n)*format = [124]\n", block)) and "[[worker]]" in block


def check_transcripts(documents, page):
    """Compares `$ exchange_main` with the lines below it, except for running services. Plans are saved as plan.toml."""
    faults = []
    with tempfile.TemporaryDirectory() as folder:
        shutil.copytree(f"{program_folder().name}/data", f"{folder}/data")
        for block in blocks_of(documents.text(page)):
            if is_plan(block):
                Path(f"{folder}/plan.toml").write_text(block, encoding="utf-8")
                printed, status = shell("exchange_main check plan.toml 2>&1", folder)
                faults += [f"a plan: {printed}"] if status else []
            elif re.match(r"\$ exchange_main (check|explain|help|--version)", block):
                command, _, expected = block[2:].partition("\n")
                printed, _ = shell(command, folder)
                is_so = fits(printed.strip("\n").split("\n"), expected.split("\n"))
                faults += [] if is_so else [f"{command} printed {printed!r}"]
    return faults


def check_warnings(documents):
    """Returns the warnings of the plans of docs/TWO_SITES.md and of contrib/plan.toml: they have none but that on call tokens.

    A peer that knows no call tokens couldn't call if a plan to begin with asked for them.
    """
    texts = [it for it in blocks_of(documents.text("docs/TWO_SITES.md")) if is_plan(it)] + [documents.text("contrib/plan.toml")]
    faults = []
    with tempfile.TemporaryDirectory() as folder:
        for text in texts:
            Path(f"{folder}/plan.toml").write_text(text, encoding="utf-8")
            os.chmod(f"{folder}/plan.toml", 0o600)
            printed, status = shell("exchange_main explain plan.toml 2>&1", folder)
            warnings = re.findall(r"^warning: (?!\S+ has a secret and no call_token: ).*$", printed, re.M)
            faults += warnings if status == 0 else [printed]
    return faults


def check_commands(documents):
    """Runs the commands of README.md, docs/OPERATING.md and docs/INCIDENTS.md that work in a clone."""
    faults = []
    for page in ("README.md", "docs/OPERATING.md"):
        for words in set(re.findall(r"\(cd crates/exchange_main && rt (?:try|run) -- ([^)]+)\)", documents.text(page))):
            printed, status = shell(f"cd {TOP}/crates/exchange_main && exchange_main {words}", TOP)
            said = re.search(r"prints `(ok [^`]+)`", documents.text(page)) if words.startswith("check") else None
            if status or not printed or said and said.group(1) != printed.strip():
                faults.append(f"{page}, {words}: status {status}, printed {printed!r}")
    with tempfile.TemporaryDirectory() as folder:
        for name in ("plan.toml", "script"):
            shutil.copy(DATA / name, folder)
        for line in (line for block in blocks_of(documents.text("docs/INCIDENTS.md")) for line in block.split("\n")):
            if re.match(r"exchange_main (check|explain|replay|ladder|pcap|records) ", line):
                printed, status = shell(line, folder)
                faults += [f"docs/INCIDENTS.md, {line}: status {status}, printed {printed!r}"] if status else []
    return faults


@functools.cache
def served():
    """Returns what `serve` prints after three turns."""
    with tempfile.TemporaryDirectory() as folder:
        plan = plan_at_spare_ports((DATA / "plan.toml").read_text(encoding="utf-8"))
        Path(f"{folder}/serve.toml").write_text(plan, encoding="utf-8")
        return shell("exchange_main serve serve.toml 3", folder)[0]


def check_serve(documents):
    """Compares what `serve` prints with docs/CLI.md."""
    is_so = any(it == served().strip("\n") for it in blocks_of(documents.text("docs/CLI.md")))
    return [] if is_so else [f"serve prints {served()!r}"]


def check_bill(documents):
    """Runs the bill of docs/RECORDS.md over the records of a call that was answered after 20 ms and ended after 100."""
    printed, _ = shell(f"exchange_main records {DATA}/plan.toml {DATA}/script", TOP)
    rows = list(csv.reader(io.StringIO(printed)))
    opened = rows[0].index("opened")
    for row in rows[1:]:
        row[opened] = "2026-11-23T04:06:28.317Z"
    base = sqlite3.connect(":memory:")
    base.execute(f"CREATE TABLE legs ({', '.join(f'{it} TEXT' for it in rows[0])})")
    base.executemany(f"INSERT INTO legs VALUES ({', '.join('?' for _ in rows[0])})", rows[1:])
    queries = [it for it in blocks_of(documents.text("docs/RECORDS.md")) if "SELECT" in it]
    try:
        bill = base.execute("\n".join(it for it in queries[0].split("\n") if not it.startswith("."))).fetchall()
        others = base.execute(queries[1]).fetchall()
    except (sqlite3.Error, IndexError) as fault:
        return [f"a query fails: {fault}"]
    return ([] if bill == [("2026-11", "west", 1, 1)] else [f"the bill is {bill}"]) + (
        [] if others == [] else ["a call wasn't answered"]
    )


def check_plan_of_manual(documents):
    """Has the program explain the plan of exchange_main.plan(5)."""
    text = re.search(r"\.Bd -literal\n(.*?)\.Ed", documents.text("contrib/exchange_main.plan.5"), re.S).group(1)
    with tempfile.TemporaryDirectory() as folder:
        Path(f"{folder}/plan.toml").write_text(text, encoding="utf-8")
        printed, status = shell("exchange_main explain plan.toml 2>&1", folder)
    return [printed] if status else []


class PatientPeer(AnsweringPeer):
    """A peer that answers a call once it may."""

    def __init__(self, worker, port):
        super().__init__(worker, port)
        self.answers = threading.Event()
        threading.Thread(target=self.play, daemon=True).start()

    def play(self):
        """Receives frames until this process ends."""
        while True:
            self.listen(1)

    def answer(self, leg, frame):
        """Answers a frame; a NEW once `answers` is set."""
        if frame.kind == NEW:
            self.answers.wait(10)
        super().answer(leg, frame)


class RunningService(Service):
    """A service with two peers, of which the east answers, and the commands that a page gives it."""

    def __init__(self, folder):
        self.folder, self.number = folder, None
        plan = plan_at_spare_ports((DATA / "plan.toml").read_text(encoding="utf-8"))
        Path(f"{folder}/plan.toml").write_text(plan, encoding="utf-8")
        worker, _, east, *_ = (int(port) for port in re.findall(r"port = (\d+)", plan))
        self.peer = PatientPeer(worker, east)
        super().__init__(f"{folder}/plan.toml", f"{folder}/control", log=f"{folder}/log")

    def prints(self, command, expected):
        """Returns the faults of a command's output, which has some seconds to become the expected one."""
        if " Up " in expected:
            self.peer.answers.set()
        # The first numbers of a run are random.
        command = re.sub(r" hangup \d+$", f" hangup {self.number}", command)
        end = time.monotonic() + 3
        while True:
            printed, _ = shell(command, self.folder)
            if plain(printed) == plain(expected):
                self.number = next(iter(re.findall(r"^calls number (\d+)", printed)), self.number)
                return faults_of_cells(printed, expected)
            if time.monotonic() > end or not re.search(r" (peers|calls|accounts)$", command):
                return [f"{command}: printed {printed!r}"]
            time.sleep(0.05)


# The columns whose values are the same in each run of the same plan and peers.
SETTLED = (
    "name",
    "worker",
    "legs",
    "numbers",
    "refused",
    "lost",
    "outbox_lost",
    "queue_dropped",
    "auth_failed",
    "record_limit",
    "held",
    "accepted",
    "packed",
    "queued",
    "dropped",
    "quelched",
    "peer",
    "stage",
    "format",
)


def faults_of_cells(printed, expected):
    """Returns the cells of a table that a page has otherwise than the program, in columns that don't change from run to run."""
    found, shown = ([it.split() for it in text.strip("\n").split("\n")] for text in (printed, expected))
    faults = []
    for one, other in zip(found[1:], shown[1:]):
        for name, value, said in zip(found[0], one, other):
            if name in SETTLED and name != "held" and value != said:
                faults.append(f"{name} is {value}, not {said}")
    return faults


def service_of(folder):
    """Returns a service that runs."""
    return RunningService(folder)


def shape(value):
    """Returns the names of a JSON value."""
    if isinstance(value, list):
        return [shape(value[0])] if value else []
    return {it: shape(value[it]) for it in value} if isinstance(value, dict) else None


@functools.cache
def shapes():
    """Returns the JSON of a running service: of each path its shape, and the list of requests."""
    with tempfile.TemporaryDirectory() as folder:
        running = RunningService(folder)
        running.peer.answers.set()
        running.ask("POST", "/calls", {"peer": "east", "number": "300"})
        found = {path: running.ask("GET", path) for path in ("/", "/peers", "/calls", "/accounts")}
        running.kill()
    return found


def check_samples(documents):
    """Compares the JSON of docs/HTTP.md with that of a service with a call."""
    faults, found = [], shapes()
    for block in (it for it in blocks_of(documents.text("docs/HTTP.md")) if it.startswith("{")):
        try:
            sample = json.loads(block)
        except ValueError:
            faults.append(f"no JSON: {block}")
            continue
        path = next((it for it in ("peers", "calls") if it in sample), "accounts" if "accepted" in sample else None)
        if "commands" in sample and found["/"] != sample:
            faults.append("another list of requests")
        elif path and shape(found[f"/{path}"]) != shape(sample):
            faults.append(f"other members of /{path}")
        elif "stage" in sample and shape(found["/calls"]["calls"][0]) != shape(sample):
            faults.append("other members of a call")
    return faults


def check_running_service(documents):
    """Compares the transcript of docs/OPERATING.md with a running service."""
    block = next((it for it in blocks_of(documents.text("docs/OPERATING.md")) if it.startswith("$ exchange_main ctl")), None)
    if block is None:
        return ["docs/OPERATING.md has no transcript"]
    with tempfile.TemporaryDirectory() as folder:
        running, faults = RunningService(folder), []
        try:
            for part in block[2:].split("\n$ "):
                command, _, expected = part.partition("\n")
                faults += running.prints(command, expected)
                if faults:
                    return faults
        finally:
            if faults:
                running.kill()
        _, printed = running.ended(5)
    return faults + ([] if printed.startswith("worker 0 ") else [f"the service printed {printed!r}"])


@functools.cache
def explained_hours(limit):
    """Returns after how many minutes `explain` has a call of this record limit end."""
    keys = plan_keys()
    pings, others = (
        number_in(it) for it in re.search(r"([\d_]+) / ping_ms \+ (\d+)", source("plan_report/src/estimates.rt")).groups()
    )
    return (limit - 4) * 60 // (pings // int(keys["ping_ms"].default) + others)


def check_lengths(documents):
    """Returns the rows of docs/PLAN.md whose length of a call isn't the estimate of `explain`, to a twentieth."""
    faults = []
    for limit, hours, minutes in re.findall(
        r"^\| ([\d,]+) \| (\d+) hours?(?: (\d+) minutes)? \|",
        section_of(documents.text("docs/PLAN.md"), "## How long a call can last"),
        re.M,
    ):
        said, known = int(hours) * 60 + int(minutes or 0), explained_hours(int(limit.replace(",", "")))
        if abs(said - known) * 20 > known:
            faults.append(f"a record of {limit} entries ends a call after {known} minutes")
    return faults


def check_starter_plan(documents):
    """Returns the faults of the plan to begin with: one text for contrib/plan.toml, `plan new`, the tutorial and the manual."""
    wanted = documents.text("contrib/plan.toml")
    printed, _ = shell("exchange_main plan new", program_folder().name)
    manual = re.search(r"\.Bd -literal\n(.*?)\.Ed", documents.text("contrib/exchange_main.plan.5"), re.S)
    faults = [] if printed == wanted else ["`plan new` prints another one"]
    if wanted.strip("\n") not in blocks_of(documents.text("docs/TWO_SITES.md")):
        faults.append("docs/TWO_SITES.md has another one")
    return faults + ([] if manual and manual.group(1) == wanted else ["exchange_main.plan.5 has another one"])
