"""The amplification that docs/SECURITY.md states: the octets of a datagram, and of the answers that a replay gives to it."""
import functools
import re

from .pages import cells_of
from .program import ran_over
from .sources import plan_keys

PAGE, HEADING = "docs/SECURITY.md", "## What an answer can amplify"
VERSION, FORMAT, TOKEN = "0b020002", "090400000004", "3600"
NEW = "800700000000000000000601"
# As long as the challenge of a service.
CHALLENGE = f"challenge {'x' * 32}\n"
# The words of a row, the line of the plan that it needs, the datagrams that come before the last, and the last.
ROWS = (
    (r"^POKE", "", (), "80070000000000000000061e"),
    (r"^NEW without elements", "", (), NEW),
    (r"^NEW of a peer with a secret", 'user = "exchange"\nsecret = "a secret of the west"', (), NEW + VERSION + FORMAT),
    (r"^NEW while no number", "numbers = 1", (NEW + VERSION + FORMAT,), "8008" + NEW[4:] + VERSION + FORMAT),
    (r"^REGREQ", "", (), "80070000000000000000060d"),
    (r"empty call token", "call_token = true", (), NEW + TOKEN),
    (r"wrong one", "call_token = true", (), NEW),
    (r"^a frame of an unknown call", "", (), "800700010000000005000602"),
    (r"^a frame out of order", "", (NEW + VERSION + FORMAT,), "800700010000000005010602"),
)


def plan_of(line):
    """Returns a plan with two peers; `line` is one of the first peer."""
    peer = '[[peer]]\nname = "{}"\naddress = "127.0.0.1"\nport = {}\nworker = 0\nformats = ["ulaw"]\n'
    return (
        'format = 4\n[[worker]]\naddress = "127.0.0.1"\nport = 4569\n'
        + peer.format("west", 5001)
        + line
        + "\n"
        + peer.format("east", 5002)
        + '[[route]]\nprefix = ""\npeer = "east"\n'
    )


@functools.cache
def sizes_of(line, before, last):
    """Returns the octets of a datagram, and those of the answer that a replay gives to it: 0 if there is none."""
    script = CHALLENGE + "".join(f"rx west {it}\n" for it in (*before, last))
    answers = re.findall(r"^tx west ([0-9a-f]+)$", ran_over(["replay"], plan_of(line), script).stdout, re.M)
    return len(last) // 2, len(answers[-1]) // 2 if answers else 0


def faults_of_row(line):
    """Returns the faults of a row of the table."""
    sent, answer = cells_of(line)[:2]
    known = next((it for it in ROWS if re.search(it[0], re.sub(r"[`*]", "", sent))), None)
    if known is None:
        return [] if not re.search(r"\d+ octets", line) else [f"no replay shows: {line}"]
    request, reply = sizes_of(*known[1:])
    faults = [f"{sent}: the datagram has {request} octets" for it in re.findall(r"(\d+) octets", sent) if int(it) != request]
    faults += [f"{sent}: the answer has {reply} octets" for it in re.findall(r"(\d+) octets", answer) if int(it) != reply]
    keys = plan_keys()
    tries, wait = int(keys["max_retries"].default), int(keys["retry_ms"].default)
    if re.search(r"times in", answer) and f"{counted(tries + 1)} times in {counted(tries * wait // 1000)} seconds" not in answer:
        faults.append(f"{sent}: an answer goes out {tries + 1} times in {tries * wait} ms")
    return faults


def counted(number):
    """Returns a small number in words."""
    return ("none", "one", "two", "three", "four", "five", "six", "seven", "eight", "nine", "ten")[number]


def check(documents):
    """Returns the faults of the table of docs/SECURITY.md."""
    rows = [it for it in documents.section(PAGE, HEADING).split("\n") if it.startswith("| ") and "brings" not in it]
    return [fault for row in rows for fault in faults_of_row(row)] if rows else [f"{PAGE} has no {HEADING}"]
