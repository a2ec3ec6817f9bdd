"""The statuses of HTTP: those that a running service answers, those of the sources, and those of docs/HTTP.md."""
import functools
import json
import re
import tempfile

from iax_test.control import answer_to, request

from .pages import coded, first_cells, lines_of, rows_of, section_of
from .report import differences
from .sources import function_of, http_refusals, method_of, source, sources, status_codes
from .transcripts import service_of

PAGE = "docs/HTTP.md"
# Requests, each with its body, in the order in which a service is asked. A `<number>` is that of the call that was placed.
REQUESTS = (
    ("GET /", None),
    ("GET /peers", None),
    ("GET /calls", None),
    ("GET /accounts", None),
    ("GET /calls/1", None),
    ("GET /x", None),
    ("GET /peers?x", None),
    ("GET /calls/99999", None),
    ("POST /peers", None),
    ("POST /calls", {"peer": "east", "number": "300"}),
    ("GET /calls/<number>", None),
    ("DELETE /calls/<number>", None),
    ("DELETE /calls/<number>", None),
    ("POST /calls", {}),
    ("POST /calls", {"peer": "nobody", "number": "1"}),
    ("POST /calls", {"peer": "east"}),
    ("POST /calls", {"peer": "east", "number": "1" * 256}),
    ("POST /calls", {"peer": "east", "number": "1" * 65}),
    ("POST /drain", None),
    ("POST /calls", {"peer": "east", "number": "300"}),
    ("DELETE /drain", None),
    ("POST /calls", {"peer": "east", "number": "301"}),
    ("POST /stop/graceful", None),
    ("DELETE /drain", None),
    ("POST /stop", None),
)


@functools.cache
def answers():
    """Returns what a running service answers: requests, each with a status and the names of its JSON's members or its error."""
    found, number = [], "0"
    with tempfile.TemporaryDirectory() as folder:
        service = service_of(folder)
        for line, body in REQUESTS:
            method, _, path = line.partition(" ")
            octets = answer_to(service.path, request(method, path.replace("<number>", number), body))
            head, _, text = octets.partition(b"\r\n\r\n")
            said = json.loads(text)
            number = str(said.get("number", number)) if line == "POST /calls" else number
            found.append((line, int(head.split()[1]), said.get("error", "") or tuple(sorted(said))))
        service.kill()
    return tuple(found)


def statuses_of(line):
    """Returns the statuses of a request's refusals, as the sources have them."""
    desk, codes = sources("service_api"), status_codes()
    functions = {
        "POST /calls": ("place", "place_call", "call_answer"),
        "DELETE /calls/<number>": ("drop_call", "end_leg"),
        "GET /calls/<number>": ("call",),
    }.get(line, ())
    found = {
        codes[it] for name in functions
        for it in re.findall(r"StatusCode::(\w+)", method_of(desk, name) or function_of(desk, name))
    }
    asked = {status for request_line, status, said in answers() if request_line == line and isinstance(said, str)}
    return {it for it in found | asked if it >= 400}


def refusals():
    """Returns the refusals of requests, each as a status and a name."""
    unseen = {(422, it) for it in ("Memory", "NotJson")}
    return (set(http_refusals()) - unseen) | {(status, said) for _, status, said in answers() if isinstance(said, str) and said}


def check_table(documents):
    """Returns the faults of the table of requests: another status than a service answers, or a refusal of another status."""
    faults, rows = [], rows_of(section_of(documents.text(PAGE), "## Requests").split("\n###")[0])
    done = {line: status for line, status, said in answers() if not isinstance(said, str)}
    for row in rows:
        for line in coded(row[0]):
            if not row[1].startswith(f"{done.get(line)},"):
                faults.append(f'{line} is answered {done.get(line)}, not "{row[1]}"')
            told = {int(it) for it in re.findall(r"\b(\d{3})\b", row[2])}
            faults += (
                [] if told <= statuses_of(line) and (told or not statuses_of(line)) else [f"{line} isn't refused by {row[2]}"]
            )
            faults += [f"{line} is refused by {it}" for it in statuses_of(line) - told if "below" in row[2]]
        faults += faults_of_refusals(row[2], row[0])
    return faults if rows else [f"{PAGE} has no table of requests"]


def faults_of_refusals(text, where):
    """Returns the faults of statuses in a text, each before the names that it belongs to."""
    faults, known = [], refusals()
    parts = re.split(r"\b(\d{3})\b(?!,\d)", text)
    for status, said in zip(parts[1::2], parts[2::2]):
        if int(status) not in status_codes().values():
            faults.append(f"{where}: no answer has the status {status}")
        names = [it for it in coded(said.split(",")[0]) if re.fullmatch(r"[A-Z]\w+", it)]
        faults += [f"{where}: {it} isn't {status}" for it in names if (int(status), it) not in known]
    return faults


def check_refusals(documents):
    """Returns the faults of the tables of refusals: pairs of a status and a name that no source has, and those that lack."""
    pairs = [
        (int(row[0]), name) for row in rows_of(documents.text(PAGE)) if re.fullmatch(r"\d{3}", row[0]) for name in coded(row[1])
    ]
    listed = {(404, "NotFound"), (409, "Draining")}
    return differences(set(pairs) | listed, refusals())


def check_sections(documents):
    """Returns the faults of sentences under the headings of requests: a status with a body that no such request has."""
    text, faults = documents.text(PAGE), []
    for line in lines_of(text):
        said, heads = text[line.start : line.end], re.findall(r"(?:GET|POST|DELETE) /[\w/\\<>]*", line.heading)
        if said.startswith(("|", "#")) or not heads:
            continue
        asked = {it.replace("\\", "") for it in heads}
        known = {(status, answer) for asked_for, status, answer in answers() if asked_for in asked or asked_for == "POST /stop"}
        for status, body in re.findall(r"\b(\d{3}) `(\{[^`]*\}|\w+)`", said):
            shape = body if not body.startswith("{") else tuple(sorted(json.loads(body)))
            if (int(status), shape) not in known | (refusals() if isinstance(shape, str) else set()):
                faults.append(f"{line.heading[4:]}: no answer is {status} {body}")
    return faults


def check_prose(documents, page):
    """Returns the statuses with names in the prose of a page that no source has."""
    text, faults = documents.text(page), []
    for line in lines_of(text):
        if not text[line.start : line.end].startswith("|"):
            faults += faults_of_refusals(re.sub(r"\b(\d{3})\b(?! `[A-Z])", "", text[line.start : line.end]), page)
    return faults


def check_members(documents):
    """Returns the members that the tables of docs/HTTP.md lack or invent, and errors and requests likewise."""
    page, desk, faults = documents.text(PAGE), sources("service_api"), []
    requests = re.search(r"const TABLE.*?;", desk, re.S).group()
    table = section_of(page, "## Requests").split("\n###")[0]
    faults += differences(first_cells(table), re.findall(r'\\"((?:GET|POST|DELETE) [^"\\]*)\\"', requests))
    views = source("control_requests/src/views.rt")
    for name, heading in (("peer_text", "### GET /peers"), ("call_body", "### GET /calls, GET /calls/\\<number\\>")):
        members = re.findall(r'\("(\w+)", Shown', function_of(views, name))
        faults += differences(first_cells(section_of(page, heading)), members)
    return faults
