"""References with names: refusals, lines of scripts, columns and endings of call records, stages, parts of the gate."""
import functools
import re

from .pages import TOP, coded, first_cells, rows_of, section_of
from .program import ran_over
from .report import differences
from .sources import function_of, names_in, source, sources
from .transcripts import DATA


@functools.cache
def plan_faults():
    """Returns the names of faults of plans."""
    text = source("peer_plan/src/error.rt")
    return {it.split(" ")[0] for it in re.findall(r'(?:write_str\(|write!\(f, )"([^"]+)"', text)}


@functools.cache
def refusals():
    """Returns every name that comes after `refused` or in `{"error": ..}`."""
    names, wanted = source("exchange_core/src/printed_names.rt"), set()
    for name in ("refusal_name", "rejection_name", "call_error_name", "order_error_name"):
        wanted |= names_in(names, name)
    wanted |= plan_faults() | {"Draining"}
    wanted |= set(re.findall(r'Some\("(\w+)"\)', function_of(sources("worker_setup"), "service_error_name")))
    wanted |= set(re.findall(r'NotBound::of\(&error, "(\w+)"\)', sources("control_server")))
    wanted |= set(re.findall(r'"refused (\w+)', sources("exchange_main", "exchange_commands")))
    wanted |= set(re.findall(r'StatusCode::\w+(?:\(\w+\))?, "(\w+)"\)', sources("control_server", "service_api")))
    return wanted | names_in(sources("service_api"), "fault_name")


def check_refusals(documents):
    """Returns the names that docs/REFUSALS.md and exchange_main.plan(5) lack or invent."""
    page = documents.text("docs/REFUSALS.md").split("\n## ", 1)[1]
    faults = differences([it.split(" ")[0] for it in first_cells(page)], refusals())
    manual = documents.text("contrib/exchange_main.plan.5").split(".Sh DIAGNOSTICS")[1]
    told = re.findall(r"\b(\w+)\b", re.sub(r"Ar \w+", "", " ".join(re.findall(r"^\.It Li (.*)$", manual, re.M))))
    return faults + differences(told, plan_faults() - {"Memory"})


def check_order_of_refusals(documents):
    """Returns the names of datagrams' refusals that aren't in the order in which the program looks for them."""
    listed = re.findall(r'Refusal::\w+ => "(\w+)"', function_of(source("exchange_core/src/printed_names.rt"), "refusal_name"))
    section = section_of(documents.text("docs/REFUSALS.md"), "## Datagrams")
    return differences(first_cells(section), listed)


@functools.cache
def plays(lines):
    """Returns whether the program takes these lines as a script."""
    return ran_over(["replay", str(DATA / "plan.toml")], "".join(f"{it}\n" for it in lines)).returncode == 0


def check_script(documents):
    """Returns the faults of docs/SCRIPT.md: its lines, and the values that they take."""
    page = documents.text("docs/SCRIPT.md")
    listed = re.search(r"const COMMANDS.*?\];", source("exchange_commands/src/script_line.rt"), re.S).group()
    section = section_of(page, "## Lines")
    faults = differences([it.split(" ")[0] for it in first_cells(section) if it != "#"], re.findall(r'b"(\w+)"', listed))
    for row in rows_of(section):
        for line in coded(row[0]):
            faults += faults_of_line(line.split(" ")[0], row[1])
    filled = [it for line in first_cells(section) for it in filled_line(line)]
    filled.sort(key=lambda it: len(FIRST) + (it == "settle") if it.split(" ")[0] not in FIRST else FIRST.index(it.split(" ")[0]))
    return faults + ([] if plays(tuple(filled)) else [f"no script has the line {it}" for it in filled if not plays((it,))])


# The lines that come first in a script, in this order.
FIRST = ("prefix", "offset", "key", "free", "serial")


def filled_line(line):
    """Returns a line with values in place of its words in brackets; none of a comment."""
    values = {
        "ms": "0",
        "text": "x",
        "hex": "0" * 64,
        "n": "9",
        "peer": "west",
        "address:port": "192.0.2.1:1",
        "number": "1",
        "numbers": "1-4",
    }
    if line == "#" or not re.match(r"[a-z]+", line):
        return []
    return [re.sub(r"<([\w:]+)>", lambda it: values.get(it.group(1), "?"), line)]


def faults_of_line(word, text):
    """Returns the faults of the lengths and octets that a row gives a line: the program takes others."""
    faults = []
    for low, high in re.findall(r"(\d+) to (\d+) octets", text):
        good = plays((f"{word} {'x' * int(low)}",)) and plays((f"{word} {'x' * int(high)}",))
        if not good or plays((f"{word} {'x' * (int(high) + 1)}",)) or int(low) != 1:
            faults.append(f"{word} takes other lengths than {low} to {high}")
    for low, high in re.findall(r"(0x\w\w) to (0x\w\w)", text):
        first, last = int(low, 16), int(high, 16)
        if (
            not (plays((f"{word} {chr(first)}",)) and plays((f"{word} {chr(last)}",)))
            or plays((f"{word} {chr(first - 1)}",))
            or plays((f"{word} {chr(last + 1)}",))
        ):
            faults.append(f"{word} takes other octets than {low} to {high}")
    for count in re.findall(r"(\d+) hexadecimal digits", text):
        if not plays((f"{word} {'0' * int(count)}",)) or plays((f"{word} {'0' * (int(count) + 1)}",)):
            faults.append(f"{word} takes another count of digits than {count}")
    for count in re.findall(r"(\d+) zeros", text):
        if int(count) != 64:
            faults.append(f"the key has another count of zeros than {count}")
    for value in re.findall(r"first serial is (\d+)|; `?(\d+)`? at first", text):
        faults += [] if "".join(value) == "0" else [f"the first {word} isn't {''.join(value)}"]
    for listed in re.findall(r"only ([^.]*?) may precede", text):
        faults += faults_of_order(word, listed)
    return faults


LINES = {
    "prefix": "prefix x",
    "offset": "offset 0",
    "key": f"key {'0' * 64}",
    "serial": "serial 0",
    "free": "free west 1-4",
    "at": "at 0",
    "challenge": "challenge x",
    "hold": "hold",
    "tick": "tick",
    "back": "back 0",
}


def faults_of_order(word, listed):
    """Returns the faults of the lines that may precede one: the program takes others there."""
    told = [it for it in LINES if it in coded(listed) and it != word]
    line = "serial 9" if word == "serial" else LINES[word]
    faults = [] if plays((*(LINES[it] for it in told), line)) else [f"not all of {', '.join(told)} may precede {word}"]
    return faults + [f"{it} may precede {word}" for it in LINES if it not in told and it != word and plays((LINES[it], line))]


def check_records(documents):
    """Returns the faults of docs/RECORDS.md: its columns, endings and reasons."""
    page = documents.text("docs/RECORDS.md")
    listed = re.search(r"const NAMES.*?\];", source("call_records/src/call_row.rt"), re.S).group()
    faults = differences(first_cells(section_of(page, "## The columns")), re.findall(r'"(\w+)"', listed))
    text = source("call_records/src/columns.rt")
    failures = names_in(text, "failure_name")
    faults += differences(first_cells(section_of(page, "## How a call ends")), names_in(text, "ending_name") | failures)
    reasons = re.findall(r'"(\w+)"', source("service_state/src/reasons.rt"))
    faults += differences(first_cells(section_of(page, "## Why a call failed")), reasons)
    row = next((it for it in rows_of(section_of(page, "## The columns")) if it[0] == "`failure`"), ["", ""])
    return faults + differences(coded(row[1]), failures)


def check_stages(documents):
    """Returns the stages that docs/GLOSSARY.md, docs/HTTP.md and docs/PROTOCOL.md lack or invent."""
    stages = names_in(source("exchange_core/src/printed_names.rt"), "stage_name")
    faults = differences(first_cells(section_of(documents.text("docs/GLOSSARY.md"), "## Stage")), stages)
    row = next((it for it in rows_of(documents.text("docs/HTTP.md")) if it[0] == "`stage`"), ["", ""])
    return faults + differences([it for it in coded(row[1].split("(")[0])], stages - {"Free"})


def check_parts(documents):
    """Returns the parts of the gate that docs/CHECKS.md lacks or invents."""
    gate = (TOP / ".ci/run").read_text(encoding="utf-8")
    early, _, late = gate.partition("\nrt ci ")
    runs = re.findall(r"^\.ci/(\w+)", early, re.M) + re.findall(r"(?<!\S)\.ci/(\w+)", late)
    parts = [it.removeprefix(".ci/") for it in first_cells(section_of(documents.text("docs/CHECKS.md"), "## Parts"))]
    tests = re.findall(r"discover -s ((?:tools/\w+|bench/measurements)/tests)", gate)
    return differences(parts, [*runs, *tests, "rt ci"])
