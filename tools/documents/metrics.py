"""The metrics: their names and labels in the sources, in docs/METRICS.md, in alarms and wherever a page has one."""
import functools
import re

from .pages import coded, rows_of
from .report import differences
from .sources import function_of, names_in, source, sources

PAGE, HEADING = "docs/METRICS.md", "## Metrics"
METRIC = re.compile(r"\b(iax_(?!test|frames|main)\w+)(\{[^}`]*\})?")


@functools.cache
def labels():
    """Returns the labels of each metric."""
    by_name, lost, scraping = (source(f"service_api/src/{it}.rt") for it in ("by_name", "lost_frames", "scraping"))
    found = {it: ("peer",) for it in re.findall(r'"(iax_\w+)"', source("service_state/src/figures.rt"))}
    names = dict(re.findall(r'const (\w+): Told = Told \{[^}]*?name: "(iax_\w+)"', by_name + lost + scraping, re.S))
    for function in re.split(r"\n(?=pub\(crate\) fn )", by_name):
        used = re.search(r"push_family\([^;]*&(\w+),", function)
        if used:
            found[names[used.group(1)]] = ("peer", *re.findall(r'push_count\([^"]*"(\w+)"', function))
    found[names["OUTBOX_LOST"]] = tuple(re.findall(r'name: "([a-z]+)"', lost))
    found[names["DROPPED"]] = tuple(re.findall(r'name: "([a-z]+)"', function_of(scraping, "push_drops")))
    for listed in re.findall(r"const OF_\w+: \[Told; \d+\] = \[(.*?)\n\];", scraping, re.S):
        found |= {it: () for it in re.findall(r'"(iax_\w+)"', listed)}
    return found


@functools.cache
def values():
    """Returns the values of the labels that have names of the program."""
    names = source("exchange_core/src/printed_names.rt")
    reasons = set(re.findall(r'"(\w+)"', source("service_state/src/reasons.rt")))
    failures = set(re.findall(r'=> "(\w+)"', source("service_state/src/authentication.rt")))
    frames = set(re.findall(r'\("(\w+)", \w+\)', source("service_api/src/lost_frames.rt")))
    return {
        "refusal": names_in(names, "refusal_name"),
        "rejection": names_in(names, "rejection_name"),
        "frame": frames,
        "reason": reasons | failures,
    }


def check_table(documents):
    """Returns the faults of the table of metrics: names that lack or are none, and other labels."""
    rows = rows_of(documents.section(PAGE, HEADING))
    cells = [it for row in rows for it in coded(row[0])]
    faults = differences(
        [it.partition("{")[0] for it in cells], re.findall(r'"(iax_\w+)"', sources("service_api", "service_state"))
    )
    for cell in cells:
        name, _, listed = cell.partition("{")
        told = tuple(it for it in listed.removesuffix("}").split(",") if it)
        if told != labels().get(name, told):
            faults.append(f"the labels of {name} are {labels()[name]}")
    return faults


def check_values(documents):
    """Returns the faults of rows that name the values of a label: one that lacks, or is none."""
    faults = []
    for row in rows_of(documents.section(PAGE, HEADING)):
        for name, label in (("iax_datagrams_rejected_total", "rejection"), ("iax_outbox_frames_lost_total", "frame")):
            if name in row[0]:
                said = [it for it in coded(row[1]) if re.fullmatch(r"[A-Za-z]+", it) and it != label]
                faults += differences(said, values()[label])
        told = labels().get(coded(row[0])[0].partition("{")[0], ())
        for label, value in re.findall(r'\{(\w+)="([^"]*)"', " ".join(row[1:])):
            faults += [] if label in told and value in values()[label] else [f"{row[0]} has no {label} {value}"]
    return faults


def check_mentions(documents, page):
    """Returns the faults of metrics that a page or a file of alarms mentions: no such metric, label or value."""
    faults = []
    for name, listed in METRIC.findall(documents.text(page)):
        if name not in labels():
            faults += [f"no metric {name}"]
            continue
        for label, value in re.findall(r'(\w+)(?:="([^"]*)")?', listed or ""):
            if label not in labels()[name]:
                faults.append(f"{name} has no label {label}")
            elif value and value not in values().get(label, {value}):
                faults.append(f"the label {label} has no value {value}")
    return faults


PROMQL = {"rate", "unless", "and", "on", "or", "instance", "peer", "expr"}


def check_rules(documents):
    """Returns the words of the expressions of contrib/alerts.yml that are neither metrics nor words of Prometheus."""
    text = documents.text("contrib/alerts.yml")
    told = re.findall(r"[a-z]\w+", re.sub(r"\[\w+\]", "", " ".join(re.findall(r"expr: .*\n(?:          .*\n)*", text))))
    told += re.findall(r"\$labels\.(\w+)", text)
    known = PROMQL | set(labels()) | {it for listed in labels().values() for it in listed}
    return [f"no metric {it}" for it in told if it not in known]


def check_alarms(documents):
    """Compares the headings of docs/TROUBLESHOOTING.md below "Alarms" with the alarms of contrib/alerts.yml."""
    named = re.findall(r"- alert: (\w+)", documents.text("contrib/alerts.yml"))
    return differences(re.findall(r"^### (\w+)$", documents.section("docs/TROUBLESHOOTING.md", "## Alarms"), re.M), named)
