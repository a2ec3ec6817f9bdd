"""The list of checks, each with the pages that it sees."""
import shutil
import subprocess
import sys
from concurrent.futures import ThreadPoolExecutor
from dataclasses import dataclass
from typing import Callable

from . import (
    amplified,
    code_names,
    codes,
    command_line,
    http,
    iax_conf,
    limits,
    links,
    log,
    metrics,
    modes,
    names,
    notes,
    plan_keys,
    references,
    rules,
    statuses,
    transcripts,
    tutorial,
)
from .pages import MANUALS, MEASURED
from .report import Report


@dataclass(frozen=True)
class Check:
    """A check: its name, its function, the pages that it sees, and whether it takes one page at a time. `cost` is 0 if
    it runs nothing, 1 if it runs the program, 2 if it runs a service."""

    what: str
    function: Callable
    sees: Callable
    is_by_page: bool = False
    cost: int = 0

    def run(self, documents, page, report):
        """Runs it over a page, or over all that it sees. A page that it can't read is a fault."""
        try:
            faults = self.function(documents, page) if self.is_by_page else self.function(documents)
        except (AttributeError, IndexError, KeyError, LookupError, OSError, StopIteration, TypeError, ValueError) as fault:
            faults = [f"it can't be read: {type(fault).__name__}: {fault}"]
        report.judge(f"{page}, {self.what}" if self.is_by_page else self.what, faults)


def by_page(what, function, sees, cost=0):
    """Returns a check that takes one page at a time."""
    return Check(what, function, sees, True, cost)


def of_pages(what, function, *pages, cost=0):
    """Returns a check of these pages together."""
    return Check(what, function, lambda page: page in pages, False, cost)


def is_page(page):
    """Returns whether a path is a page in Markdown."""
    return page.endswith(".md")


def is_text(page):
    """Returns whether a path is a page or a manual page."""
    return is_page(page) or page in MANUALS


def check_figures(documents):
    """Has `bench/pages --check` compare the figures of measurements, if there is that program."""
    if not documents.has("bench/pages"):
        return []
    words = [sys.executable, str(documents.root / "bench/pages"), "--check"]
    done = subprocess.run(words, cwd=documents.root, capture_output=True, text=True, timeout=60, check=False)
    return [] if done.returncode == 0 else (done.stdout + done.stderr).splitlines() or [f"status {done.returncode}"]


def check_form(documents, page):
    """Returns the warnings of `mandoc` about a manual page, if that is installed."""
    if not shutil.which("mandoc"):
        return []
    words = ["mandoc", "-Tlint", "-Wwarning", str(documents.root / page)]
    return subprocess.run(words, capture_output=True, text=True, check=False).stdout.splitlines()


QUICK = (
    by_page("names", names.check, is_page),
    by_page("printed sentences", names.check_phrases, is_page),
    by_page("links", links.check, is_page),
    by_page("limits", limits.check, lambda page: is_text(page) and limits.is_stated(page)),
    by_page("numbers", limits.check_numbers, lambda page: is_page(page) and limits.is_stated(page)),
    by_page("options", command_line.check_mentions, is_text),
    by_page("heads of tables", command_line.check_heads, is_page),
    by_page("modes", modes.check, lambda page: is_text(page) and modes.has_modes(page)),
    by_page("defaults", plan_keys.check_phrases, is_text, 1),
    by_page("statuses", statuses.check, is_text, 1),
    by_page("metrics", metrics.check_mentions, lambda page: is_text(page) or page == "contrib/alerts.yml"),
    by_page("codes", codes.check_mentions, is_page),
    by_page("lines of a log", log.check_samples, is_page),
    of_pages("pages that sources name", links.check_sources, ""),
    of_pages("crates that make WasRefused", code_names.check_witness, ""),
    of_pages("calls of locked states", notes.check_notes, ""),
    of_pages("docs/CLI.md, names", command_line.check_names, "docs/CLI.md"),
    of_pages("docs/OPERATING.md, columns", command_line.check_columns, "docs/OPERATING.md"),
    of_pages("docs/PLAN.md, keys", plan_keys.check_table, "docs/PLAN.md", cost=1),
    of_pages("docs/PLAN.md, faults and warnings", plan_keys.check_lines, "docs/PLAN.md"),
    of_pages("docs/PLAN.md, lengths of calls", transcripts.check_lengths, "docs/PLAN.md"),
    of_pages("exchange_main.plan.5, keys", plan_keys.check_manual, "contrib/exchange_main.plan.5", cost=1),
    of_pages("plan.schema.json, keys", plan_keys.check_schema, "contrib/plan.schema.json"),
    of_pages("docs/METRICS.md, metrics", metrics.check_table, "docs/METRICS.md"),
    of_pages("docs/METRICS.md, values of labels", metrics.check_values, "docs/METRICS.md"),
    of_pages("docs/TROUBLESHOOTING.md, alarms", metrics.check_alarms, "docs/TROUBLESHOOTING.md", "contrib/alerts.yml"),
    of_pages("contrib/alerts.yml", metrics.check_rules, "contrib/alerts.yml"),
    of_pages("docs/METRICS.md, lines of the log", log.check_lines, "docs/METRICS.md"),
    of_pages("docs/METRICS.md, all lines of the log", log.check_complete, "docs/METRICS.md"),
    of_pages("docs/METRICS.md, levels", log.check_levels_of_option, "docs/METRICS.md"),
    of_pages("docs/PROTOCOL.md, codes", codes.check_codes, "docs/PROTOCOL.md"),
    of_pages("docs/PROTOCOL.md, causes", codes.check_causes, "docs/PROTOCOL.md"),
    of_pages("docs/INCIDENTS.md, the challenge", codes.check_challenge, "docs/INCIDENTS.md"),
    of_pages("docs/HTTP.md, members", http.check_members, "docs/HTTP.md"),
    of_pages("refusals", references.check_refusals, "docs/REFUSALS.md", "contrib/exchange_main.plan.5"),
    of_pages("docs/REFUSALS.md, datagrams", references.check_order_of_refusals, "docs/REFUSALS.md"),
    of_pages("docs/RECORDS.md, names", references.check_records, "docs/RECORDS.md"),
    of_pages("stages", references.check_stages, "docs/GLOSSARY.md", "docs/HTTP.md"),
    of_pages("docs/CHECKS.md, parts", references.check_parts, "docs/CHECKS.md"),
    of_pages("docs/ARCHITECTURE.md, names", code_names.check_architecture, "docs/ARCHITECTURE.md", "docs/layers.svg"),
    of_pages("clauses", code_names.check_clauses, "docs/CLAUSES.md", "docs/GUARANTEES.md"),
    of_pages("wrong bodies", code_names.check_wrong_bodies, "docs/GUARANTEES.md"),
    of_pages("docs/GUARANTEES.md, promises", code_names.check_promises, "docs/GUARANTEES.md"),
    of_pages("docs/TWO_SITES.md, iax.conf", iax_conf.check, "docs/TWO_SITES.md", "docs/ASTERISK.md", "docs/PLAN.md"),
    of_pages("docs/TWO_SITES.md, the call of modems", tutorial.check, "docs/TWO_SITES.md", cost=1),
)
RUNNING = (
    by_page("transcripts", transcripts.check_transcripts, lambda page: page in transcripts.PAGES, 1),
    of_pages(
        "the plan to begin with",
        transcripts.check_starter_plan,
        "docs/TWO_SITES.md",
        "contrib/plan.toml",
        "contrib/exchange_main.plan.5",
        cost=1,
    ),
    of_pages("plans without warnings", transcripts.check_warnings, "docs/TWO_SITES.md", "contrib/plan.toml", cost=1),
    of_pages("commands", transcripts.check_commands, "README.md", "docs/OPERATING.md", "docs/INCIDENTS.md", cost=1),
    of_pages("docs/SCRIPT.md, lines", references.check_script, "docs/SCRIPT.md", cost=1),
    of_pages("docs/CLI.md, serve", transcripts.check_serve, "docs/CLI.md", cost=1),
    of_pages("docs/CLI.md, --help", command_line.check_help, "docs/CLI.md", cost=1),
    of_pages("docs/CLI.md, words", command_line.check_words, "docs/CLI.md", cost=1),
    of_pages("exchange_main.1", command_line.check_manual, "contrib/exchange_main.1"),
    of_pages("docs/RECORDS.md, the bill", transcripts.check_bill, "docs/RECORDS.md", cost=1),
    of_pages("exchange_main.plan.5, the plan", transcripts.check_plan_of_manual, "contrib/exchange_main.plan.5", cost=1),
    of_pages("docs/PLAN.md, lengths of texts", plan_keys.check_sizes_of_texts, "docs/PLAN.md", cost=1),
    of_pages("docs/SECURITY.md, answers", amplified.check, "docs/SECURITY.md", cost=1),
    of_pages("docs/HTTP.md, requests", http.check_table, "docs/HTTP.md", cost=2),
    of_pages("docs/HTTP.md, refusals", http.check_refusals, "docs/HTTP.md", cost=2),
    of_pages("docs/HTTP.md, statuses", http.check_sections, "docs/HTTP.md", cost=2),
    by_page("statuses with names", http.check_prose, lambda page: page == "docs/HTTP.md", 2),
    of_pages("docs/HTTP.md, samples", transcripts.check_samples, "docs/HTTP.md", cost=2),
    of_pages("docs/OPERATING.md, the running service", transcripts.check_running_service, "docs/OPERATING.md", cost=2),
    of_pages("figures", check_figures, *MEASURED, "docs/SECURITY.md", cost=1),
    by_page("form", check_form, lambda page: page in MANUALS, 1),
)
# The rules of form, each with whether it is on.
RULES = (
    (by_page("first mentions", rules.check_mentions, rules.is_ruled), rules.FIRST_MENTIONS_ARE_LINKS),
    (Check("bounds of pages", rules.check_bounds, lambda page: page.startswith("docs/")), rules.PAGES_ARE_BOUNDED),
    (by_page("commits", rules.check_commits, rules.is_ruled), rules.COMMITS_ARE_REFUSED),
)
CHECKS = QUICK + RUNNING + tuple(check for check, is_on in RULES if is_on)


def tasks_of(checks, documents):
    """Returns the runs of checks over all documents, each a check and a page."""
    pages = (*documents.pages, *MANUALS, "contrib/alerts.yml")
    return [(check, page) for check in checks for page in (filter(check.sees, pages) if check.is_by_page else [""])]


def run_all(documents, report):
    """Runs all checks over the documents, some at the same time, and prints what the rules that are off would find."""
    # It is made before threads ask for it: two that make it at the same time would remove each other's.
    transcripts.program_folder()

    def run(task):
        """Returns what a check finds in a page."""
        found = Report(prints=False)
        task[0].run(documents, task[1], found)
        return found

    with ThreadPoolExecutor(3) as pool:
        for found in pool.map(run, tasks_of(CHECKS, documents)):
            report.add(found)
    for check, is_on in RULES:
        found = Report(prints=False)
        for task in [] if is_on else tasks_of([check], documents):
            task[0].run(documents, task[1], found)
        if found.faults:
            print(f'documents: the rule "{check.what}" is off: {len(found.faults)} faults', file=sys.stderr)
