"""The keys of `iax.conf` and of iaxmodem's files in docs/TWO_SITES.md, with the table that gives their reasons."""
import re
import tomllib

from .pages import blocks_of, coded, rows_of, section_of

TUTORIAL, HEADING = "docs/TWO_SITES.md", "## With an Asterisk peer"


def page_of_reasons(documents):
    """Returns the page with the table of reasons: docs/ASTERISK.md, or docs/PLAN.md without it."""
    return "docs/ASTERISK.md" if documents.has("docs/ASTERISK.md") else "docs/PLAN.md"


def reasons(documents):
    """Returns the keys of `iax.conf` that the table has a reason for, each with its value, or None."""
    page = page_of_reasons(documents)
    text = documents.text(page)
    section = text if page == "docs/ASTERISK.md" else section_of(text, HEADING)
    found = {}
    for row in rows_of(section):
        for word in coded(row[0]):
            key, has_value, value = word.partition("=")
            found.setdefault(key.strip(), set()).add(value.strip() if has_value else None)
    return found


def files(documents):
    """Returns the blocks of docs/TWO_SITES.md that are an `iax.conf`, each as its sections with keys and values."""
    found = []
    for block in blocks_of(documents.text(TUTORIAL)):
        if re.search(r"^type ?= ?", block, re.M) and "[exchange]" in block:
            sections, name = {}, ""
            for line in block.split("\n"):
                name = line if line.startswith("[") else name
                key, has_value, value = line.partition("=")
                if has_value:
                    sections.setdefault(name, []).append((key.strip(), value.strip(" >")))
            found.append(sections)
    return found


def plan_of(documents):
    """Returns the first whole plan of docs/TWO_SITES.md."""
    block = next(it for it in blocks_of(documents.text(TUTORIAL)) if "[[worker]]" in it)
    return tomllib.loads(block)


def check(documents):
    """Returns the faults of the sites' files: a key without a reason, and a value that isn't the table's or the plan's."""
    found, table = files(documents), reasons(documents)
    faults = [] if found else [f"{TUTORIAL} has no iax.conf"]
    for sections in found:
        for name, pairs in sections.items():
            if name not in table and name not in ("[general]", "") and name.strip("[]") not in table:
                faults.append(f"the section {name} has no reason")
            for key, value in pairs:
                if key not in table:
                    faults.append(f"the key {key} has no reason in {page_of_reasons(documents)}")
                elif (
                    table[key] != {None}
                    and value not in table[key]
                    and not (key in ("allow", "disallow") and value in known_formats(documents))
                ):
                    faults.append(f"{key}={value}, but the table has {', '.join(str(it) for it in table[key])}")
        faults += faults_of_values(documents, sections)
    return faults


def known_formats(documents):
    """Returns the formats of the plan's peers."""
    return {it for peer in plan_of(documents)["peer"] for it in peer["formats"]}


def faults_of_values(documents, sections):
    """Returns the values of a site's file that aren't those of the plan."""
    plan, text = plan_of(documents), documents.text(TUTORIAL)
    general, exchange = dict(sections.get("[general]", [])), dict(sections.get("[exchange]", []))
    ports = {str(it["port"]) for it in plan["peer"]}
    secrets = {it["secret"] for it in plan["peer"]}
    wanted = {
        "host": {it["address"] for it in plan["worker"]},
        "port": {str(it["port"]) for it in plan["worker"]},
        "secret": secrets,
        "username": {it["user"] for it in plan["peer"]},
        "auth": {"md5"},
        "type": {"friend"},
        "context": set(re.findall(r"^    \[([a-z-]+)\]$", text, re.M)) - {"general", "exchange", "internal"},
        "allow": known_formats(documents),
        "disallow": {"all"},
    }
    faults = [
        f"{key}={exchange[key]}, but it is {' or '.join(sorted(values))}"
        for key, values in wanted.items()
        if key in exchange and exchange[key] not in values
    ]
    own = {"bindport": ports, "bindaddr": {"0.0.0.0"}, "allow": known_formats(documents), "disallow": {"all"}}
    faults += [
        f"{key}={general[key]}, but it is {' or '.join(sorted(values))}"
        for key, values in own.items()
        if key in general and general[key] not in values
    ]
    faults += [f"the section [exchange] lacks {it}" for it in ("host", "secret", "auth", "context") if it not in exchange]
    return faults
