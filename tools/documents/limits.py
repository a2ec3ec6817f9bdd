"""Compares the ranges, sizes and other limits of pages with the facts of the sources."""
import functools
import re

from . import amplified
from .facts import facts
from .pages import MANUALS, MEASURED, MEASURED_PART, sentences_of
from .quantities import number_of, quantities_of

# Pages about development: they have times of proofs, which no source has.
DEVELOPMENT = ("docs/CHECKS.md", "docs/PROVING.md", "CONTRIBUTING.md", "docs/WHY.md")


@functools.cache
def values_of(unit, marked):
    """Returns the values that a quantity of a unit may have in a sentence: those of facts about its place, if there are any."""
    found = [it for it in facts() if it.unit == unit and re.search(it.words, marked)]
    return frozenset(it.values for it in [it for it in found if "#" in it.words] or found)


def is_stated(page):
    """Returns whether the quantities of a page are compared."""
    return page not in MEASURED and page not in DEVELOPMENT


def own_values(documents, page, quantity):
    """Returns the values of a quantity that the page itself has the source of: numbers of its dialplans and of its items, and
    the sums that the program prints of its plans."""
    text, context = documents.text(page), quantity.context
    if page == "docs/TWO_SITES.md" and quantity.unit == "range":
        routes = re.findall(r'^    prefix = "(\d)"\n(?:    source = .*\n)?    peer = "([\w-]+)"', text, re.M)
        return {(int(it) * 1000, int(it) * 1000 + 999) for it, peer in routes if peer.replace("-", " ") in context}
    if page == "docs/DECISIONS.md" and quantity.unit == "range" and context.startswith("# "):
        parts = [[int(it) for it in re.findall(r"^(\d+)\. ", part, re.M)] for part in text.split("\n## ")[1:]]
        place = len(re.findall(r"^\| \d+ to \d+ \|", text[: quantity.start], re.M))
        return {(part[0], part[-1]) for part in [it for it in parts if it][place : place + 1]}
    printed = {(int(it.split()[2]),) for it in re.findall(r"^    ok (.*)$", text, re.M)}
    return printed if quantity.unit == "numbers" and re.search(r"routes and", context) else set()


def quantities(documents, page):
    """Returns the quantities of a page that are compared: all but those of examples in code, and of measurements."""
    text = documents.text(page)
    found = quantities_of(page, text)
    if page in MANUALS:
        return found
    spans, parts = ([it.span() for it in re.finditer(pattern, text)] for pattern in (r"`[^`\n]*`", MEASURED_PART))
    found = [it for it in found if not any(a < it.start < b for a, b in parts)]
    shown = [it for it in found if it.unit in ("range", "values") or not any(a < it.start < b for a, b in spans)]
    # The replays of `amplified` have these.
    return [it for it in shown if not it.context.startswith(amplified.HEADING)]


@functools.cache
def places_of_numbers():
    """Returns the facts of numbers without a unit, each as a pattern with a group for each number, and its value."""
    found = []
    for fact in (it for it in facts() if it.unit == "number"):
        parts = re.split(r"(?<!\^)#", fact.words)
        groups = [rf"(?<![\w.,^])(?P<n{at}>2\^\d+|\d[\d,]*\d)(?![\w^]|[.,]\d)" for at in range(len(parts) - 1)]
        found.append((re.compile("".join(a + b for a, b in zip(parts, [*groups, ""]))), fact.values[0]))
    return found


def check_numbers(documents, page):
    """Returns the numbers of a page that are at the place of a fact and have another value, in whatever form."""
    text, faults = documents.text(page), []
    for place in sentences_of(text):
        said, known = f"{place.heading} {text[place.start:place.end]}".lower(), {}
        for pattern, value in places_of_numbers():
            for it in pattern.finditer(said):
                name = next((name for name, group in it.groupdict().items() if group), None)
                if name:
                    known.setdefault((it.start(name), it.group(name)), set()).add(value)
        faults += [
            f"{shown}, but the sources have {sorted(values)}"
            for (_, shown), values in known.items()
            if number_of(shown) not in values
        ]
    return faults


def check(documents, page):
    """Returns the quantities of a page that no fact has."""
    faults = []
    for it in quantities(documents, page):
        values = own_values(documents, page, it) or values_of(it.unit, it.marked)
        if it.values not in values:
            said = " to ".join(f"{value:,}" for value in it.values)
            known = ", ".join(" to ".join(f"{one:,}" for one in value) for value in sorted(values)) or "no fact"
            faults.append(f"{said} {it.unit}, but the sources have {known}: {' '.join(it.context.split())[-120:]}")
    return faults
