"""The quantities that pages state: ranges, sizes and other limits, each with the sentence or row that it is in."""
import re
from dataclasses import dataclass

from .pages import MANUALS, items_of, sentences_of

WORDS = ("one", "two", "three", "four", "five", "six", "seven", "eight", "nine", "ten", "eleven", "twelve")
TENS = {"twenty": 20, "thirty": 30, "forty": 40, "fifty": 50, "sixty": 60, "a hundred": 100}
NUMBER = r"(?:2\^\d+|\d[\d,]*\d|\d)"
WORD = rf"(?:{'|'.join(WORDS[1:] + tuple(TENS))})"
# How many octets, or milliseconds, each unit has; 1 for what is counted.
SIZES = {"octets": 1, "octet": 1, "bytes": 1, "KiB": 1024, "MiB": 1 << 20}
TIMES = {"milliseconds": 1, "ms": 1, "s": 1000, "seconds": 1000, "second": 1000}
# Things that pages also count in words: "ten digits".
SPOKEN = ("octets", "bytes", "seconds", "milliseconds", "entries", "digits", "letters", "descriptors")
COUNTED = (
    "entries",
    "frames",
    "datagrams",
    "fields",
    "clients",
    "letters",
    "digits",
    "turns",
    "tables",
    "rows",
    "columns",
    "faults",
    "addresses",
    "legs",
    "numbers",
    "descriptors",
    "bits",
    "places",
    "files",
    "tries",
    "peers",
    "workers",
    "lines",
)
UNIT = "|".join(sorted((*SIZES, *TIMES, *COUNTED), key=len, reverse=True))
# The words that may be between a number and its unit: "four free entries".
BETWEEN = (
    r"(?:(?!(?:and|are|as|at|for|from|has|have|if|in|include|is|of|or|that|the|these|to|which|with|without)\b)[a-z-]+ ){0,2}?"
)
QUANTITY = re.compile(rf"(?<![\w.^\\-])(?<!- )({NUMBER}) {BETWEEN}({UNIT})\b(?! (?:digit|page))")
IN_WORDS = re.compile(rf"(?i)(?<![\w-])({WORD}) {BETWEEN}({'|'.join(SPOKEN)})\b(?! later)")
RANGE = re.compile(rf"(?<![\w.,^-])({NUMBER}) to ({NUMBER})(?![\w^]|\.\d)")
# Ranges of octets.
OCTETS = re.compile(r"\b(0x[0-9a-f]{2}) to (0x[0-9a-f]{2})\b")


# Numbers without a unit: those of four digits and more, powers of two, those that are a table's last cell, and those behind
# words that take a number.
BARE = re.compile(
    r"(?<![\w.,^/:-])(\d{1,3}(?:,\d{3})+|2\^\d+)(?![\w^]|[.,:-]\d)|(?<=\| )([1-9]\d*(?= \|$)|[1-9]\d+(?=; | each))"
    r"|(?:from the number|come from|source is|destination|PONG to|tries|sender of|modulo|begins with) (\d{2,})(?![\w,.:-]*\d)"
)


@dataclass(frozen=True)
class Quantity:
    """A number of a page, or the two of a range, with its unit: `octets`, `ms`, or what is counted; `range` for a range,
    `values` for one of an octet's values, `number` without a unit. In `marked`, its heading and sentence, `#` stands in its
    place."""

    start: int
    end: int
    values: tuple
    unit: str
    context: str
    marked: str


def number_of(text):
    """Returns the number that a text says in digits or in words."""
    said = text.lower().replace(",", "")
    if said.startswith("2^"):
        return 1 << int(said[2:])
    if said in WORDS:
        return WORDS.index(said) + 1
    return TENS[said] if said in TENS else int(said, 0)


def scaled(text, unit):
    """Returns a number in octets, milliseconds or pieces, with the unit's name in facts."""
    if unit in SIZES:
        return number_of(text) * SIZES[unit], "octets"
    if unit in TIMES:
        return number_of(text) * TIMES[unit], "ms"
    return number_of(text), unit


def without_ranges(text):
    """Returns a text with blanks in place of its ranges."""
    return RANGE.sub(lambda it: " " * len(it.group()), text)


def quantities_in(text, place):
    """Returns the quantities in a piece of a page."""
    said, found = text[place.start : place.end], []

    def add(start, end, values, unit):
        """Adds the quantity at a place of the piece."""
        marked = f"{place.heading} {said[:start]}#{said[end:]}".lower()
        found.append(Quantity(place.start + start, place.start + end, values, unit, f"{place.heading} {said}", marked))

    for unit, pattern in (("range", RANGE), ("values", OCTETS)):
        for it in pattern.finditer(said):
            add(it.start(), it.end(), (number_of(it.group(1)), number_of(it.group(2))), unit)
    rest = without_ranges(said)
    for it in [*QUANTITY.finditer(rest), *IN_WORDS.finditer(rest)]:
        value, unit = scaled(it.group(1), it.group(2))
        add(it.start(1), it.end(1), (value,), unit)
    places = {it.start - place.start for it in found}
    for it in BARE.finditer(rest):
        group = next(at for at in (1, 2, 3) if it.group(at))
        if it.start(group) not in places:
            add(it.start(group), it.end(group), (number_of(it.group(group)),), "number")
    return found


def flat(text):
    """Returns a manual page with blanks in place of its line ends and macros, at the same places."""
    return re.sub(r"\n\.?", lambda it: " " * len(it.group()), text)


def quantities_of(page, text):
    """Returns the quantities of a page."""
    if page in MANUALS:
        return [it for place in items_of(text) for it in quantities_in(flat(text), place)]
    return [it for place in sentences_of(text) for it in quantities_in(text, place)]
