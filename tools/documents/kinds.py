"""The kinds of statements that are spoilt: of each a finder of all its statements in the documents."""
import re
from dataclasses import dataclass
from typing import Callable

from . import amplified, codes, iax_conf, limits, modes, names, plan_keys, statuses, tutorial
from .pages import MANUALS, cells_of, section_of
from .quantities import TENS, WORDS
from .sources import options, status_codes
from .spoiling import Statement

LEVELS = ("error", "warn", "info", "debug")


@dataclass(frozen=True)
class Kind:
    """A kind of statements, with the function that finds them. `swaps`: one of them may take the place of another."""

    name: str
    find: Callable
    swaps: bool = False


def read_pages(documents):
    """Returns the pages and the manual pages."""
    return (*documents.pages, *MANUALS)


def in_section(documents, page, heading, pattern, others=()):
    """Returns the statements of a section that a pattern finds: each its first group, or the whole."""
    text, section = documents.text(page), documents.section(page, heading)
    base = text.find(section) if section else 0
    return [at_group(page, it, base, others) for it in re.finditer(pattern, section, re.M)]


def at_group(page, match, base=0, others=()):
    """Returns the statement of a match: its first group that has a text, or the whole."""
    group = next((at for at in range(1, (match.re.groups or 0) + 1) if match.group(at)), 0)
    return Statement(page, base + match.start(group), match.group(group), tuple(others))


def defaults(documents):
    """Finds the defaults in tables, in sentences and in manual pages."""
    found = []
    for page, heading, column, width in (("docs/PLAN.md", "## The keys", 2, 3), ("docs/CLI.md", "## run", 1, 3)):
        for line in in_section(documents, page, heading, r"^\| (?!Key|Option|--).*\|$"):
            cells = cells_of(line.text)
            value = re.match(r"`?([\w-]+)`?(?=:|$|`)", cells[column]) if len(cells) == width else None
            if value and value.group(1) not in ("secret", "absent"):
                place = (
                    line.text.index(f"| {cells[column]} |", len(cells[0]) if column == 1 else len(cells[0]) + len(cells[1])) + 2
                )
                found.append(Statement(page, line.start + place + value.start(1), value.group(1), others_of(value.group(1))))
    for page in read_pages(documents):
        found += [Statement(page, at, value, others_of(value)) for at, value, _ in plan_keys.stated_defaults(documents, page)]
    words = re.compile(r"^\.Cm (\w+)\nby default", re.M)
    return found + [
        Statement(page, it.start(1), it.group(1), others_of(it.group(1)))
        for page in MANUALS
        for it in words.finditer(documents.text(page))
    ]


def others_of(value):
    """Returns the other words that a default in words may be."""
    sets = (("true", "false"), (*LEVELS, "off"), ("yes", "no"), ("full", "last4", "no"), ("none", "7"))
    return next((group for group in sets if value in group and not value.isdigit()), ())


def quantities(documents, wanted):
    """Returns the quantities of all pages whose unit is wanted."""
    found = []
    for page in (it for it in read_pages(documents) if limits.is_stated(it)):
        text = documents.text(page)
        for it in limits.quantities(documents, page):
            if wanted(it.unit):
                said = text[it.start : it.end]
                found.append(Statement(page, it.start, said, words_like(said)))
    return found


def words_like(said):
    """Returns the numbers in words, if a number is in words."""
    if said[:1].isdigit():
        return ()
    spoken = (*WORDS[2:], *TENS)
    return tuple(it.capitalize() if said[:1].isupper() else it for it in spoken)


def ranges(documents):
    """Finds the ranges."""
    return quantities(documents, lambda unit: unit in ("range", "values"))


def sizes(documents):
    """Finds the sizes in octets, and those of answers."""
    found = quantities(documents, lambda unit: unit == "octets")
    return found + in_section(documents, amplified.PAGE, amplified.HEADING, r"(\d+) octets")


def others(documents):
    """Finds the other limits: times, what is counted, and numbers without a unit."""
    return quantities(documents, lambda unit: unit not in ("octets", "range", "values"))


def exit_statuses(documents):
    """Finds the exit statuses."""
    return [
        Statement(page, at, said, ("0", "1", "2", "3", "137"))
        for page in read_pages(documents)
        for at, said, _ in statuses.stated(documents, page)
    ]


def http_statuses(documents):
    """Finds the statuses of HTTP, and the names of refusals beside them."""
    page, text = "docs/HTTP.md", documents.text("docs/HTTP.md")
    known = tuple(str(it) for it in status_codes().values())
    kept = names.blank(re.compile(r"^ {4}.*$", re.M), text)
    coded = names.blank(re.compile(r"(?<=`)[^`\n]+(?=`)"), kept)
    found = [at_group(page, it, 0, known) for it in re.finditer(r"\b([2-5]\d\d)\b(?=,| `| \|)", coded)]
    for line in re.finditer(r"^\| \d{3} \| (.*?) \|", kept, re.M):
        found += [Statement(page, line.start(1) + it.start(1), it.group(1)) for it in re.finditer(r"`(\w+)`", line.group(1))]
    return found


def metrics(documents):
    """Finds the metrics, each with its labels, in pages and in alarms."""
    found = []
    for page in (*read_pages(documents), "contrib/alerts.yml"):
        for it in re.finditer(
            r"\biax_(?!test|frames|main)\w+|(?<=[{,])(?:peer|refusal|rejection|reason|frame|worker)(?=[,}=])",
            documents.text(page),
        ):
            is_label = not it.group().startswith("iax_")
            found.append(
                Statement(
                    page, it.start(), it.group(), ("peer", "refusal", "rejection", "frame", "worker", "level") if is_label else ()
                )
            )
    return found


def log_lines(documents):
    """Finds the levels and the texts of the log's lines."""
    found = []
    for line in in_section(documents, "docs/METRICS.md", "## The log", r"^\| `.*\|$"):
        shown, levels, _ = re.match(r"\| (.*?) \| ([^|]*) \| (.*)\|$", line.text).groups()
        base = line.start + 2
        found += [
            Statement(line.page, base + it.start(), it.group())
            for it in re.finditer(r"(?<![\w./])[a-z]{4,}(?![\w./])", fixed_words(shown))
        ]
        base += len(shown) + 3
        found += [
            Statement(line.page, base + it.start(), it.group(), LEVELS)
            for it in re.finditer(r"\b(?:error|warn|info|debug)\b", levels)
        ]
    samples = re.finditer(r"(?<=\dZ )(?:ERROR|WARN|INFO|DEBUG)\b", documents.text("docs/METRICS.md"))
    return found + [Statement("docs/METRICS.md", it.start(), it.group(), ("ERROR", "WARN", "INFO", "DEBUG")) for it in samples]


def fixed_words(shown):
    """Returns the lines of a cell with blanks in place of what changes from line to line: names, paths, errors and endings."""
    kept = re.sub(
        r"(?<=: )(?:Address already in use \(os error 98\)|rejected_by_peer)|\bwest\b|\beast\b|\bfull(?= frames)"
        r"|plan\.toml|calls\.csv|/run/\S*",
        lambda it: " " * len(it.group()),
        shown,
    )
    return kept


def file_modes(documents):
    """Finds the modes of files."""
    return [
        Statement(page, at, said, other_modes(said))
        for page in read_pages(documents)
        if modes.has_modes(page)
        for at, said, _ in modes.stated(documents, page)
    ]


def other_modes(mode):
    """Returns modes that another user, or nobody, could use."""
    return tuple(it for it in ("0600", "0640", "0644", "0660", "0700", "0750", "0755", "0777", "0400") if it != mode)


def program_options(documents):
    """Finds the options: their names in all pages, and the words for their values in the references."""
    found = []
    for page in read_pages(documents):
        pattern = r"(?:Fl Fl )([a-z][a-z-]*)" if page in MANUALS else r"(?<![\w-])--([a-z][a-z-]*)"
        found += [at_group(page, it) for it in re.finditer(pattern, documents.text(page)) if it.group(1) in options()]
    found += in_section(documents, "docs/CLI.md", "## run", r"^\| `--[a-z-]+ ([A-Z:/]+)`")
    synopsis = re.finditer(r"^\.(?:Op|It) Fl Fl [a-z-]+ (?:Ar|Cm) ([a-z:]+)", documents.text(MANUALS[0]), re.M)
    return found + [at_group(MANUALS[0], it) for it in synopsis]


def ctl_columns(documents):
    """Finds the columns of `ctl`: in head lines of tables, in the table of docs/OPERATING.md and in exchange_main(1)."""
    found = []
    for page in ("docs/OPERATING.md", "docs/TWO_SITES.md"):
        for head in re.finditer(r"^    (?:name|number|accepted)  .*$", documents.text(page), re.M):
            found += [Statement(page, head.start() + it.start(), it.group()) for it in re.finditer(r"\w{3,}", head.group())]
    for line in in_section(documents, "docs/OPERATING.md", "## Watch it", r"^\| (`[^|]*) \|"):
        found += [Statement(line.page, line.start + it.start(1), it.group(1)) for it in re.finditer(r"`(\w+)`", line.text)]
    manual = documents.text(MANUALS[0])
    orders = manual.index(".Sh ORDERS")
    for line in re.finditer(r"^\.Li (\w+, .*)$", manual[orders : manual.index(".Sh EXIT")], re.M):
        found += [
            Statement(MANUALS[0], orders + line.start(1) + it.start(), it.group()) for it in re.finditer(r"\w{3,}", line.group(1))
        ]
    return found


def script_values(documents):
    """Finds the values of a script's lines: numbers, and the lines that may precede one."""
    page, heading = "docs/SCRIPT.md", "## Lines"
    found = in_section(documents, page, heading, r"(?<=\| )`[a-z]+ <[a-z]+>` \| .*\|$|(?<=\| )`(?:serial|key|offset|prefix).*\|$")
    spoilable = []
    for line in found:
        base = line.text.index("|")
        for it in re.finditer(
            r"(\d+) to (?=\d+ octets)|(?<=to )(\d+)(?= octets)|0x\w\w|(\d+)(?= hexadecimal)|(\d+)(?= zeros)"
            r"|first serial is (\d+)|`(\d)` at first",
            line.text[base:],
        ):
            spoilable.append(at_group(page, it, line.start + base))
        for listed in re.finditer(r"only ([^.;]*?) may precede", line.text):
            for it in re.finditer(r"`(\w+)`", listed.group(1)):
                spoilable.append(
                    Statement(page, line.start + listed.start(1) + it.start(1), it.group(1), ("hold", "tick", "at", "challenge"))
                )
    return spoilable


def protocol_codes(documents):
    """Finds the codes of docs/PROTOCOL.md: of frame types, subclasses, elements, formats and causes."""
    page, found = codes.PAGE, []
    for heading in ('## Frame types and subclasses ("Frame Types")', '## Information elements ("Information Elements")'):
        section = section_of(documents.text(page), heading)
        base = documents.text(page).find(section)
        pattern = r"(?<![\w.])(0x[0-9a-f]{2}|\d+)(?= (?:[A-Z]{2,}|voice|video|control|null|text|image|comfort|G\.711))"
        pattern += r"|^\| `?(0x[0-9a-f]{2}|\d+)`? \| `?[A-Z]"
        found += [at_group(page, it, base) for it in re.finditer(pattern, section, re.M)]
        found += [Statement(page, base + it.start(1), it.group(1)) for it in re.finditer(r"\| (\d+) `", section)]
        found += [
            Statement(page, base + row.start() + it.start(), it.group())
            for row in re.finditer(r"^\| 0x.*? \|", section, re.M)
            for it in re.finditer(r"0x[0-9a-f]{2}", row.group())
        ]
    return list(dict.fromkeys(found))


FIGURE = re.compile(r"(?<![\w.,-])\d+(?:[.,]\d+)*(?![\w-]|\.\d)")


def figures(documents):
    """Finds the figures of measurements in tables of the pages that `bench/pages` compares; none without that program."""
    if not documents.has("bench/pages"):
        return []
    found = []
    for page in ("docs/PERFORMANCE.md", "docs/CAPACITY.md"):
        for row in re.finditer(r"^\| (?!-).*\|$", documents.text(page), re.M):
            first = row.group().index("|", 2)
            found += [
                Statement(page, row.start() + first + it.start(), it.group(), other_figures(it.group()))
                for it in FIGURE.finditer(row.group()[first:])
            ]
    return found


def other_figures(text):
    """Returns figures that are a tenth more or half as much, in the same form."""
    places = len(text.partition(".")[2])
    value = float(text.replace(",", ""))
    return tuple(
        {f"{it:,.{places}f}" if "," in text else f"{it:.{places}f}" for it in (value * 1.5 + 1, value * 2 + 3, value / 2)}
        - {text}
    )


def code_names(documents):
    """Finds the names in backticks of all pages."""
    found = []
    for page in documents.pages:
        text = documents.text(page)
        found += [Statement(page, at, word) for at, word in names.stated(documents, page) if names.is_own(text, at, word)]
    return found


def tutorial_results(documents):
    """Finds what the program prints in docs/TWO_SITES.md: each number and name but those of one run."""
    page, found = tutorial.PAGE, []
    text = documents.text(page)
    for block in re.finditer(r"^    \$ exchange_main (check|explain)[^\n]*\n((?:    (?!\$).*\n)+)", text, re.M):
        found += [
            Statement(page, block.start(2) + it.start(), it.group())
            for it in re.finditer(r"(?<![\w.:\"-])\d+(?![\w.:\"-])|(?<=    )(?!\.\.\.)[a-z_]{4,}", block.group(2))
        ]
    for block in re.finditer(r"^    \$ exchange_main ctl \w+ (\w+)\n((?:    (?!\$).*\n)+)", text, re.M):
        head, *rows = block.group(2).splitlines(True)
        listed, at = head.split(), block.start(2) + len(head)
        for row in rows:
            cells = list(re.finditer(r"\S+", row))
            found += [
                Statement(page, at + it.start(), it.group())
                for name, it in zip(listed, cells)
                if name not in tutorial.OF_ONE_RUN and it.group() != "-" and len(it.group()) > (0 if it.group().isdigit() else 1)
            ]
            at += len(row)
    return found + [at_group(page, it) for it in re.finditer(r"(?<=^    octets )(\d+)|(?<=^    octets )\d+ (\d+)", text, re.M)]


def iax_keys(documents):
    """Finds the keys and values of each `iax.conf` of docs/TWO_SITES.md, and those of the table of reasons."""
    page, found = iax_conf.TUTORIAL, []
    for block in re.finditer(r"(?:^    .*\n|^\n(?=    ))+", documents.text(page), re.M):
        if not re.search(r"^    type ?= ?", block.group(), re.M) or "[exchange]" not in block.group():
            continue
        for it in re.finditer(r"^    ([a-z]+) ?=>? ?(.*)$", block.group(), re.M):
            found.append(Statement(page, block.start() + it.start(1), it.group(1)))
            if it.group(1) not in ("bindaddr",):
                found.append(Statement(page, block.start() + it.start(2), it.group(2), (f"{it.group(2)}x", "no", "1", "gsm")))
    return found


KINDS = (
    Kind("a default", defaults),
    Kind("a range", ranges, True),
    Kind("an exit status", exit_statuses, True),
    Kind("an HTTP status with its name", http_statuses),
    Kind("a metric with its labels", metrics),
    Kind("a log line with its level", log_lines),
    Kind("a file mode", file_modes, True),
    Kind("a size in octets", sizes, True),
    Kind("an option", program_options),
    Kind("a column of ctl", ctl_columns),
    Kind("a value of a script line", script_values),
    Kind("a code of PROTOCOL", protocol_codes, True),
    Kind("a limit", others, True),
    Kind("a figure of a measurement", figures),
    Kind("a name in backticks", code_names),
    Kind("a printed result of the tutorial", tutorial_results),
    Kind("a key of iax.conf", iax_keys),
)
