"""The lines of the log: their texts and levels in the sources, in docs/METRICS.md and wherever a page shows a line."""
import functools
import re

from .pages import coded, rows_of, section_of
from .sources import source, sources

PAGE, HEADING = "docs/METRICS.md", "## The log"
SERVICE = ("service_sockets", "control", "start_faults", "journal", "seating")
LEVELS = ("error", "warn", "info", "debug")
# The patterns of a text's end: a count of a round, the system's error, nothing.
COUNTED, FAULT, ALONE = r": \d+ in \d+ s", r": .+", ""
# The parts of a line that may have blanks.
LONG = ("error", "silence", "line", "what", "why")


@functools.cache
def code():
    """Returns the code that writes the log, without its comments."""
    texts = [sources("service_log"), *(source(f"exchange_service/src/{it}.rt") for it in SERVICE)]
    return re.sub(r"//.*", "", "\n".join(texts))


def functions_of(text):
    """Returns the functions of a text."""
    return re.split(r"\n(?=(?:    )?(?:pub(?:\(crate\))? )?fn )", text)


def uses_of(function, start):
    """Returns the calls that log a text of a function: those of the variable that it is given to, or the one it is in."""
    macro = re.search(r"\b(error|warn|info|debug)!\([\w.]+;\s*$|\"(WARN)\",\s*&format_args!\($", function[:start])
    if macro:
        return [(f"{(macro.group(1) or macro.group(2)).lower()}!", "")]
    begin = max(function.rfind(mark, 0, start) for mark in (";\n", "{\n", "=> {"))
    inside = re.search(r"\b(log_\w+)\((?:[^;(]|\([^;()]*\))*$", function[begin:start].replace("format_args!(", ""))
    if inside:
        levels = re.findall(r"Level::(\w+)", function[begin + inside.start() : start])
        return [(inside.group(1), f"Level::{levels[-1]}" if levels else "")]
    given = re.findall(r"let (?:\([^)]*, )?(\w+)\)? = ", function[:start])
    handed = re.findall(rf"(\w+)\((?:self\.)?log,\s*(?:(\w+(?:::\w+)?),\s*)?&{given[-1]}\b", function[start:]) if given else []
    return (handed or re.findall(r"(log_count|log_line)\((?:self\.)?log,\s*(Level::\w+)", function[start:]))[:1]


def of_use(function, name, level, text):
    """Returns a line by the call that logs it: its pattern, with what that adds, and its levels."""
    if name.endswith("!"):
        return pattern_of(text), {name[:-1]}
    known = {"log_lost": (COUNTED, {"warn"}), "log_file_fault": (FAULT, {"warn"})}
    if name in known:
        behind, levels = known[name]
        return pattern_of(text, behind), levels
    if level.startswith("Level::"):
        return pattern_of(text, COUNTED if name == "log_count" else ALONE), {level[7:].lower()}
    return pattern_of(text, FAULT), {"error"}


@functools.cache
def lines():
    """Returns the lines of the log, each as a pattern and its levels."""
    found = []
    for function in functions_of(code()):
        reported = re.findall(r'\(Level::(\w+), "([^"]*)"\)', function)
        found += [(pattern_of(f"{text} from {{name}}", COUNTED), {level.lower()}) for level, text in reported]
        if "Trouble::Open" in function:
            troubles = re.findall(r'=> \("([^"]*)", fault\)', function)
            found += [(pattern_of(f"{{path}} {text}: {{error}}"), {"warn"}) for text in troubles]
        for it in [] if reported else re.finditer(r'"((?:[^"\\]|\\.)*)"', function):
            if len(re.findall("[a-z]", re.sub(r"\{[^}]*\}", "", it.group(1)))) > 5:
                found += [of_use(function, *use, it.group(1)) for use in uses_of(function, it.start())]
    return found + [
        (
            re.compile(
                r"leg \S+ serial \S+ of \S+ ended after \S+ ms: \w+(?:, cause \d+)?, (?:not )?answered"
                r"(?:, calling \S+, called \S+)?"
            ),
            {"info", "debug"},
        )
    ]


def pattern_of(text, behind=ALONE):
    """Returns the pattern of a line: a text of the sources, in which something stands in braces, and what follows it."""
    parts = re.split(r"\{(\w*)[^}]*\}", text)
    filled = [".+" if name in LONG else r"\S+" for name in parts[1::2]]
    return re.compile("".join(f"{re.escape(word)}{more}" for word, more in zip(parts[::2], [*filled, behind])))


def levels_of(line):
    """Returns the levels of a line as a page has it, with `..` for anything; none if no source has it."""
    said = line.replace("..", "x")
    found = [levels for pattern, levels in lines() if pattern.fullmatch(said)]
    return set().union(*found)


def check_lines(documents):
    """Returns the faults of the table of the log: a line that no source has, and another level."""
    section, faults = documents.section(PAGE, HEADING), []
    rows = [it for it in rows_of(section) if len(it) == 3]
    for shown, levels, _ in rows:
        told = re.findall(r"\b(error|warn|info|debug)\b", re.sub(r"`[^`]*`", "", levels))
        wanted = set()
        for line in coded(shown):
            known = levels_of(line)
            faults += [] if known else [f'no source has the line "{line}"']
            wanted |= known
        if set(told) != wanted:
            faults.append(f"the level of \"{shown}\" is {' or '.join(sorted(wanted))}")
        if "`--log-calls`" in levels and not re.search(r"debug without `--log-calls`", levels):
            faults.append(f'"{shown}" is of level debug without --log-calls')
    return faults if rows else [f"{PAGE} has no {HEADING}"]


def check_complete(documents):
    """Returns the texts of the log that its section lacks."""
    section, faults = documents.section(PAGE, HEADING), []
    for literal in re.findall(r'"((?:[^"\\]|\\.)*)"', code()):
        for piece in (it.strip(" :,") for it in re.split(r"\{[^}]*\}", literal)):
            if " " in piece and "%" not in piece and piece not in section:
                faults.append(f'the log\'s lines lack "{piece}"')
    return faults


def check_samples(documents, page):
    """Returns the lines of a log in a page's blocks whose level or text is another one."""
    faults = []
    for level, line in re.findall(r"\d\dZ (ERROR|WARN|INFO|DEBUG) (.*)$", documents.text(page), re.M):
        if level.lower() not in levels_of(line):
            faults.append(f'no line of level {level}: "{line}"')
    return faults


def check_levels_of_option(documents):
    """Returns the levels that docs/METRICS.md names and the option `--log` doesn't have."""
    opening = section_of(documents.text(PAGE), HEADING).split("\n|")[0]
    return [f"no level {it}" for it in re.findall(r"`(\w+)` without", opening) if it not in LEVELS]
