"""The modes of files: those that the sources set, those of this repository's files, and those that pages state."""
import functools
import re

from .pages import MANUALS, TOP, items_of, sentences_of
from .quantities import flat
from .sources import known_mode

MODE = re.compile(r"(?<![\w.:/-])0[0-7]{3}(?![\w.:])")


@functools.cache
def facts():
    """Returns the modes, each with the words of sentences that may state it."""
    folder, disk, trace = ("control_server/src/socket_file.rt", "call_files/src/disk.rt", "trace_writer/src/folder.rt")
    plan = mode_of("contrib/plan.toml") & 0o750
    rows = [
        (r"socket|only its owner|umask", known_mode(folder, r"const MODE: u32 = 0o(\d+)")),
        (r"a new folder|mkdir", known_mode(folder, r"builder\.mode\(0o(\d+)\)")),
        (r"call records|`--calls`|\bfile is|it is made|\bcreate\b", known_mode(disk, r"\.mode\(0o(\d+)\)")),
        (r"\bfolder\b", known_mode(trace, r"builder\.mode\(0o(\d+)\)")),
        (r"\bfiles\b", known_mode(trace, r"\s\.mode\(0o(\d+)\)")),
        # The service reads the plan by its group, and nobody else may.
        (r"\| plan\b|/plan\.toml", plan),
        (r"`plan\.toml`", 0o600),
        (r"install -d", mode_of("contrib/exchange_main-run") & 0o750),
        (r"install -m (?=0\d+ exchange_main)", mode_of("contrib/exchange_main-run")),
    ]
    installed = [it.name for it in sorted((TOP / "contrib").iterdir()) if it.name != "plan.toml"]
    return rows + [(rf"install .*(?=0\d{{3}}.*contrib/{re.escape(it)}(?:$| ))", mode_of(f"contrib/{it}")) for it in installed]


def mode_of(path):
    """Returns the mode of a file of the repository, as a clone has it: whether it may be executed."""
    return 0o755 if (TOP / path).stat().st_mode & 0o100 else 0o644


def stated(documents, page):
    """Returns the modes that a page states, each with its place, its sentence, row or line, and its place in that."""
    text = documents.text(page)
    if page in MANUALS:
        pieces = [(it.start, flat(text)[it.start : it.end]) for it in items_of(text)]
    else:
        pieces = [(it.start, text[it.start : it.end]) for it in sentences_of(text)]
        pieces += [(it.start(), it.group()) for it in re.finditer(r"^ {4}.*$", text, re.M)]
    return [(at + it.start(), it.group(), (said, it.start())) for at, said in pieces for it in MODE.finditer(said)]


def nearest(said, place):
    """Returns the mode of the words that are the last ones before a place of a sentence; of those behind it, if none is."""
    ends = [
        (it.end(), mode)
        for words, mode in facts()
        for it in re.finditer(words, said[:place] if "(?=" not in words else said, re.I)
    ]
    before = [it for it in ends if it[0] <= place]
    if before:
        return max(before)[1]
    behind = [(it.start(), mode) for words, mode in facts() for it in re.finditer(words, said, re.I)]
    return min(behind)[1] if behind else None


def check(documents, page):
    """Returns the modes of a page that no fact has."""
    faults = []
    for _, mode, (said, place) in stated(documents, page):
        known = nearest(said, place)
        both = re.search(r"folder and files \| (0\d{3}), (0\d{3})", said)
        if both:
            known = known if place == both.start(2) else nearest("a folder", 8)
        if int(mode, 8) != known:
            faults.append(f"the mode {mode}, but the sources have {known and f'{known:04o}'}: {said.strip()[:100]}")
    return faults


def has_modes(page):
    """Returns whether a page may state modes of files: not if it has decimal numbers with a leading 0 of another kind."""
    return page not in ("docs/CHECKS.md", "docs/PROVING.md", "bench/README.md")
