"""Spoils statements of a copy of the documents, one after another, and runs the checks over the copy: each has to be noticed.

A kind of statements has a finder, which returns all its statements, and a spoiler, which gives a statement another meaning.
"""
import functools
import multiprocessing
import random
import re
import shutil
import tempfile
from dataclasses import dataclass
from pathlib import Path

from .pages import FILES, FOLDERS, Documents
from .report import Report


@dataclass(frozen=True)
class Statement:
    """A statement: its page, where it begins, its text, and the texts that would make it another one."""

    page: str
    start: int
    text: str
    others: tuple = ()

    def line(self, whole):
        """Returns the line of a page that it is in, counted from 1."""
        return whole.count("\n", 0, self.start) + 1


def copied(root, folder):
    """Copies the documents below a folder to another folder, and returns that."""
    for name in FOLDERS:
        shutil.copytree(Path(root) / name, Path(folder) / name, ignore=shutil.ignore_patterns("out", "__pycache__"))
    for name in FILES:
        shutil.copy(Path(root) / name, folder)
    return folder


def other_number(text, rng):
    """Returns a number in the form of another: one more or less, twice or half as much, or with another digit."""
    digits = text.replace(",", "")
    if digits.startswith(("0x", "2^")):
        value = int(digits[2:], 16 if digits[1] == "x" else 10)
        changed = rng.choice([it for it in (value + 1, value - 1, value * 2) if it > 0])
        return f"0x{changed & 0xff:0{len(digits) - 2}x}" if digits[1] == "x" else f"2^{changed}"
    value = int(digits)
    place = rng.randrange(len(digits))
    digit = rng.choice([it for it in "123456789" if it != digits[place]])
    choices = {value + 1, value * 2, max(value - 1, 0), value // 2, int(digits[:place] + digit + digits[place + 1 :])} - {value}
    changed = rng.choice(sorted(choices))
    return f"{changed:,}" if "," in text else str(changed)


def other_name(text, rng):
    """Returns a name with two letters too many, which make no other name of it."""
    place = rng.randrange(1, len(text))
    return text[:place] + rng.choice(("jq", "qx", "xz", "zj")) + text[place:]


NUMBER = re.compile(r"\d[\d,]*|0x[0-9a-f]+|2\^\d+")
BOUNDS = re.compile(r"(\S+)(\s+to\s+)(\S+)")


def form_of(text):
    """Returns the form of a text: whether it is in digits, in hexadecimal ones, a power of two, with commas, or a range."""
    return text[:1].isdigit(), text[:2] if text[:2] in ("0x", "2^") else "", "," in text, bool(BOUNDS.fullmatch(text))


def spoilt(statement, rng, siblings=()):
    """Returns another text for a statement; of a range one bound is another. `siblings` are the texts of other statements of
    its kind on its page, one of which may take its place."""
    others = [it for it in siblings if it != statement.text and form_of(it) == form_of(statement.text)]
    if others and rng.random() < 0.4:
        return rng.choice(others)
    if statement.others:
        return rng.choice([it for it in statement.others if it != statement.text])
    bounds = BOUNDS.fullmatch(statement.text)
    if bounds:
        low, to, high = bounds.groups()
        return f"{other_number(low, rng)}{to}{high}" if rng.random() < 0.5 else f"{low}{to}{other_number(high, rng)}"
    if NUMBER.fullmatch(statement.text):
        return other_number(statement.text, rng)
    return other_name(statement.text, rng)


class Spoiler:
    """A copy of the documents, in which one statement at a time is spoilt."""

    def __init__(self, folder, checks):
        self.documents, self.checks = Documents(folder), checks
        self.known = {}

    def faults(self, page, is_enough):
        """Yields the faults of the checks that see a page, the quick ones first. `is_enough` may end that."""
        for check in sorted((it for it in self.checks if it.sees(page)), key=lambda it: it.cost):
            report = Report(prints=False)
            check.run(Documents(self.documents.root), page, report)
            yield from report.faults
            if is_enough():
                return

    def known_faults(self, page):
        """Returns the faults of the checks that see a page before it is spoilt."""
        if page not in self.known:
            self.known[page] = frozenset(self.faults(page, lambda: False))
        return self.known[page]

    def is_noticed(self, statement, text):
        """Returns whether the checks find a fault that isn't known, once a statement has another text."""
        known, path = self.known_faults(statement.page), self.documents.root / statement.page
        whole = path.read_text(encoding="utf-8")
        end = statement.start + len(statement.text)
        path.write_text(whole[: statement.start] + text + whole[end:], encoding="utf-8")
        found = []
        try:
            for fault in self.faults(statement.page, lambda: bool(found)):
                if fault not in known:
                    found.append(fault)
            return bool(found)
        finally:
            path.write_text(whole, encoding="utf-8")


def drawn(kinds, documents, how, seed):
    """Returns the statements to spoil, each with its kind: all, one of each kind, or one of a few kinds. One of a kind is the
    same, whichever other kinds there are."""
    found = [(kind, kind.find(documents)) for kind in kinds]
    if how == "all":
        return [(kind, it) for kind, statements in found for it in statements]
    each = [(kind, random.Random(f"{seed} {kind.name}").choice(statements)) for kind, statements in found if statements]
    return each if how == "each" else random.Random(seed).sample(each, min(how, len(each)))


@dataclass(frozen=True)
class Try:
    """A statement to spoil, the text in its place, and the name of its kind."""

    kind: str
    statement: Statement
    text: str


def tried(root, checks, tries):
    """Spoils statements in a copy. Returns those that nothing noticed, and all their kinds."""
    missed = []
    with tempfile.TemporaryDirectory() as folder:
        spoiler = Spoiler(copied(root, folder), checks)
        for it in tries:
            if not spoiler.is_noticed(it.statement, it.text):
                line = it.statement.line(spoiler.documents.text(it.statement.page))
                missed.append((it.kind, f'{it.kind}, {it.statement.page}:{line}: "{it.statement.text}" as "{it.text}"'))
    return missed


def tried_by_processes(root, checks, tries, jobs):
    """Returns what `tried` returns, by several processes."""
    context = multiprocessing.get_context("fork")
    answers = context.SimpleQueue()
    workers = [
        context.Process(target=lambda part: answers.put(tried(root, checks, part)), args=(tries[at::jobs],)) for at in range(jobs)
    ]
    for worker in workers:
        worker.start()
    missed = [it for _ in workers for it in answers.get()]
    for worker in workers:
        worker.join()
    return missed


@functools.cache
def texts_of(kind, documents, page):
    """Returns the texts of all statements of a kind on a page."""
    return tuple(sorted({it.text for it in kind.find(documents) if it.page == page}))


def spoil(root, checks, kinds, how, seed, report, jobs=1):
    """Spoils statements, and judges whether each is noticed. `how` is "all", "each" or a number. Returns, by kind, how many
    statements were spoilt and how many of them noticed."""
    counts, documents, tries = {}, Documents(root), []
    for kind, it in drawn(kinds, documents, how, seed):
        rng = random.Random(f"{seed} {kind.name} {it.page} {it.start}")
        siblings = texts_of(kind, documents, it.page) if kind.swaps else ()
        tries.append(Try(kind.name, it, spoilt(it, rng, siblings)))
    # Statements of one page stay together, since each process runs the checks over it once before.
    tries.sort(key=lambda it: it.statement.page)
    missed = tried(root, checks, tries) if jobs == 1 else tried_by_processes(root, checks, tries, jobs)
    for it in tries:
        seen, noticed = counts.get(it.kind, (0, 0))
        counts[it.kind] = (seen + 1, noticed + 1)
    for kind, said in missed:
        counts[kind] = (counts[kind][0], counts[kind][1] - 1)
        report.judge(f"spoilt by seed {seed}", [f"nothing notices {said}"])
    report.passed += len(tries) - len(missed)
    return counts
