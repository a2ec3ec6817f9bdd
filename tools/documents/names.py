"""The names in backticks of all pages: each word has to be a name of the sources, of a file, or of another program."""
import functools
import os
import re

from . import log
from .code_names import bodies
from .foreign import FOREIGN
from .pages import MANUALS, TOP
from .sources import commands, crates, options, sources, tracked

WORD = re.compile(r"[A-Za-z_][A-Za-z0-9_]*(?:-[A-Za-z][A-Za-z0-9_]*)*")
# Shell scripts, tools and settings, whose words pages name too.
OTHERS = (".ci/", "bench/", "endurance/", "tools/", "contrib/")
CODE = re.compile(r"(?<!`)`([^`\n]+)`(?!`)")
# Pages for operators, in which a name of the code alone is none.
OPERATORS = tuple(
    f"docs/{it}.md"
    for it in """ASTERISK CLI HTTP METRICS SCRIPT RECORDS REFUSALS PLAN TWO_SITES OPERATING TROUBLESHOOTING INCIDENTS SECURITY
    GLOSSARY WHY""".split()
)
# An octet as it is printed.
ESCAPE = re.compile(r"\\x(?:[0-9a-f]{2}|NN)|\\u[0-9a-f]{4}")


@functools.cache
def source_words():
    """Returns the names in the code of crates, in their definitions, and the words that the program prints."""
    text = re.sub(r"^\s*//[^\n]*", "", sources(*crates()), flags=re.M)
    words = set(WORD.findall(text)) | set(re.findall(r"[A-Za-z_]\w*", text))
    for path in (TOP / "crates").glob("*/specs/*.antt"):
        words |= set(re.findall(r"[A-Za-z_]\w*", re.sub(r"^--.*$", "", path.read_text(encoding="utf-8"), flags=re.M)))
    return frozenset(words)


@functools.cache
def tool_words():
    """Returns the words of the repository's scripts and settings, without those of comments."""
    words = set()
    for name in tracked():
        if (
            name.startswith(OTHERS)
            and not name.endswith((".md", ".1", ".5"))
            and "/tests/" not in name
            and not name.startswith("tools/documents/")
        ):
            text = (TOP / name).read_text(encoding="utf-8", errors="replace")
            words |= set(WORD.findall(text)) | set(re.findall(r"[A-Za-z_]\w*", text))
    return frozenset(words)


@functools.cache
def file_words():
    """Returns the names of files and folders of the repository, whole and without their endings, and those of wrong bodies."""
    words = set(crates())
    for name in tracked():
        for part in name.split("/"):
            words |= {part, part.partition(".")[0], *re.split(r"[.-]", part)}
    words |= {name for body in bodies() for name in body.split("/")}
    # "Names that begin alike": `call_*`.
    return frozenset(words | {f"{name.split('_')[0]}_" for name in crates() if "_" in name})


@functools.cache
def own_words():
    """Returns the words of the command line, as they are in usage: small and in capitals."""
    words = {*commands(), *options(), "help", "version", "graceful"}
    words |= {option.value for option in options().values()} | {it for option in options().values() for it in option.choices}
    return frozenset(words | {it.upper() for it in ("plan", "script", "socket", "order", "option", "turns", "number", "peer")})


@functools.cache
def printed_words():
    """Returns the words that the program prints or takes, those of contrib/, and those of the system's errors."""
    words = set(WORD.findall(literals())) | set(re.findall(r"[A-Za-z_]\w*", literals()))
    for name in (it for it in tracked() if it.startswith("contrib/") and it not in MANUALS and not it.endswith(".md")):
        words |= set(re.findall(r"[A-Za-z_]\w*", (TOP / name).read_text(encoding="utf-8")))
    return frozenset(words)


@functools.cache
def is_printed(word):
    """Returns whether a user of the program can meet a word: in its output, its input, its files or in another program."""
    if word in FOREIGN or word in own_words() or word in printed_words() or word in file_words():
        return True
    return "-" in word and all(is_printed(it) for it in word.split("-"))


@functools.cache
def is_known(word):
    """Returns whether a word is a name."""
    if is_printed(word) or word in source_words() or word in tool_words():
        return True
    return "-" in word and all(is_known(it) for it in word.split("-"))


def blank(pattern, text):
    """Returns a text with blanks in place of each match."""
    return pattern.sub(lambda it: " " * len(it.group()), text)


def stated(documents, page):
    """Returns the words in backticks of a page, each with its place; words in a link's target don't count."""
    text = documents.text(page)
    kept = blank(re.compile(r"^ {4}.*$", re.M), text)
    return [
        (code.start(1) + it.start(), it.group())
        for code in CODE.finditer(kept)
        for it in WORD.finditer(blank(ESCAPE, code.group(1)))
        if len(it.group()) > 2
    ]


def is_clause(text, at):
    """Returns whether a place of a page is in the last cell of a row of three: a clause, in docs/RECORDS.md."""
    line = text[text.rfind("\n", 0, at) + 1 : text.find("\n", at)]
    return line.startswith("|") and line.count(" | ") == 2 and at - text.rfind("\n", 0, at) > line.rfind(" | ")


def check(documents, page):
    """Returns the words in backticks of a page that are no names: for operators none that only the code has."""
    text, faults = documents.text(page), []
    for at, word in stated(documents, page):
        is_for_operators = page in OPERATORS and not (page == "docs/RECORDS.md" and is_clause(text, at))
        if not (is_printed(word) if is_for_operators else is_known(word)):
            faults.append(f"nothing has the name {word}")
    return faults


PHRASE = re.compile(r"[A-Za-z][a-z']*(?: [a-z']+){2,}")


@functools.cache
def literals():
    """Returns the texts of the sources, one after another, and those of the system's errors."""
    code = re.sub(r"^\s*//[^\n]*|b?'\"'|\\\n\s*", "", sources(*crates()), flags=re.M)
    return "\n".join([*re.findall(r'"((?:[^"\\\n]|\\.)*)"', code), *(os.strerror(it) for it in range(1, 134))])


@functools.cache
def printed_texts():
    """Returns the texts of sources and scripts, one after another, and those of the system's errors."""
    files = [
        it
        for it in tracked()
        if it.startswith(OTHERS) and not it.endswith((".md", ".1", ".5")) and not it.startswith("tools/documents/")
    ]
    return "\n".join([literals(), *((TOP / it).read_text(encoding="utf-8", errors="replace") for it in files)])


def check_phrases(documents, page):
    """Returns the sentences in backticks of a page that nothing prints."""
    kept = blank(re.compile(r"^ {4}.*$", re.M), documents.text(page))
    told = [it for it in CODE.findall(kept) if PHRASE.fullmatch(it)]
    return [f'nothing prints "{it}"' for it in told if it not in printed_texts() and not log.levels_of(it)]


def is_own(text, at, word):
    """Returns whether a name is one of this repository or its toolchain, in its right spelling: not the sample of a mistake."""
    del text, at
    return word not in FOREIGN
