"""The names of functions, clauses, files and wrong bodies in pages for developers, compared with the sources."""
import functools
import re
import sys

from .pages import TOP, cells_of, section_of
from .sources import crates, sources

ARCHITECTURE = "docs/ARCHITECTURE.md"


@functools.cache
def names_of_sources():
    """Returns the functions, types and variants of all sources, and each function and variant behind its type, as
    `Type::name`."""
    names, kinds = set(), []
    for line in sources(*crates()).split("\n"):
        if re.match(r"(pub )?(impl|trait|enum)\b", line):
            kinds = re.findall(r"\w+", line)
        elif line.startswith("}"):
            kinds = []
        found = re.match(r"\s*(?:pub(?:\(crate\))? )?(?:fn|struct|enum|trait) (\w+)|    (\w+)[(,]", line)
        if found:
            name = found.group(1) or found.group(2)
            names |= {name} | {f"{kind}::{name}" for kind in kinds}
    return frozenset(names)


@functools.cache
def clause_names():
    """Returns the names that tables of clauses may have: those of sources and definitions, crates, and clauses."""
    names = set(names_of_sources()) | set(crates())
    names |= set(re.findall(r"\b(?:ensures|requires|ghost|const|mod) (\w+)", sources(*crates())))
    for path in (TOP / "crates").glob("*/specs/*.antt"):
        names |= set(re.findall(r"\bpub (?:record |data )?(\w+)", path.read_text(encoding="utf-8")))
    return frozenset(names)


def file_of(crate, name):
    """Returns the path of a file that docs/ARCHITECTURE.md names: a whole one, or one of the crate named last."""
    if re.match(r"\w+/(specs|src)/", name):
        return f"crates/{name}"
    return f"crates/{crate}/{name}" if "/" in name else f"crates/{crate}/{'specs' if name.endswith('.antt') else 'src'}/{name}"


def words_in(text, pattern):
    """Returns the words in backticks of a text that are names of a form; a link's text counts, and its path doesn't."""
    return re.findall(rf"`({pattern})`", text)


def check_architecture(documents):
    """Returns the functions and files that docs/ARCHITECTURE.md names and no crate has, and the faults of its picture."""
    page, faults, crate = documents.text(ARCHITECTURE), [], ""
    for word in words_in(section_of(page, "## Three ways through the code"), r"[\w:]+"):
        if word not in names_of_sources() and word not in ("west", "east") and word not in crates():
            faults.append(f"no source has {word}")
    for word in words_in(section_of(page, "## Where to look"), r"[\w/.]+"):
        crate = word.split("/")[0] if word.split("/")[0] in crates() else crate
        if word.endswith((".rt", ".antt")) and not (TOP / file_of(crate, word)).exists():
            faults.append(f"no file {file_of(crate, word)}")
    return faults + faults_of_picture(documents, page)


def faults_of_picture(documents, page):
    """Returns a fault if docs/layers.svg isn't the picture of crates.txt and of the page's tables."""
    if f"{TOP}/.ci" not in sys.path:
        sys.path.append(f"{TOP}/.ci")
    import layers  # noqa: PLC0415 (.ci/ is on the path only now)

    text, faults = layers.picture(page)
    return faults + ([] if faults or text == documents.text("docs/layers.svg") else [".ci/layers.py prints another picture"])


def page_of_clauses(documents):
    """Returns the page with the tables of clauses: docs/CLAUSES.md, or docs/GUARANTEES.md without it."""
    return "docs/CLAUSES.md" if documents.has("docs/CLAUSES.md") else "docs/GUARANTEES.md"


def check_clauses(documents):
    """Returns the functions, clauses and definitions in the tables `| Promise | Carried by |` that no source has."""
    page, faults, rows = page_of_clauses(documents), [], 0
    for table in re.findall(r"^\| Promise \| Carried by \|\n\|[-|]+\n((?:\|.*\n?)+)", documents.text(page), re.M):
        for line in table.strip().split("\n"):
            rows += 1
            faults += [f"no source has {it}" for it in words_in(cells_of(line)[-1], r"\w+(?:::\w+)*") if not is_name(it)]
    return faults if rows > 20 else [f"{page} has {rows} rows of clauses"]


def is_name(word):
    """Returns whether a word, `name` or `Type::name`, is of a source or of a definition."""
    kind, _, name = "::".join(word.split("::")[-2:]).rpartition("::")
    if kind[:1].isupper():
        return f"{kind}::{name}" in clause_names()
    return name in clause_names() or name == "laws"


@functools.cache
def bodies():
    """Returns all wrong bodies, as `crate/body`."""
    found = set()
    for path in (TOP / "crates").glob("*/must-fail/*.md"):
        found |= {f"{path.parts[-3]}/{name}" for name in re.findall(r"^## (\w+)$", path.read_text(encoding="utf-8"), re.M)}
    return frozenset(found)


def check_wrong_bodies(documents):
    """Returns the wrong bodies that docs/GUARANTEES.md names and no page has."""
    name = "docs/GUARANTEES.md"
    section = documents.section(name, "## From a promise to a wrong body")
    words = re.findall(r"[` ](\w+)/(\w+)`?(?: \||\n|`;|$|`\.)", section)
    found = [f"{crate}/{body}" for crate, body in words if crate in crates()]
    unknown = [f"{name}: no page has {it}" for it in found if it not in bodies()]
    return unknown or ([] if found else [f"{name} names no wrong body"])


def check_promises(documents):
    """Returns the clauses, definitions and files in the table "From a promise to a wrong body" that don't exist."""
    faults = []
    for line in re.findall(r"^\| \d\..*$", documents.section("docs/GUARANTEES.md", "## From a promise to a wrong body"), re.M):
        crate = ""
        for word in words_in(line, r"[\w/.:]+"):
            crate = word.split("/")[0] if word.split("/")[0] in crates() else crate
            if word.endswith((".rt", ".antt")):
                faults += [] if (TOP / file_of(crate, word)).exists() else [f"no file {file_of(crate, word)}"]
            elif "/" not in word and not is_name(word):
                faults.append(f"no source has {word}")
    return faults


# The crate that has the fact that a request for memory was refused, and how it is claimed. Each way to it spells this name.
WITNESS = "memory_refusals"
# The one crate that claims the fact, in the proofs of its functions, and the line by which it passes on the fact alone.
ASKING = "memory_requests"
PASSED_ON = f"pub use Rattle.{WITNESS}.specs.Refused.{{WasRefused}}"


def without_comments(text):
    """Returns a text of a source or a definition without its comments, and with one space for each space and new line."""
    return " ".join(re.sub(r"(--|//).*", "", text).split())


def claims_in(path, text):
    """Returns whether a file, by its path below `crates/`, names the crate of the fact where it may not."""
    crate, _, name = path.partition("/")
    if crate == WITNESS or (crate == ASKING and re.fullmatch(r"proofs/requests/\w+/Answers\.antt", name)):
        return False
    text = without_comments(text)
    if f"{crate}/{name}" == f"{ASKING}/specs/Refused.antt":
        text = text.replace(PASSED_ON, "", 1)
    return WITNESS in text


def faults_of_witness(lines, files):
    """Returns the crates of a text like crates.txt that depend on the crate of the fact, other than `memory_requests`, and the
    files that name it where they may not, or let others unfold the fact. `files` has the texts by their paths below `crates/`."""
    depend = re.findall(rf"^(\w+)\b.*:.*\b{WITNESS}\b", lines, re.M)
    faults = [f"{crate} depends on {WITNESS}" for crate in depend if crate != ASKING]
    faults += [f"{path} names {WITNESS}" for path, text in files.items() if claims_in(path, text)]
    defined = without_comments(files.get(f"{WITNESS}/specs/Refused.antt", ""))
    if not re.search(r"(?<!unfoldable )(?<!abbrev )pub WasRefused : Type 0 WasRefused =", defined):
        faults.append(f"{WITNESS} doesn't keep WasRefused shut")
    return faults


def check_witness(documents):
    """Returns the ways past `memory_requests` to the fact that a request for memory was refused. (It looks at no page.)"""
    del documents
    found = [it for end in ("antt", "rt") for it in (TOP / "crates").glob(f"*/*/**/*.{end}") if "/out/" not in str(it)]
    files = {str(it.relative_to(TOP / "crates")): it.read_text(encoding="utf-8") for it in sorted(found)}
    return faults_of_witness((TOP / "crates.txt").read_text(encoding="utf-8"), files)
