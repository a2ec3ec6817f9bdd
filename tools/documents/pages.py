"""The pages of the documents, and their parts: sections, tables, blocks and sentences."""
import functools
import re
from dataclasses import dataclass
from pathlib import Path

TOP = Path(__file__).resolve().parents[2]
# The folders and files that the documents are made of. A spoilt copy has these alone.
FOLDERS = ("docs", "contrib", "bench")
FILES = ("README.md", "CONTRIBUTING.md", "CHANGELOG.md")
MANUALS = ("contrib/exchange_main.1", "contrib/exchange_main-run.1", "contrib/exchange_main.plan.5")
# Pages of measurements: bench/pages compares their figures with the results in bench/results.
MEASURED = ("docs/PERFORMANCE.md", "docs/CAPACITY.md", "docs/ENDURANCE.md", "bench/README.md")
# A part of measurements in another page, which bench/pages compares too.
MEASURED_PART = re.compile(r"^<!-- made by pages: .*?^<!-- end -->$", re.M | re.S)


class Documents:
    """The documents below a folder, which is the repository or a copy of its documents."""

    def __init__(self, root=TOP):
        self.root = Path(root)

    @functools.cached_property
    def pages(self):
        """The paths of all pages in Markdown, below the folder."""
        found = [it for it in FILES if (self.root / it).is_file()]
        found += sorted(str(it.relative_to(self.root)) for it in self.root.glob("docs/*.md"))
        return found + ["bench/README.md"]

    def has(self, path):
        """Returns whether there is such a file."""
        return (self.root / path).is_file()

    def text(self, path):
        """Returns the text of a file."""
        return (self.root / path).read_text(encoding="utf-8")

    def section(self, path, heading):
        """Returns the text under a heading of a page; empty if the page or the heading is missing."""
        return section_of(self.text(path), heading) if self.has(path) else ""


def section_of(text, heading):
    """Returns the text under a heading, up to the next one of the same level or a higher one; empty without the heading."""
    marks = re.match(r"#+", heading).group()
    _, found, rest = f"\n{text}".partition(f"\n{heading}\n")
    return re.split(rf"\n#{{1,{len(marks)}}} ", rest)[0] if found else ""


def blocks_of(text):
    """Returns the indented blocks of a page, without their indent."""
    blocks, lines = [], []
    for line in text.split("\n") + ["."]:
        if line.startswith("    ") or lines and not line.strip():
            lines.append(line[4:])
        elif lines:
            blocks.append("\n".join(lines).strip("\n"))
            lines = []
    return blocks


def cells_of(line):
    """Returns the cells of a table's row; `\\|` doesn't end a cell."""
    return [it.strip() for it in re.split(r"(?<!\\)\|", line.strip().removeprefix("|").removesuffix("|"))]


def rows_of(text):
    """Returns the rows of a text's tables without their head lines, each as its cells."""
    rows, lines = [], text.split("\n")
    for line, after in zip(lines, lines[1:] + [""]):
        if line.startswith("|") and not line.startswith("|--") and not after.startswith("|--"):
            rows.append(cells_of(line))
    return rows


def coded(text):
    """Returns the words in backticks of a text."""
    return re.findall(r"`([^`]+)`", text)


def first_cells(text):
    """Returns the words in backticks of the first cells of a text's tables."""
    return [word for row in rows_of(text) for word in coded(row[0])]


def plain_text(text):
    """Returns a text without the marks of links and code."""
    return re.sub(r"`|\*\*", "", re.sub(r"\[([^]]*)\]\([^)]*\)", r"\1", text))


@dataclass(frozen=True)
class Place:
    """A piece of a page: where it begins and ends there, and the heading that it is under."""

    start: int
    end: int
    heading: str


def lines_of(text):
    """Returns the lines of a page that are no indented block, each as a `Place`."""
    places, at, heading = [], 0, ""
    for line in text.split("\n"):
        if line.startswith("#"):
            heading = line
        if not line.startswith("    "):
            places.append(Place(at, at + len(line), heading))
        at += len(line) + 1
    return places


def sentences_of(text):
    """Returns the sentences of a page's prose, and the rows of its tables, each as a `Place`."""
    places = []
    for line in lines_of(text):
        said = text[line.start : line.end]
        if said.startswith("|"):
            places.append(line)
            continue
        begin = line.start
        for end in re.finditer(r"[.:;](?=\s+[A-Z`*\[(\d])|$", said):
            places.append(Place(begin, line.start + end.end(), line.heading))
            begin = line.start + end.end()
    return [it for it in places if text[it.start : it.end].strip()]


def items_of(text):
    """Returns the items of a manual page, and the paragraphs between them, each as a `Place` with its section."""
    places, heading, at, begin = [], "", 0, 0
    literal = False
    for line in text.split("\n"):
        literal = line.startswith(".Bd") or literal and not line.startswith(".Ed")
        if re.match(r"\.(It|Sh|Pp|El|Bl|Bd|Ed)\b", line):
            places.append(Place(begin, at, heading))
            begin = at
            heading = line[4:] if line.startswith(".Sh") else heading
        at += len(line) + 1
        begin = at if literal else begin
    places.append(Place(begin, at - 1, heading))
    return [it for it in places if text[it.start : it.end].strip()]
