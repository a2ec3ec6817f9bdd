"""Links of pages: files, headings and anchors that they lead to, and pages that sources name."""
import os
import re

from .pages import FILES, FOLDERS, TOP, plain_text
from .sources import tracked

LINK = re.compile(r"\[((?:[^\[\]]|\[[^\]]*\])*)\]\(([^()\s]*(?:\([^()\s]*\)[^()\s]*)*)\)")
PATH = re.compile(r"`((?:docs|contrib|bench|endurance|crates|tools|\.ci)/[\w./-]+|[A-Z]+\.md)`")
# Names that stand for others, and files that a build makes.
MADE = re.compile(r"/out/|NAME|FILE|CRATE|CLAUSES\.md.*NAME")


def anchor_of(heading):
    """Returns the anchor that GitHub gives a heading."""
    words = re.sub(r"[^\w\- ]", "", plain_text(heading).strip().lower())
    return words.replace(" ", "-")


def anchors_of(text):
    """Returns the anchors of a page: those that it sets, and those of its headings. The second of two equal headings has `-1`
    behind it."""
    found = re.findall(r'<a id="([\w-]+)"></a>', text)
    for heading in re.findall(r"^#+ (.*)$", text, re.M):
        anchor = anchor_of(heading)
        repeats = sum(1 for it in found if it == anchor)
        found.append(f"{anchor}-{repeats}" if repeats else anchor)
    return found


def is_document(path):
    """Returns whether a file belongs to the documents, which may be a copy."""
    return path.split("/")[0] in FOLDERS or path in FILES


def exists(documents, path):
    """Returns whether a file or a folder exists: of the documents in their copy, any other in the repository."""
    root = documents.root if is_document(path) else TOP
    return (root / path).exists()


def target_of(page, link):
    """Returns the path below the repository that a link of a page leads to, and the anchor."""
    path, _, anchor = link.partition("#")
    folder = os.path.dirname(page)
    return os.path.normpath(os.path.join(folder, path)) if path else page, anchor


def check(documents, page):
    """Returns the links of a page that lead nowhere, and the names of files and headings that there are none of."""
    text, faults = documents.text(page), []
    for _, link in LINK.findall(re.sub(r"^ {4}.*$", "", text, flags=re.M)):
        if re.match(r"https?:|mailto:", link):
            continue
        path, anchor = target_of(page, link)
        if not exists(documents, path):
            faults.append(f"no file {link}")
        elif anchor and (not path.endswith(".md") or anchor not in anchors_of(documents.text(path))):
            faults.append(f"no heading {link}")
    return faults + faults_of_paths(documents, text) + faults_of_headings(documents, text)


def faults_of_paths(documents, text):
    """Returns the paths in backticks of a text that are no file, no folder and no beginning of one."""
    faults = []
    for path in PATH.findall(text):
        if MADE.search(path):
            continue
        name = path.rstrip("/")
        if not exists(documents, name) and not any(it.startswith(f"{name}.") for it in tracked()):
            faults.append(f"no file {path}")
    return faults


def faults_of_headings(documents, text):
    """Returns the headings in quotes behind a page's name that the page hasn't."""
    faults = []
    for path, heading in re.findall(r"`((?:docs/)?\w+\.md)`(?:\]\([^)]*\))?, \"([^\"]+)\"", text):
        known = re.findall(r"^#+ (.*)$", documents.text(path), re.M) if documents.has(path) else []
        if heading not in known:
            faults.append(f'no heading "{heading}" in {path}')
    return faults


def check_sources(documents):
    """Returns the pages that sources, settings and programs name and that don't exist."""
    faults = []
    for name in tracked():
        if name.startswith(("crates/", *(f"{it}/" for it in FOLDERS[1:]), "endurance/", "tools/", ".ci/")) and not name.endswith(
            ".md"
        ):
            if name.startswith("tools/documents/"):
                continue
            text = (TOP / name).read_text(encoding="utf-8", errors="replace")
            faults += [f"{name}: no file {it}" for it in set(re.findall(r"docs/[A-Z_]+\.md", text)) if not exists(documents, it)]
    return faults
