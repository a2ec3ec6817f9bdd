"""Rules of form: links at first mentions, bounds of pages, no commits. Each holds once its switch is on."""
import re

from .links import LINK, MADE, exists, target_of

# Whether each rule makes the check fail. A rule that is off prints how many faults it would find.
FIRST_MENTIONS_ARE_LINKS = True
PAGES_ARE_BOUNDED = True
COMMITS_ARE_REFUSED = True

# The most octets of a page, of all pages of docs/ together, and the most characters of a line there.
BOUNDS = {"docs/GUARANTEES.md": 14_000, "docs/DECISIONS.md": 20_000, "docs/CHECKS.md": 9_000}
ALL_PAGES, LINE = 240_000, 400
# The tables of clauses have long lines.
LONG_LINES = ("docs/CLAUSES.md",)

MENTION = re.compile(r"(?<![\w/.-])((?:docs|contrib|bench|endurance|crates|tools|\.ci)/[\w./-]*\w|[A-Z][A-Z_]+\.md)(?![\w/])")
# A word of hexadecimal digits with a digit and a letter, as a commit is abbreviated.
COMMIT = re.compile(r"(?<![\w-])(?=[a-f]*\d)(?=\d*[a-f])[0-9a-f]{7,40}(?![\w-])")


def parts_of(text):
    """Returns the sections of a page, each without its blocks, its comments and its heading."""
    prose = re.sub(r"^ {4}.*$|<!--.*?-->", "", text, flags=re.M)
    return re.split(r"^#+ .*$", prose, flags=re.M)


def is_ruled(page):
    """Returns whether the rules of form hold for a page."""
    return page.startswith("docs/") or page == "README.md"


def path_of(documents, page, name):
    """Returns the path of a mentioned file; None if it is none, one that a build makes, or the page itself."""
    path = name if "/" in name else next((it for it in (f"docs/{name}", name) if documents.has(it)), name)
    is_other = path == page or path.endswith("/") or MADE.search(path)
    return path if exists(documents, path) and not is_other else None


def mentions_in(documents, page, part):
    """Returns the files that a section mentions, in its order, each with whether the mention is a link."""
    found, links = [], [(it.span(), target_of(page, it.group(2))[0]) for it in LINK.finditer(part)]
    found += [(begin, path, True) for (begin, _), path in links]
    for it in MENTION.finditer(part):
        path = path_of(documents, page, it.group(1))
        if path and not any(begin <= it.start() < end for (begin, end), _ in links):
            found.append((it.start(), path, False))
    return [(path, is_link) for _, path, is_link in sorted(found)]


def check_mentions(documents, page):
    """Returns the files whose first mention in a section of a page is no link."""
    faults = []
    for part in parts_of(documents.text(page)):
        seen = set()
        for path, is_link in mentions_in(documents, page, part):
            if path not in seen and not is_link:
                faults.append(f"the first mention of {path} is no link: {' '.join(part.split())[:40]} ..")
            seen.add(path)
    return faults


def check_bounds(documents):
    """Returns the pages that are too large, and their lines that are too long."""
    pages = [it for it in documents.pages if it.startswith("docs/")]
    sizes = {it: len(documents.text(it).encode()) for it in pages}
    faults = [f"{it} has {sizes[it]:,} octets, more than {most:,}" for it, most in BOUNDS.items() if sizes.get(it, 0) > most]
    total = sum(sizes.values())
    faults += [f"docs/*.md has {total:,} octets, more than {ALL_PAGES:,}"] if total > ALL_PAGES else []
    for page in pages:
        for number, line in enumerate(documents.text(page).split("\n"), 1):
            if len(line) > LINE and page not in LONG_LINES:
                faults.append(f"{page}:{number} has {len(line)} characters, more than {LINE}")
    return faults


def check_commits(documents, page):
    """Returns the words of a page that look like a commit: neither octets of a script, nor the digest of the toolchain."""
    prose = re.sub(r"^ {4}.*$", "", documents.text(page), flags=re.M)
    return [
        f"it cites the commit {it.group()}"
        for it in COMMIT.finditer(prose)
        if not re.search(r"logic $|\brx \w+ $|\btx \w+ $", prose[: it.start()])
    ]
