"""pages [--write | --check]: makes the parts of pages that come from bench/results, and prints them.

--write  rewrites them in their pages.
--check  prints a line for each part that differs in its page, and for each page that can't be made. The status is 1 if there
         is one.
"""
import sys
from pathlib import Path

from . import capacity, endurance, performance, security
from .pages import Unmade, differing, made, part_text
from .results import TOP, Unmeasured

# The pages, the module that makes the parts of each, and the folder of its results.
PAGES = {
    "docs/PERFORMANCE.md": (performance, "bench/results"),
    "docs/CAPACITY.md": (capacity, "bench/results"),
    "docs/ENDURANCE.md": (endurance, "bench/results/endurance"),
    "docs/SECURITY.md": (security, "bench/results/endurance"),
}


def parts_of(page, top):
    """Returns the parts of a page by their names, each a function that makes its text."""
    module, folder = PAGES[page]
    return module.parts(f"{top}/{folder}")


def check(page, top):
    """Returns a line for each fault of a page."""
    try:
        parts = differing(page, (Path(top) / page).read_text(encoding="utf-8"), parts_of(page, top))
    except (Unmade, Unmeasured) as why:
        return [f"{page}: {why}"]
    return [f"{it} isn't what `bench/pages --write` makes" for it in parts]


def write(page, top):
    """Makes the parts of a page again, in its file."""
    path = Path(top) / page
    path.write_text(made(page, path.read_text(encoding="utf-8"), parts_of(page, top)), encoding="utf-8")


def show(page, top):
    """Prints the parts of a page."""
    for name, make in parts_of(page, top).items():
        print(f"{page}\n{part_text(name, make())}\n")


def main(words, top=TOP):
    """Runs the command. Returns its status."""
    if words not in ([], ["--write"], ["--check"]):
        print(__doc__.strip(), file=sys.stderr)
        return 2
    try:
        if words == ["--check"]:
            faults = [fault for page in PAGES for fault in check(page, top)]
            print("".join(f"{it}\n" for it in faults), end="")
            return 1 if faults else 0
        for page in PAGES:
            (write if words else show)(page, top)
    except (Unmade, Unmeasured) as why:
        print(f"pages: {why}", file=sys.stderr)
        return 1
    return 0
