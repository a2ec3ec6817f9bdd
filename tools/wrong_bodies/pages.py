"""The pages crates/*/must-fail/*.md, and the wrong bodies on them.

A page has one body under each heading of the second level. A line 'Refused: `PATH`, at `GOAL`' names the function, by its
path below the crate, and the goal of its proof that doesn't hold. A block of differences follows for each file. Each '-' text
occurs once in its file, and the '+' text replaces it.

- The goal's answer is its written one, if the function's proof has one, or else `search rules`.
- ', unturned `GOAL`' follows if the goal has another name in the right body, because a changed expression is a part of it.
- ', by `grind`', or another word of `answers.TACTICS`, follows if another call proves the right body.
- If a page names no goal, all goals of the function are searched, and the printed line names those that weren't proved.
"""
import re
from dataclasses import dataclass, replace

GOAL = r"(?:, at `([^`]+)`(?:, unturned `([^`]+)`)?(?:, by `(\w+)`)?)?"
BODY = re.compile(rf"^## (\w+)\n\nRefused: `([^`]+)`{GOAL}\n\n((?:```diff \S+\n.*?\n```\n\n?)+)", re.M | re.S)
BLOCK = re.compile(r"```diff (\S+)\n(.*?)\n```", re.S)
REPLACEMENT = re.compile(r"((?:^-.*\n)+)((?:^\+.*\n)+)", re.M)
CONSTANT = re.compile(r"\s*(pub\S* )?(const|static) \w+:")


# The words of `answers.TACTICS`.
TACTIC_WORDS = ("rules", "grind", "elements", "moves", "tests", "pieces", "widths")


class PageError(Exception):
    """A page that can't be read, or whose bodies can't be applied to the sources."""


@dataclass(frozen=True)
class Difference:
    """A text of a file, and the text that replaces it."""

    file: str
    old: str
    new: str


@dataclass(frozen=True)
class Attempt:
    """A goal, and the word of `answers.TACTICS` by which it is tried."""

    goal: str
    tactic: str


@dataclass(frozen=True)
class WrongBody:
    """A wrong body: its name, the function that has to be refused, its differences, and the goal that doesn't hold (if the
    page names one), with that goal's name in the right body. `attempts` replaces the page's goal while goals are looked for."""

    name: str
    function: str
    differences: tuple
    goal: str | None = None
    right_goal: str | None = None
    tactic: str | None = None
    attempts: tuple | None = None

    def names_goals(self):
        """Returns whether certain goals are tried, and no others."""
        return self.attempts is not None or self.goal is not None

    def is_tried_alone(self):
        """Returns whether it shares its check with no other body: a changed constant may be used by other functions, too."""
        return any(CONSTANT.match(difference.old) for difference in self.differences)

    def changes_text(self):
        """Returns whether any of its differences changes a text."""
        return any(difference.old != difference.new for difference in self.differences)

    def unchanged(self):
        """Returns the body with each text in place of its replacement."""
        return replace(self, differences=tuple(replace(it, new=it.old) for it in self.differences))

    def right_body(self):
        """Returns the body without its change, and with the goal of the right body."""
        return replace(self.unchanged(), goal=self.right_goal)


def without_marks(lines):
    """Returns the lines of a block of differences without their first characters."""
    return "\n".join(line[1:] for line in lines.rstrip("\n").split("\n"))


def differences_in(name, blocks):
    """Returns the differences in the blocks of a body."""
    found = []
    for file, lines in BLOCK.findall(blocks):
        pairs = REPLACEMENT.findall(f"{lines}\n")
        if "".join(old + new for old, new in pairs) != f"{lines}\n":
            raise PageError(f"{name}: a line of its differences is no part of a '-' text and the '+' text after it")
        found += [Difference(file, without_marks(old), without_marks(new)) for old, new in pairs]
    return tuple(found)


def bodies_on(page, text):
    """Returns the wrong bodies of a page; `page` is its name in a message."""
    found = []
    for name, function, goal, right_goal, tactic, blocks in BODY.findall(text):
        differences = differences_in(name, blocks)
        if tactic and tactic not in TACTIC_WORDS:
            raise PageError(f"{page}: {name}: no tactic has the word {tactic!r}")
        found.append(WrongBody(name, function, differences, goal or None, right_goal or goal or None, tactic or None))
    if len(found) != text.count("\n## "):
        raise PageError(f"{page}: a heading has no whole body under it")
    return found


def pages_of(crate):
    """Returns the paths of a crate's pages."""
    folder = crate.folder / "must-fail"
    return sorted(path for path in folder.iterdir() if path.name.endswith(".md")) if folder.is_dir() else []


def bodies_by_page(crate):
    """Returns the wrong bodies of each of a crate's pages, by the page's name without its ending."""
    found = {}
    for path in pages_of(crate):
        found[path.stem] = bodies_on(f"{crate.name}/must-fail/{path.name}", path.read_text(encoding="utf-8"))
    names = [body.name for bodies in found.values() for body in bodies]
    if len({*names}) != len(names):
        raise PageError(f"{crate.name}: two wrong bodies have one name")
    return found


def bodies_of(crate):
    """Returns the wrong bodies of a crate's pages."""
    return [body for bodies in bodies_by_page(crate).values() for body in bodies]


def reference_to(body):
    """Returns the line of a page that names a body's function, and its goal if it has one."""
    line = f"Refused: `{body.function}`"
    if not body.goal:
        return line
    unturned = f", unturned `{body.right_goal}`" if body.right_goal != body.goal else ""
    tactic = f", by `{body.tactic}`" if body.tactic else ""
    return f"{line}, at `{body.goal}`{unturned}{tactic}"


def write_goal(crate, body):
    """Writes the goal of a body on its page, which names none. Returns the line that names it."""
    before = f"## {body.name}\n\n{reference_to(replace(body, goal=None))}\n"
    after = f"## {body.name}\n\n{reference_to(body)}\n"
    for path in pages_of(crate):
        text = path.read_text(encoding="utf-8")
        if before in text:
            path.write_text(text.replace(before, after), encoding="utf-8")
    return reference_to(body)
