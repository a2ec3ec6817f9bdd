"""Spoilt second copies of functions.

A changed function appears a second time, under the body's name, and the prover's messages about that one concern the body
alone. A function of a trait, and one outside which its body changes something too, is changed in place; the latter can name
no goal.
"""
import re
from dataclasses import dataclass
from typing import NamedTuple

from .functions import VISIBILITY, function_around, tactic_attribute
from .pages import PageError, WrongBody

UNSEARCHED = "#[tactic(none)]\n"


class Edit(NamedTuple):
    """A change to a file: its place, the text there, and the text that replaces it."""

    file: str
    at: int
    old: str
    new: str

    def end(self):
        """Returns the end of the text that it replaces."""
        return self.at + len(self.old)

    def meets(self, other):
        """Returns whether two edits replace a common part of a file."""
        return self.file == other.file and self.at < other.end() and other.at < self.end()


@dataclass(frozen=True)
class SpoiltFunction:
    """A function that a body changes: the body, the edits for it, its path in the copy, and what its own `tactic` attribute
    lists, if its answers take that over."""

    body: WrongBody
    edits: tuple
    path: str
    attribute: str = ""

    def is_second(self):
        """Returns whether it is a second copy, beside the function as it is."""
        return self.path != self.body.function


def with_edits(text, edits, offset=0):
    """Returns a text with edits in it; `offset` is the place of its beginning in their file."""
    for edit in sorted(edits, key=lambda it: it.at, reverse=True):
        text = text[: edit.at - offset] + edit.new + text[edit.end() - offset :]
    return text


def edits_of(body, text_of):
    """Returns the edits of a body's differences. `text_of` returns the text of a file."""
    edits = []
    for difference in body.differences:
        text = text_of(difference.file)
        if text.count(difference.old) != 1:
            raise PageError(f"{body.name}: an old text doesn't stand once in {difference.file}")
        edits.append(Edit(difference.file, text.index(difference.old), difference.old, difference.new))
    return edits


def place_of(body, edits, text_of):
    """Returns the place of a body's function in the file of its first edit, and whether all edits are within it."""
    file = edits[0].file
    place = function_around(text_of(file), body.function.split("::")[-1], edits[0].at)
    is_within = place is not None and all(it.file == file and place.has(it.at, it.end()) for it in edits)
    return place, is_within


def changes_function_alone(body, text_of):
    """Returns whether a body changes nothing outside its function."""
    return place_of(body, edits_of(body, text_of), text_of)[1]


def spoilt(body, text_of):
    """Returns the function that a body changes. `text_of` returns the text of a file of its crate, without changes."""
    edits = edits_of(body, text_of)
    place, is_within = place_of(body, edits, text_of)
    if is_within and not place.is_of_trait:
        return second_copy(body, edits, place, text_of(edits[0].file))
    if not body.names_goals():
        return SpoiltFunction(body, tuple(edits), body.function)
    if not is_within:
        raise PageError(f"{body.name}: what turns more than its function can name no goal")
    return changed_in_place(body, edits, place, text_of(edits[0].file))


def changed_in_place(body, edits, place, text):
    """Returns a function that is changed in place, whose goals aren't searched."""
    head = re.compile(r"^ *(?:pub\S* )?fn ", re.M).search(text, place.start)
    unsearched = [Edit(edits[0].file, head.start(), "", UNSEARCHED)] if head else []
    return SpoiltFunction(body, (*edits, *unsearched), body.function)


def second_copy(body, edits, place, text):
    """Returns the copy of a function right behind it, under the body's name and with its changes."""
    *owner, function = body.function.split("::")
    name = f"{function}_{body.name}"
    copy = with_edits(text[place.start : place.end], edits, place.start)
    attribute = ""
    if body.names_goals():
        own = tactic_attribute(copy)
        if own:
            attribute = own[1]
            copy = copy.replace(own[0], "", 1)
    unsearched = UNSEARCHED if body.names_goals() else ""
    copy = re.sub(rf"^( *{VISIBILITY})fn \w+", rf"{unsearched}\1fn {name}", copy, count=1, flags=re.M)
    edit = Edit(edits[0].file, place.end, "", copy)
    return SpoiltFunction(body, (edit,), "::".join([*owner, name]), attribute)
