"""Functions of a source in the layout of `rt fmt`, and their parts.

A function ends at the first line that has a closing brace at the indent of its head. So braces in its statements, in strings
and in comments don't matter.
"""
import re
from functools import lru_cache
from typing import NamedTuple

VISIBILITY = r"(?:pub(?:\(\w+\))? )?"


class Place(NamedTuple):
    """The place of a function in a text: its beginning with its attributes, its end, and whether it is of a trait."""

    start: int
    end: int
    is_of_trait: bool

    def has(self, start, end):
        """Returns whether it includes the text from `start` to `end`."""
        return self.start <= start and end <= self.end


class Statements(NamedTuple):
    """The statements of a function: its path below the crate, and their beginning and end in the text."""

    path: str
    start: int
    end: int


def impl_around(text, at):
    """Returns the head of the `impl` that has the method at this place; None if there is none."""
    above = re.findall(r"^(?:unsafe )?impl\b[^{]*|^\}", text[:at], re.M)
    return above[-1] if above and above[-1] != "}" else None


def last_line(text, indent, at):
    """Returns the match of the last line of the function that begins at this place; None if it has none."""
    return re.compile(rf"^{indent}\{{?\}}\n", re.M).search(text, at)


def function_around(text, name, at):
    """Returns the place of the function of this name around a place; None if there is none."""
    head = rf"^( *)(?:#\[[^\]]*\]\n\1)*{VISIBILITY}fn {name}\b"
    # A trait also declares functions without a body, so the last one before the place is the right one.
    for found in reversed([*re.finditer(head, text, re.M)]):
        end = last_line(text, found[1], found.start())
        if end and found.start() <= at < end.end():
            impl = impl_around(text, found.start()) if found[1] else None
            return Place(found.start(), end.end(), impl is not None and " for " in impl)
    return None


def module_of(file):
    """Returns the path of a file's functions below the crate, as a list of names."""
    names = file.removesuffix(".rt").split("/")[1:]
    return names[:-1] if names[-1] in ("lib", "main", "mod") else names


@lru_cache(maxsize=1024)
def types_in(text):
    """Returns the names of the types of a file."""
    return re.findall(rf"^{VISIBILITY}(?:struct|enum) (\w+)", text, re.M)


def modules_of_types(texts):
    """Returns the modules of the types of some files by the types' names, or None for a name that two types have."""
    modules = {}
    for file, text in texts.items():
        for name in types_in(text):
            modules[name] = None if name in modules else module_of(file)
    return modules


def without_arguments(text):
    """Returns a text without the angle brackets and all that is between them."""
    depth = 0
    kept = ""
    for character in text:
        if character == "<":
            depth += 1
        elif character == ">":
            depth -= 1
        elif depth == 0:
            kept += character
    return kept


def type_of_impl(head):
    """Returns the name of the type of an `impl` by its head; None if it is of a trait."""
    words = without_arguments(head.removeprefix("unsafe ").removeprefix("impl"))
    found = re.match(r"\s*(\w+)", words)
    return found[1] if found and " for " not in words else None


def owner_of_method(text, at, modules):
    """Returns the path of the type of the method at this place, as a list of names; None if it isn't known."""
    name = type_of_impl(impl_around(text, at) or "")
    module = modules.get(name)
    return [*module, name] if module is not None else None


def statements_in(text, module, modules):
    """Returns the statements of the functions of a file, except those of a trait. `module` is the file's own module, and
    `modules` has those of the crate's types: the path of a method is that of its type."""
    found = []
    for head in re.finditer(rf"^(    )?{VISIBILITY}fn (\w+)\b", text, re.M):
        indent = head[1] or ""
        owner = owner_of_method(text, head.start(), modules) if indent else module
        end = last_line(text, indent, head.end())
        if owner is None or end is None:
            continue
        opening = re.compile(rf"^{indent}\{{\n|^{indent}\S.*[\w>)\]] \{{\n", re.M).search(text, head.start(), end.start())
        # The type behind `-> impl` is known by the statements alone.
        if opening and "-> impl" not in text[head.start() : opening.end()]:
            path = "::".join([*owner, head[2]])
            found.append(Statements(path, opening.end() + len(indent) + 4, end.start() - 1))
    return found


def tactic_attribute(text):
    """Returns the match of the `tactic` attribute of the function at the beginning of a text; None if it has none."""
    return re.search(r"^ *#\[tactic\(([^\]]*)\)\]\n", text[: text.index("fn ")], re.M)


def paths_after(word, attribute):
    """Returns the paths that a `tactic` attribute lists after a word."""
    found = re.search(rf"{word}\(([^)]*)\)", attribute)
    return re.findall(r"[\w:]+", found[1]) if found else []
