"""The calls of a locked peer and of the locked book: each has to note itself under its pass."""
import re

from .sources import sources

# The place of a peer in the plan is no part of its state.
UNLOCKED = ("NotedPeer::number",)


def unnoted_in(text):
    """Returns the methods of `NotedPeer` and `NotedBook` in sources that borrow the state and have no clause `noted`."""
    faults, kind, name, front = [], "", "", ""
    for line in text.split("\n"):
        if line.startswith("impl"):
            kind = (re.findall(r"\b(NotedPeer|NotedBook)\b", line.split(" for ")[-1]) or [""])[0]
        found = re.match(r"    (?:pub(?:\([^)]*\))? )?fn (\w+)", line)
        if found and kind:
            name, front = found.group(1), ""
        if name:
            front += line + "\n"
            if line.endswith("{") and not re.search(r"\b(ensures|requires)\b", line):
                borrows = re.search(r"[(,]\s*&(?:'\w+ )?(?:mut )?self\b", front)
                if borrows and "ensures noted {" not in front and f"{kind}::{name}" not in UNLOCKED:
                    faults.append(f"{kind}::{name}")
                name = ""
    return faults


def check_notes(documents):
    """Returns the calls of locked states that aren't noted. (It looks at no page.)"""
    del documents
    text = sources("step_log")
    return unnoted_in(text) if "impl NotedBook" in text else ["no source has NotedBook"]
