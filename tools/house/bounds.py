"""The bounds of bounds.toml: what they are, what exceeds them, and how they are lowered.

Each bound is a line in one of the tables:

    [all]        COUNT = MOST                            of the whole repository
    [crates]     CRATE = { COUNT = MOST, .. }            of a crate
    [folders]    FOLDER = { COUNT = MOST, .. }           of a folder beside the crates
    [functions]  "PATH NAME" = LINES                     of a body that may have more than 40 lines
    [files]      "PATH" = LINES                          of a file that may have more than 400
    [lines]      "PATH" = NUMBER                         of lines of a file that may have more than 130 characters

`long_lines` of [all] is the number of such lines in files that [lines] doesn't name.

`why` says why a bound is higher than it was: `COUNT = { most = MOST, why = ".." }`, or `why = ".."` among a crate's.
"""
import json
import subprocess
import tomllib
from pathlib import Path

from wrong_bodies.crates import TOP

from .counts import LONGEST_FILE, LONGEST_FUNCTION, rounded

PATH = "tools/house/bounds.toml"
# The bounds of what no line names.
GENERAL = {"functions": LONGEST_FUNCTION, "files": LONGEST_FILE, "lines": 0}


def present(counts, bounds):
    """Returns the present values, by table and name, each a dictionary by count; `most` if a name has one count alone."""
    whole = counts.in_all()
    named = {path: number for path, number in counts.long_lines.items() if ("lines", path) in bounds}
    in_all = {
        "crates": len(counts.crates()),
        "twins": len(counts.pairs),
        "long_lines": sum(counts.long_lines.values()) - sum(named.values()),
        "clauses": whole.clauses,
        "proofs_to_source": rounded(whole.proofs_to_source()),
        "lines_for_laws": whole.laws,
    }
    values = {("all", name): {"most": value} for name, value in in_all.items()}
    for unit in counts.units.values():
        if unit.is_crate:
            values["crates", unit.name] = of_crate(unit)
        else:
            values["folders", unit.name] = {"parameters": unit.parameters}
    long = {"functions": counts.long_functions, "files": counts.long_files, "lines": named}
    for table, found in long.items():
        values |= {(table, name): {"most": value} for name, value in found.items()}
    return values


def of_crate(unit):
    """Returns the present values of a crate. Only a working crate has bounds of its proofs."""
    values = {"clauses": unit.clauses, "parameters": unit.parameters}
    if unit.is_working():
        values |= {"proofs_to_source": rounded(unit.proofs_to_source()), "lines_for_laws": unit.laws}
    return values


def bounds_in(text):
    """Returns the bounds of a text, by table and name, each a dictionary by count, with `why` if that is given."""
    tables = tomllib.loads(text)
    return {
        (table, name): bound if isinstance(bound, dict) else {"most": bound}
        for table, bounds in tables.items()
        for name, bound in bounds.items()
    }


def name_of(place, count):
    """Returns the name of a bound, as a sentence has it."""
    table, name = place
    return f"[{table}] {name}" if count == "most" else f"[{table}] {name}, {count}"


def exceeded(values, bounds):
    """Returns a sentence for each present value that exceeds its bound."""
    found = []
    for place, counts in values.items():
        for count, value in counts.items():
            most = bounds.get(place, {}).get(count, GENERAL.get(place[0]))
            if most is None:
                found.append(f"{name_of(place, count)}: no bound; it is {value} now")
            elif value > most:
                found.append(f"{name_of(place, count)}: {value}, at most {most}")
    return found


def raised(bounds, before):
    """Returns a sentence for each bound that is higher than it was, if no new `why` says why."""
    found = []
    for place, counts in bounds.items():
        old = before.get(place, {})
        if counts.get("why") and counts["why"] != old.get("why"):
            continue
        for count, most in counts.items():
            was = old.get(count, GENERAL.get(place[0]))
            if count != "why" and was is not None and most > was:
                found.append(f"{name_of(place, count)}: {most}, and was {was}: a new `why` says why a bound is raised")
    return found


def lowered(values, bounds):
    """Returns the bounds with the present values where these are lower. Crates that are new get bounds, and bounds of what is
    gone go."""
    result = {}
    for place in [*bounds, *(it for it in values if it not in bounds)]:
        if place not in values:
            continue
        old = bounds.get(place, {})
        new = {}
        for count, value in values[place].items():
            most = old.get(count, GENERAL.get(place[0]))
            new[count] = value if most is None else min(value, most)
        if place in bounds or place[0] not in GENERAL:
            result[place] = new | ({"why": old["why"]} if "why" in old else {})
    return result


def line_of(name, bound):
    """Returns the line of a bound."""
    word = name if name.replace("_", "").isalnum() else json.dumps(name)
    if set(bound) == {"most"}:
        return f"{word} = {bound['most']}"
    return f"{word} = {{ {', '.join(f'{count} = {json.dumps(value, ensure_ascii=False)}' for count, value in bound.items())} }}"


def text_of(text, bounds):
    """Returns a text of bounds with other bounds, by name. The comments above the first table stay, and those right below the
    head of a table."""
    lines, table = [], None
    for line in text.split("\n"):
        if line.startswith("["):
            table = line.strip("[]")
            lines.append(line)
        elif line.startswith("#") or (not table and line):
            lines.append(line)
        elif not line and lines[-1:] != [""]:
            lines += [line_of(*it) for it in sorted((name, bound) for (at, name), bound in bounds.items() if at == table)]
            lines.append("")
    return "\n".join(lines)


def shown(commit, top=TOP):
    """Returns the text of the bounds at a commit; None if there is none."""
    words = ["git", "show", f"{commit}:{PATH}"]
    done = subprocess.run(words, cwd=top, capture_output=True, text=True, check=False)
    return done.stdout if done.returncode == 0 else None


def text_before(text, top=TOP):
    """Returns the text of the bounds before the change that is tried; None if there is none. If the text is that of the
    checked-out commit, that commit is the change."""
    at_head = shown("HEAD", top)
    return shown("HEAD^", top) if at_head == text else at_head


def read_text(top=TOP):
    """Returns the text of the bounds."""
    return (Path(top) / PATH).read_text(encoding="utf-8")
