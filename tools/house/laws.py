"""Lines of proofs that serve laws alone.

A law is a function of `src/laws.rt`, or of a file below `src/laws/`. In a crate whose name begins with `laws_of_` each function
is one.

A file of proofs serves laws alone if laws reach it and no other function does. A function reaches

- its answers and invariants: those of laws are in `proofs/laws/LAW/`, and all in a crate `laws_of_..`,
- the lemma files that its source names (`using(crate::proofs::X::lemma)`), and
- each lemma file that a file imports which it reaches (`use Rattle.CRATE.proofs.X`), in all crates.

A law's answers count as the law's also if other functions call the law.
"""
import re
from collections import defaultdict
from pathlib import PurePosixPath

IMPORT = re.compile(r"\bRattle\.(\w+\.proofs(?:\.\w+)+)")
CITED = re.compile(r"\b(\w+)::proofs((?:::\w+)+)::\w+")


def module_of(path):
    """Returns the name of the module that a file of proofs is, as `CRATE.proofs.X.Y`."""
    words = PurePosixPath(path).with_suffix("").parts
    return ".".join(words[1:])


def is_of_laws(file):
    """Returns whether a source, or an answer, is that of a law."""
    below = PurePosixPath(file.path).parts[3:]
    return file.unit.startswith("laws_of_") or PurePosixPath(below[0]).stem == "laws"


def is_lemma_file(file):
    """Returns whether a file of proofs has lemmas, and no function's answers: it is right in `proofs/`."""
    return len(PurePosixPath(file.path).parts) == 4


def citations(file):
    """Returns the names of the modules that a source or a file of proofs names."""
    names = set(IMPORT.findall(file.text))
    if file.language == "rattle":
        for crate, below in CITED.findall(file.text):
            names.add(f"{file.unit if crate == 'crate' else crate}.proofs{below.replace('::', '.')}")
    return names


def reached(roots, imports):
    """Returns all modules that some modules reach by imports, those included."""
    found, waiting = set(), [name for name in roots if name in imports]
    while waiting:
        name = waiting.pop()
        if name not in found:
            found.add(name)
            waiting += [other for other in imports[name] if other in imports]
    return found


def files_of_laws(files):
    """Returns the files of proofs that serve laws alone."""
    proofs = {module_of(file.path): file for file in files if file.part == "proofs"}
    imports = {name: citations(file) for name, file in proofs.items()}
    laws, functions = set(), set()
    for file in files:
        if file.part == "src":
            (laws if is_of_laws(file) else functions).update(citations(file))
        elif file.part == "proofs" and not is_lemma_file(file):
            (laws if is_of_laws(file) else functions).add(module_of(file.path))
    return [proofs[name] for name in reached(laws, imports) - reached(functions, imports)]


def law_lines(files):
    """Returns the number of lines of proofs that serve laws alone, by crate."""
    counts = defaultdict(int)
    for file in files_of_laws(files):
        counts[file.unit] += len(file.lines)
    return counts
