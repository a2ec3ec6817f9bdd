"""The refusals that the repository records: crates/NAME/refused/FILE.txt has a line for each body of the page
must-fail/FILE.md, with its name and the digest of the inputs (`inputs`) with which it was refused.

A run tries each body that has no line or whose inputs have another digest now. `--record` writes these files.
"""
import hashlib

from .pages import PageError, bodies_by_page

# A run tries one recorded body in this number.
ONE_IN = 4


def is_drawn(seed, crate, body):
    """Returns whether a run with this seed tries a recorded body. That doesn't depend on which others there are."""
    return int(hashlib.sha256(f"{seed} {crate.name}/{body.name}".encode()).hexdigest(), 16) % ONE_IN == 0


def folder_of(crate):
    """Returns the folder of a crate's records."""
    return crate.folder / "refused"


def files_of(crate):
    """Returns the files of a crate's records."""
    folder = folder_of(crate)
    return sorted(folder.iterdir()) if folder.is_dir() else []


def records_in(path):
    """Returns the digests of a file by the bodies' names."""
    lines = [line.split() for line in path.read_text(encoding="utf-8").splitlines()]
    if any(len(words) != 2 for words in lines):
        raise PageError(f"{path}: a line isn't a name and a digest")
    return dict(lines)


def records_of(crate):
    """Returns the recorded digests of a crate's bodies by their names."""
    return {name: digest for path in files_of(crate) for name, digest in records_in(path).items()}


def check_records(crate):
    """Fails if a record of a crate is of no body on its page."""
    bodies = bodies_by_page(crate)
    for path in files_of(crate):
        others = records_in(path).keys() - {body.name for body in bodies.get(path.stem, [])}
        if others:
            place = f"crates/{crate.name}/refused/{path.name}"
            page = f"must-fail/{path.stem}.md"
            remedy = f"run `.ci/wrong_bodies --record {crate.name}`"
            raise PageError(f"{place} records {min(others)}, and {page} has no such body: {remedy}")


def write_records(crate, digests):
    """Writes the digests of a crate's bodies, by their names, into the files of their pages. Other records are removed."""
    folder = folder_of(crate)
    for path in files_of(crate):
        path.unlink()
    for page, bodies in bodies_by_page(crate).items():
        lines = [f"{body.name} {digests[body.name]}\n" for body in bodies if body.name in digests]
        if lines:
            folder.mkdir(exist_ok=True)
            (folder / f"{page}.txt").write_text("".join(lines), encoding="utf-8")
    if folder.is_dir() and not files_of(crate):
        folder.rmdir()
