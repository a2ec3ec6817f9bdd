"""quick_check [--test] [--jobs N] CRATE [FUNCTION ..]: checks functions of a crate (all, if none is named) while nothing below
it is built.

The prover reads copies of the crates below, in which no function has a body or a proof. A function is proved from its own body
and from the contracts of the functions that it calls, so its own proof is checked as `rt check` does. It says less than `rt
check` in one way: the callees aren't proved there.

It prints the crate's functions that aren't proved and the errors in its proofs, and then the counts. The exit status is 1 if
there are any. The prover's whole output is in the file that the last line names. A first check of a crate takes some minutes,
and the next ones take about one: the copies and the prover's modules stay in the system's folder for temporary files.

--test    checks the crate with its tests.
--jobs N  uses so many processors (all, if it isn't named).
"""
import hashlib
import os
import re
import shutil
import subprocess
import sys
import tempfile
from dataclasses import dataclass
from pathlib import Path

from wrong_bodies.checks import KIT, kit_words, logic_words, source_words
from wrong_bodies.crate_copies import CrateCopy
from wrong_bodies.crates import PARTS, TOP, files_below, read_crates
from wrong_bodies.functions import module_of, modules_of_types, statements_in


class UsageError(Exception):
    """The words of the command aren't understood."""


@dataclass
class Options:
    """The options of the command, the crate, and the functions that are checked (all, if it names none)."""

    crate: str
    functions: list
    jobs: int
    takes_tests: bool


def options_in(words):
    """Returns the options in the words of the command."""
    names = []
    jobs = len(os.sched_getaffinity(0))
    remaining = [word for word in words if word != "--test"]
    while remaining:
        word = remaining.pop(0)
        if word != "--jobs":
            names.append(word)
        elif remaining and remaining[0].isdigit():
            jobs = int(remaining.pop(0))
        else:
            raise UsageError("--jobs takes a number")
    if not names:
        raise UsageError("which crate?")
    return Options(names[0], names[1:], jobs, "--test" in words)


def digest_of(crate):
    """Returns the SHA-1 of all that the prover reads of a crate."""
    digest = hashlib.sha1()
    for path in sorted(path for part in PARTS for path in files_below(crate.folder / part)):
        digest.update(str(path.relative_to(crate.folder)).encode())
        digest.update(path.read_bytes())
    return digest.hexdigest()


def emptied(crate, room):
    """Returns the folder of a copy of a crate without bodies and proofs, which it writes into `room` if that has none of the
    crate as it is now."""
    folder = Path(room) / crate.name
    stamp = Path(room) / f"{crate.name}.sha1"
    digest = digest_of(crate)
    if not stamp.is_file() or stamp.read_text(encoding="utf-8") != digest:
        shutil.rmtree(folder, ignore_errors=True)
        folder.mkdir(parents=True)
        CrateCopy(crate).write(folder)
        stamp.write_text(digest, encoding="utf-8")
    return folder


def kit_libraries(crate):
    """Returns the toolchain's libraries that a crate or one below it names."""
    return sorted({"std", *(name for other in [*crate.below(), crate] for name in other.libraries)})


def library_word(crate, folder):
    """Returns the word that gives the prover a crate by its source, with the libraries that it may name."""
    names = [*kit_libraries(crate), *(other.name for other in crate.below())]
    return f"{crate.name}:{','.join(names)}={folder}/src/lib.rt"


def functions_of(crate):
    """Returns the paths of all functions of a crate."""
    texts = {os.path.relpath(path, crate.folder): path.read_text(encoding="utf-8") for path in files_below(crate.folder / "src")}
    modules = modules_of_types(texts)
    return [statements.path for file, text in texts.items() for statements in statements_in(text, module_of(file), modules)]


def command_for(crate, options, room):
    """Returns the command that checks a crate, whose copies of other crates are in the folder `room`."""
    words = [f"{KIT}/bin/rattle", "check", *source_words(crate), *kit_words(kit_libraries(crate))]
    for other in crate.below():
        words += ["--lib", library_word(other, emptied(other, room))]
    words += logic_words(crate)
    for path in options.functions or functions_of(crate):
        words += ["--only", path]
    kept = Path(room) / f"kept-{crate.name}"
    kept.mkdir(parents=True, exist_ok=True)
    words += ["--allow-holes", "--incremental", str(kept), "--jobs", str(options.jobs)]
    return words + ["--test"] * options.takes_tests


@dataclass
class Verdict:
    """The result of a check: the errors in the crate's proofs, its functions that aren't proved, and the number of those
    that are."""

    errors: list
    unproved: list
    proved: int

    def is_good(self):
        """Returns whether something was proved, and nothing failed."""
        return self.proved > 0 and not self.errors and not self.unproved


def verdict_in(output, crate):
    """Returns the result that the prover's output has for a crate."""
    # An error continues in lines that begin with two spaces. Paths in the copies of other crates begin with a slash.
    errors = re.findall(r"^((?:(?!/)\S+: )?error(?:\[[\w-]+\])?: .*(?:\n  .*)*)", output, re.M)
    lines = re.findall(rf"^fn ({re.escape(crate)}::\S+): (.*)$", output, re.M)
    # A function is proved on its own account, unless the prover says otherwise: its callees here have holes.
    fails = [(path, line) for path, line in lines if line.startswith(("not proved", "no proof")) and not only_calls(line)]
    proved = sum(not line.startswith(("not proved", "no proof")) for _, line in lines)
    return Verdict(errors, [f"{path}: {line}" for path, line in fails], proved)


def only_calls(line):
    """Returns whether a line says only that callees aren't proved."""
    return re.fullmatch(r"(?:not proved|no proof)[:;] it calls .*", line) is not None


def shown(line, width=400):
    """Returns a line, cut if it is long."""
    return line if len(line) <= width else f"{line[:width]} .."


def room_of(program):
    """Returns the folder for a program's temporary files. Each copy of the repository has a separate one."""
    return Path(tempfile.gettempdir()) / f"{program}-{hashlib.sha1(str(TOP).encode()).hexdigest()[:12]}"


def run(options):
    """Does what the options say. Returns the exit status."""
    crates = read_crates()
    if options.crate not in crates:
        raise UsageError(f"crates.txt has no {options.crate}")
    crate = crates[options.crate]
    room = room_of("quick-check")
    command = command_for(crate, options, room)
    whole = room / f"{crate.name}.txt"
    with whole.open("w", encoding="utf-8") as output:
        subprocess.run(command, cwd=crate.folder, stdin=subprocess.DEVNULL, stdout=output, stderr=output, check=False)
    verdict = verdict_in(whole.read_text(encoding="utf-8", errors="replace"), crate.name)
    for line in [*verdict.errors, *verdict.unproved]:
        print(shown(line))
    print(f"{crate.name}: {verdict.proved} proved, {len(verdict.unproved)} not, {len(verdict.errors)} errors: {whole}")
    return 0 if verdict.is_good() else 1


def main(words):
    """Runs the command with these words. Returns the exit status."""
    try:
        return run(options_in(words))
    except UsageError as error:
        print(f"quick_check: {error}\n\n{__doc__}", file=sys.stderr)
        return 2


if __name__ == "__main__":
    sys.exit(main(sys.argv[1:]))
