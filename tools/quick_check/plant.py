"""quick_plant CRATE [--only WORD] [--max N] [--minutes N] [--jobs N] [--all]: runs the toolchain's `rt plant` on a crate while
nothing below it is built.

The prover reads copies of the crates below without bodies and proofs, as quick_check does. The crate's own functions are taken
as proved, which `rt ci` shows. The other options, and the output, are those of `rt plant`.
"""
import contextlib
import importlib.machinery
import os
import re
import subprocess
import sys
import time
import types
from pathlib import Path

from wrong_bodies.checks import KIT, source_words
from wrong_bodies.crates import read_crates

from .__main__ import Options, command_for, functions_of, only_calls, room_of

# The most seconds that a check of some plants takes; after them it is halved.
SECONDS = 600
# Words of a type that aren't in the prover's name of its `impl`.
UNNAMED = ("mut", "dyn", "const")


def program():
    """Returns the program of `rt plant` as a module."""
    module = types.ModuleType("rt_plant")
    module.__file__ = f"{KIT}/bin/rt-plant"
    importlib.machinery.SourceFileLoader(module.__name__, module.__file__).exec_module(module)
    return module


def name_of_impl(block):
    """Returns the prover's name of the `impl` of a trait: the words of its type and its trait, without its parameters."""
    words = [word for word in [*block.ty, *block.trait] if word == "&" or word.isidentifier()]
    named = ["Ref" if word == "&" else word for word in words if word not in [*UNNAMED, *block.generics]]
    return "".join(word[:1].upper() + word[1:] for word in named)


def symbols_of(crate, functions):
    """Returns the prover's names of all functions of a crate. Those of its traits' impls are among these `functions`."""
    paths = functions_of(crate)
    for function in functions:
        if function.in_trait and not function.block.is_trait:
            paths.append("::".join([*function.module, name_of_impl(function.block), function.name]))
    return [f"{crate.name}::{path}" for path in paths]


def judged(output):
    """Returns a check's output in which the line of each function that is proved on its own account says `proved`."""

    def with_verdict(found):
        is_proved = found[2].startswith(("no holes", "depends on")) or only_calls(found[2])
        return f"{found[1]}proved" if is_proved else found[0]

    return re.sub(r"^(fn \S+: )(.*)$", with_verdict, output, flags=re.M)


def library_folders(crate, room):
    """Returns the folder of each library that a crate reaches, by its name. In it `lang` has the library's source."""
    found = {name: f"{KIT}/rlibs/{name}.rlib" for other in [crate, *crate.below()] for name in ["std", *other.libraries]}
    for other in crate.below():
        folder = Path(room) / f"library-{other.name}"
        folder.mkdir(parents=True, exist_ok=True)
        with contextlib.suppress(FileExistsError):
            (folder / "lang").symlink_to(other.folder)
        found[other.name] = str(folder)
    return found


def check(crate, jobs, room, copy, names):
    """Returns the output of a check of functions in a copy of a crate; None if it ran out of time or was killed."""
    command = command_for(crate, Options(crate.name, [*names], jobs, False), room)
    seconds = max(min(SECONDS, copy.end - time.monotonic()), 0)
    try:
        ran = subprocess.run(
            command,
            cwd=copy.folder,
            stdin=subprocess.DEVNULL,
            stdout=subprocess.PIPE,
            stderr=subprocess.STDOUT,
            encoding="utf-8",
            errors="replace",
            timeout=seconds,
            check=False,
        )
    except subprocess.TimeoutExpired:
        return None
    return judged(ran.stdout) if ran.returncode >= 0 else None


def print_own_check(crate, plant):
    """Prints what `rt check` prints of a crate that is proved, as far as `rt plant` reads it."""
    source = plant.bodies.Source(str(crate.folder))
    source.read(source_words(crate)[-1])
    for symbol in symbols_of(crate, source.functions):
        print(f"fn {symbol}: proved")
    print(f"\ncrate {crate.name}: taken as proved")


def jobs_in(words):
    """Returns the number of processors that the words ask for: all, if they name none."""
    return int(words[words.index("--jobs") + 1]) if "--jobs" in words[:-1] else len(os.sched_getaffinity(0))


def run(crate, words):
    """Runs `rt plant` with these options on a crate. Returns the exit status."""
    plant = program()
    # Each crate has a separate folder, so that several can be tried at once.
    room = room_of("quick-plant") / crate.name
    jobs = jobs_in(words)

    def own_check(*_):
        print_own_check(crate, plant)
        return 0

    plant.rt.main = own_check
    plant.libraries = lambda _: library_folders(crate, room)
    plant.Copy.check = lambda copy, names: check(crate, jobs, room, copy, names)
    os.chdir(crate.folder)
    return plant.main(*words)


def main(words):
    """Runs the command with these words. Returns the exit status."""
    crates = read_crates()
    if not words or words[0] not in crates:
        print(f"quick_plant: which crate of crates.txt?\n\n{__doc__}", file=sys.stderr)
        return 2
    return run(crates[words[0]], words[1:])
