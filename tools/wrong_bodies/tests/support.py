"""Shared by the tests: finds the package, reads golden files, and makes the crate `ring`."""
import sys
import tempfile
from pathlib import Path

HERE = Path(__file__).resolve().parent
sys.path.insert(0, str(HERE.parents[1]))

from wrong_bodies.crates import Crate  # noqa: E402

LIB = "mod ring;\n\npub use ring::Ring;\n\npub fn is_none(octets: &[u8]) -> bool {\n    ring::first(octets).is_none()\n}\n"
LAW = "use Rattle.ring.specs.Rings.{octets}\n\npub counted : Type 0\ncounted = octets\n"


def golden(name):
    """Returns the text of a golden file."""
    return (HERE / "golden" / name).read_text(encoding="utf-8")


def write_ring(folder):
    """Writes the crate `ring` into a folder: two sources, a definition, a lemma, and two functions with proofs."""
    texts = {
        "src/lib.rt": LIB,
        "src/ring.rt": golden("ring.txt"),
        "specs/Rings.antt": "pub octets : Type 0\n",
        "proofs/Rings.antt": LAW,
        "proofs/ring/Ring/count/Answers.antt": golden("counted_answers.txt"),
        "proofs/ring/Ring/count/Proof.antt": golden("counted_proof.txt"),
        "proofs/ring/first/Invariants.antt": "first_invariants = none\n",
    }
    for name, text in texts.items():
        path = Path(folder) / name
        path.parent.mkdir(parents=True, exist_ok=True)
        path.write_text(text, encoding="utf-8")


def ring_crate(test):
    """Returns the crate `ring`, in a folder that lasts as long as a test."""
    room = tempfile.TemporaryDirectory()
    test.addCleanup(room.cleanup)
    write_ring(room.name)
    return Crate("ring", room.name)


def crate_with_page(test):
    """Returns the crate `ring` with the bodies of golden/copied.txt on its page."""
    crate = ring_crate(test)
    page = crate.folder / "must-fail/ring.md"
    page.parent.mkdir()
    page.write_text(golden("copied.txt"), encoding="utf-8")
    return crate


def tree_text(folder):
    """Returns the files of a folder as one text, each under its path."""
    paths = sorted(path for path in Path(folder).rglob("*") if path.is_file())
    return "".join(f"==== {path.relative_to(folder)}\n{path.read_text(encoding='utf-8')}" for path in paths)
