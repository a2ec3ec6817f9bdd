"""Tests of spoiling: how a statement is spoilt, whether a check notices it, and that nothing else changes."""
import random
import sys
import tempfile
import unittest
from pathlib import Path

sys.path.insert(0, str(Path(__file__).resolve().parents[2]))

from documents import kinds, spoiling  # noqa: E402
from documents.checks import by_page  # noqa: E402
from documents.pages import FILES, FOLDERS, Documents  # noqa: E402
from documents.report import Report  # noqa: E402
from documents.spoiling import Statement, other_name, other_number, spoilt  # noqa: E402

TEXT = "The window is 64, and the limit 1,388 octets.\n"


def written(folder):
    """Writes documents with one page, and returns their folder."""
    for name in FOLDERS:
        (Path(folder) / name).mkdir()
    for name in FILES:
        (Path(folder) / name).write_text("", encoding="ascii")
    (Path(folder) / "bench/README.md").write_text("", encoding="ascii")
    (Path(folder) / "docs/PAGE.md").write_text(TEXT, encoding="ascii")
    return folder


def windows(documents):
    """Finds the window of the page."""
    return [Statement("docs/PAGE.md", 14, "64")] if documents.has("docs/PAGE.md") else []


def octets(documents):
    """Finds the limit of the page."""
    return [Statement("docs/PAGE.md", TEXT.index("1,388"), "1,388")] if documents.has("docs/PAGE.md") else []


def check_window(documents, page):
    """Returns a fault unless the window is 64."""
    return [] if "window is 64" in documents.text(page) else ["another window"]


KINDS = (kinds.Kind("a window", windows), kinds.Kind("a limit", octets))
CHECKS = (by_page("the window", check_window, lambda page: page == "docs/PAGE.md"),)


class Texts(unittest.TestCase):
    def test_numbers_are_others_in_their_form(self):
        for seed in range(50):
            rng = random.Random(seed)
            self.assertNotEqual(other_number("1,388", rng), "1,388")
            self.assertRegex(other_number("65,536", rng), r"^\d{1,3}(,\d{3})+$")
            self.assertRegex(other_number("0x2e", rng), r"^0x[0-9a-f]{2}$")
            self.assertNotEqual(other_number("0", rng), "0")

    def test_names_are_others(self):
        for seed in range(50):
            self.assertNotEqual(other_name("number", random.Random(seed)), "number")

    def test_a_range_has_another_bound(self):
        for seed in range(20):
            low, _, high = spoilt(Statement("p", 0, "1 to 127"), random.Random(seed)).partition(" to ")
            self.assertNotEqual((low, high), ("1", "127"))
            self.assertIn(1, (int(low) == 1, int(high) == 127))

    def test_other_words_are_drawn(self):
        self.assertEqual(spoilt(Statement("p", 0, "true", ("true", "false")), random.Random(1)), "false")


class Copies(unittest.TestCase):
    def spoil(self, folder, how):
        """Spoils by the kinds above. Returns the counts by kind and the report."""
        report = Report(prints=False)
        return spoiling.spoil(folder, CHECKS, KINDS, how, 3, report), report

    def test_what_nothing_notices_is_a_fault(self):
        with tempfile.TemporaryDirectory() as folder:
            counts, report = self.spoil(written(folder), "all")
        self.assertEqual(counts, {"a window": (1, 1), "a limit": (1, 0)})
        self.assertEqual((report.passed, report.failed), (1, 1))
        self.assertIn('a limit, docs/PAGE.md:1: "1,388" as', report.faults[0])

    def test_the_documents_stay(self):
        with tempfile.TemporaryDirectory() as folder:
            self.spoil(written(folder), "all")
            self.assertEqual(Documents(folder).text("docs/PAGE.md"), TEXT)

    def test_known_faults_notice_nothing(self):
        with tempfile.TemporaryDirectory() as folder:
            written(folder)
            (Path(folder) / "docs/PAGE.md").write_text(TEXT.replace("64", "65"), encoding="ascii")
            counts, _ = self.spoil(folder, "all")
        self.assertEqual(counts["a window"], (1, 0))

    def test_a_few_are_drawn_by_the_seed(self):
        with tempfile.TemporaryDirectory() as folder:
            documents = Documents(written(folder))
            drawn = [spoiling.drawn(KINDS, documents, 1, seed)[0][0].name for seed in range(20)]
        self.assertEqual(set(drawn), {"a window", "a limit"})


class Kinds(unittest.TestCase):
    def test_each_kind_finds_statements_where_it_says(self):
        documents = Documents()
        for kind in kinds.KINDS:
            if kind.name in ("a figure of a measurement",):
                continue
            found = kind.find(documents)
            self.assertGreater(len(found), 5, kind.name)
            for it in found:
                self.assertTrue(documents.text(it.page).startswith(it.text, it.start), f"{kind.name}: {it}")


if __name__ == "__main__":
    unittest.main()
