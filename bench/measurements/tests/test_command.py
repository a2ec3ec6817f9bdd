"""Tests of the command: its files, its output and its status."""
import contextlib
import io
import re
import shutil
import subprocess
import sys
import tempfile
import unittest
from pathlib import Path
from types import SimpleNamespace
from unittest import mock

from support import TOP, room_of, write_results
from measurements import __main__ as command
from measurements.results import read

PAGE = "# Speed\n\n<!-- made by pages: calls -->\n<!-- end -->\n"
MADE = "# Speed\n\n<!-- made by pages: calls -->\n12.5 us\n<!-- end -->\n"


def parts(folder):
    """Returns the parts of the page."""
    return {"calls": lambda: f"{read(folder, 'speed').figure('a call', 'us').mean} us"}


class Command(unittest.TestCase):
    def setUp(self):
        room = tempfile.TemporaryDirectory()
        self.addCleanup(room.cleanup)
        self.top = room.name
        self.page = Path(room.name) / "SPEED.md"
        self.page.write_text(PAGE, encoding="utf-8")
        write_results(f"{room.name}/results", "speed", {"a call": {"us": 12.5}})
        pages = mock.patch.dict(command.PAGES, {"SPEED.md": (SimpleNamespace(parts=parts), "results")}, clear=True)
        pages.start()
        self.addCleanup(pages.stop)

    def run_with(self, *words):
        """Returns the status and what is printed."""
        printed = io.StringIO()
        with contextlib.redirect_stdout(printed), contextlib.redirect_stderr(printed):
            status = command.main([*words], self.top)
        return status, printed.getvalue()

    def test_written_page_passes(self):
        self.assertEqual(self.run_with("--write"), (0, ""))
        self.assertEqual(self.page.read_text(encoding="utf-8"), MADE)
        self.assertEqual(self.run_with("--check"), (0, ""))

    def test_changed_figure_is_noticed(self):
        self.page.write_text(MADE.replace("12.5", "12.6"), encoding="utf-8")
        self.assertEqual(self.run_with("--check"), (1, "SPEED.md, calls isn't what `bench/pages --write` makes\n"))

    def test_changed_result_is_noticed(self):
        self.page.write_text(MADE, encoding="utf-8")
        write_results(f"{self.top}/results", "speed", {"a call": {"us": 12.4}})
        self.assertEqual(self.run_with("--check")[0], 1)

    def test_check_writes_nothing(self):
        self.run_with("--check")
        self.assertEqual(self.page.read_text(encoding="utf-8"), PAGE)

    def test_missing_result_is_named(self):
        write_results(f"{self.top}/results", "speed", {"two calls": {"us": 12.5}})
        for option in "--check", "--write":
            status, printed = self.run_with(option)
            self.assertEqual(status, 1)
            self.assertIn("speed has no row 'a call'", printed)

    def test_missing_marker_is_named(self):
        self.page.write_text("# Speed\n", encoding="utf-8")
        status, printed = self.run_with("--check")
        self.assertEqual(status, 1)
        self.assertIn("'calls'", printed)

    def test_parts_are_printed(self):
        self.assertEqual(self.run_with(), (0, "SPEED.md\n<!-- made by pages: calls -->\n12.5 us\n<!-- end -->\n\n"))

    def test_unknown_words(self):
        self.assertEqual(self.run_with("--checks")[0], 2)


class Copies(unittest.TestCase):
    """The program in a copy of bench/ and docs/ alone, whose pages it reads."""

    def setUp(self):
        self.top = room_of(self)
        for name in ("bench", "docs"):
            shutil.copytree(TOP / name, self.top / name, ignore=shutil.ignore_patterns("out", "__pycache__"))

    def faults(self):
        """Returns the lines that the program prints."""
        done = subprocess.run([sys.executable, self.top / "bench/pages", "--check"], capture_output=True, text=True)
        self.assertEqual(done.stderr, "")
        return done.stdout.splitlines()

    def test_spoilt_figure_of_a_copy_is_noticed(self):
        before, page = self.faults(), self.top / "docs/PERFORMANCE.md"
        text = page.read_text(encoding="utf-8")
        row = re.search(r"^\| 4 relays to 1 \| (\d)", text, re.M)
        other = f"{(int(row.group(1)) + 1) % 10}"
        page.write_text(text[: row.start(1)] + other + text[row.end(1) :], encoding="utf-8")
        fault = "docs/PERFORMANCE.md, speeds isn't what `bench/pages --write` makes"
        self.assertEqual(self.faults(), sorted([*before, fault], key=lambda it: it != fault))


if __name__ == "__main__":
    unittest.main()
