"""Tests of measuring.py: options, the relay's spread, failures."""
import contextlib
import io
import unittest

import support  # noqa: F401
from iax_test.waits import Failed
from measurements import measuring
from measurements.results import Results, Unmeasured


def options(*words):
    """Returns the options of these words."""
    with contextlib.redirect_stderr(io.StringIO()):
        return measuring.options_of(measuring.parser_of("", 4, "NAME"), words)


class Options(unittest.TestCase):
    def test_usual_and_given(self):
        found = options()
        self.assertEqual((found.seconds, found.rounds, found.write), (1, 4, False))
        found = options("--seconds", "0.5", "--rounds", "2", "--write")
        self.assertEqual((found.seconds, found.rounds, found.write), (0.5, 2, True))

    def test_written_results_have_an_error(self):
        for words in (["--rounds", "1", "--write"], ["--rounds", "0"]):
            with self.assertRaises(SystemExit):
                options(*words)

    def test_facts(self):
        facts = measuring.begun("speed", options("--rounds", "3"), format=4).facts
        self.assertEqual((facts["rounds"], facts["seconds"], facts["format"]), (3, 1, 4))


class Spreads(unittest.TestCase):
    def noted(self, *all_series):
        """Returns the spread that is noted of these series, and what is printed."""
        found, printed = Results("speed", {}), io.StringIO()
        with contextlib.redirect_stdout(printed):
            for series in all_series:
                measuring.note_spread(found, series, "this")
        return found.fact("relay_spread"), printed.getvalue()

    def test_greatest_of_all(self):
        self.assertEqual(self.noted([10, 11], [20, 20.5], [4, 4.25])[0], 11 / 10 - 1)

    def test_warning(self):
        self.assertEqual(self.noted([100, 114])[1], "")
        printed = self.noted([100, 120, 110])[1]
        self.assertEqual(printed, "this is too busy for figures to count: the relay's runs differ by 20%\n")


class Failures(unittest.TestCase):
    def test_line_and_status(self):
        for failure in Failed, Unmeasured:
            def fails():
                raise failure("no relay")

            with self.assertRaises(SystemExit) as ended:
                measuring.run("table", fails)
            self.assertEqual(ended.exception.code, "table: no relay")


if __name__ == "__main__":
    unittest.main()
