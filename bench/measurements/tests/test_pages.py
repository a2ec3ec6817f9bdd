"""Tests of pages.py: parts, tables, numbers."""
import unittest

import support  # noqa: F401
from measurements import pages
from measurements.results import Figure

PAGE = """# Speed

Before.

<!-- made by pages: one -->
| old |
<!-- end -->

Between.

<!-- made by pages: two -->
<!-- end -->
After.
"""
PARTS = {"one": lambda: "| new |", "two": lambda: "a line\n\n| a |"}
MADE = PAGE.replace("| old |", "| new |").replace("two -->\n", "two -->\na line\n\n| a |\n")


class Parts(unittest.TestCase):
    def test_parts_are_made_and_the_rest_stays(self):
        self.assertEqual(pages.made("Speed", PAGE, PARTS), MADE)

    def test_made_page_stays(self):
        self.assertEqual(pages.made("Speed", MADE, PARTS), MADE)
        self.assertEqual(pages.differing("Speed", MADE, PARTS), [])

    def test_differing_parts_are_named(self):
        self.assertEqual(pages.differing("Speed", PAGE, PARTS), ["Speed, one", "Speed, two"])
        self.assertEqual(pages.differing("Speed", MADE.replace("| new |", "| n3w |"), PARTS), ["Speed, one"])

    def test_blank_that_is_added(self):
        self.assertEqual(pages.differing("Speed", MADE.replace("| a |", "| a | "), PARTS), ["Speed, two"])

    def test_faults_of_markers(self):
        for text, parts, fault in (
            (PAGE, {"one": PARTS["one"]}, "'two' is there 1 times, and should be 0"),
            (PAGE, PARTS | {"three": PARTS["one"]}, "'three' is there 0 times, and should be 1"),
            (PAGE.replace(": two", ": one"), PARTS, "'one' is there 2 times"),
            (PAGE.replace("<!-- end -->\nAfter.\n", "After.\n"), PARTS, "2 parts begin, 1 end"),
            (PAGE.replace("| old |\n<!-- end -->\n", "| old |\n"), PARTS, "2 parts begin, 1 end, and 1 have"),
            (PAGE + "<!-- end -->\n", PARTS, "2 parts begin, 3 end"),
        ):
            with self.assertRaisesRegex(pages.Unmade, f"Speed: .*{fault}"):
                pages.made("Speed", text, parts)


class Cells(unittest.TestCase):
    def test_table(self):
        self.assertEqual(pages.table(("a", "b"), [(1, ""), ("x", 2)]), "| a | b |\n|---|---|\n| 1 |  |\n| x | 2 |")

    def test_rounded(self):
        for number, digits, wanted in (
            (0, 3, "0"), (0.88, 3, "0.880"), (4.4449, 3, "4.44"), (43.5, 3, "43.5"), (99.96, 3, "100"), (999.6, 3, "1,000"),
            (1234567, 3, "1,230,000"), (9523.8, 2, "9,500"), (0.0024, 2, "0.0024"), (-1.26, 2, "-1.3"), (10, 2, "10"),
        ):
            self.assertEqual(pages.rounded(number, digits), wanted)

    def test_error_has_two_digits_and_the_mean_as_many_decimals(self):
        for mean, error, wanted in (
            (0.88012, 0.0333, ("0.880", "0.033")), (4.4444, 0.17, ("4.44", "0.17")), (43.51, 0.996, ("43.5", "1.0")),
            (1234.5, 56.7, ("1,234", "57")), (123456, 2345, ("123,500", "2,300")), (0.5, 0.25, ("0.50", "0.25")),
        ):
            self.assertEqual(pages.with_error(Figure(mean, error)), wanted)

    def test_mean_has_four_digits_at_most(self):
        for mean, error, wanted in (
            (8.5623, 0.0069, ("8.562", "0.007")), (193.93, 0.23, ("193.9", "0.2")), (5.166, 0.0004, ("5.17", "")),
            (9999.7, 1.25, ("10,000", "")), (0.0, 0.25, ("0.00", "0.25")),
        ):
            self.assertEqual(pages.with_error(Figure(mean, error)), wanted)

    def test_mean_without_an_error(self):
        self.assertEqual(pages.with_error(Figure(3.77, None)), ("3.77", ""))
        self.assertEqual(pages.with_error(Figure(8.0, 0.0)), ("8.00", ""))
        self.assertEqual(pages.plus_minus(Figure(8.0, 0.0)), "8.00")

    def test_plus_minus(self):
        self.assertEqual(pages.plus_minus(Figure(1.36, 0.054)), "1.360 ± 0.054")

    def test_scaled(self):
        self.assertEqual(pages.scaled(Figure(4, 0.5), 100), Figure(400, 50))
        self.assertEqual(pages.scaled(Figure(4, None), 100), Figure(400, None))


if __name__ == "__main__":
    unittest.main()
