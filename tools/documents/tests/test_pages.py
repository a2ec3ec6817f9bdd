"""Tests of the parts of pages: sections, tables, sentences, links and quantities."""
import sys
import unittest
from pathlib import Path

sys.path.insert(0, str(Path(__file__).resolve().parents[2]))

from documents import links, pages, quantities  # noqa: E402

TEXT = """# A page

Ends here. A leg holds 1 to 127 frames; a file has mode 0640.

## Sizes

| What | Most |
|---|---|
| body of a request | 4,096 octets |
| a `|` in a cell \\| and more | ten seconds |

    a block with 5 octets

### Below

Rest.

## Sizes

Again.
"""


class Parts(unittest.TestCase):
    def test_section_ends_at_its_level(self):
        section = pages.section_of(TEXT, "## Sizes")
        self.assertIn("Rest.", section)
        self.assertNotIn("Again.", section)
        self.assertEqual(pages.section_of(TEXT, "## Missing"), "")

    def test_rows_have_no_head(self):
        rows = pages.rows_of(TEXT)
        self.assertEqual(rows[0], ["body of a request", "4,096 octets"])
        self.assertEqual(len(rows), 2)

    def test_escaped_bars_stay_in_a_cell(self):
        self.assertEqual(pages.cells_of("| a \\| b | c |"), ["a \\| b", "c"])

    def test_sentences_and_rows_without_blocks(self):
        found = [TEXT[it.start : it.end].strip() for it in pages.sentences_of(TEXT)]
        self.assertIn("Ends here.", found)
        self.assertIn("| body of a request | 4,096 octets |", found)
        self.assertFalse([it for it in found if "a block" in it])

    def test_sentences_know_their_heading(self):
        row = next(it for it in pages.sentences_of(TEXT) if "4,096" in TEXT[it.start : it.end])
        self.assertEqual(row.heading, "## Sizes")

    def test_blocks(self):
        self.assertEqual(pages.blocks_of(TEXT), ["a block with 5 octets"])


class Quantities(unittest.TestCase):
    def found(self, text):
        """Returns the values and units of a text's quantities."""
        return [(it.values, it.unit) for it in quantities.quantities_of("docs/X.md", text)]

    def test_ranges_sizes_and_words(self):
        self.assertEqual(self.found(TEXT), [((1, 127), "range"), ((4096,), "octets"), ((10_000,), "ms")])

    def test_units_are_scaled(self):
        self.assertEqual(self.found("At most 16 MiB, and 2^48 octets."), [((16 << 20,), "octets"), ((1 << 48,), "octets")])

    def test_words_between_number_and_unit(self):
        self.assertEqual(self.found("It has 32 hexadecimal digits."), [((32,), "digits")])
        self.assertEqual(self.found("In versions 1 and 2 these include digits."), [])

    def test_place_and_mark(self):
        text = "A body has 4,096 octets."
        it = quantities.quantities_of("docs/X.md", text)[0]
        self.assertEqual(text[it.start : it.end], "4,096")
        self.assertIn("a body has # octets.", it.marked)

    def test_octets_in_hexadecimal(self):
        self.assertEqual(self.found("An octet 0x21 to 0x7e."), [((0x21, 0x7E), "values")])


class Links(unittest.TestCase):
    def test_anchors_as_github_has_them(self):
        self.assertEqual(links.anchor_of("GET /calls, GET /calls/\\<number\\>"), "get-calls-get-callsnumber")
        self.assertEqual(links.anchor_of("`refused Control`"), "refused-control")
        self.assertEqual(links.anchors_of(TEXT), ["a-page", "sizes", "below", "sizes-1"])

    def test_targets_are_below_the_repository(self):
        self.assertEqual(links.target_of("docs/CLI.md", "../contrib/plan.toml"), ("contrib/plan.toml", ""))
        self.assertEqual(links.target_of("docs/CLI.md", "#run"), ("docs/CLI.md", "run"))


if __name__ == "__main__":
    unittest.main()
