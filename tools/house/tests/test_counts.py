"""Tests of counts.py and report.py: units, sums, and places that are too long."""
import unittest

from support import SOURCE, crate_file, of
from house import report
from house.counts import counts_of, rounded

LONG = "x" * 131


def long_function(name, length):
    """Returns a Python function with a body of so many lines."""
    return f"def {name}():\n" + "".join(f"    {name}_{it} = {it}\n" for it in range(length))


FILES = [
    of("crates/list/src/list.rt", SOURCE),
    crate_file("list/specs/List.antt", "-- A list.", LONG),
    crate_file("list/proofs/Sums.antt", "one", "two", "three"),
    crate_file("list/proofs/laws/kept/Answers.antt", "one", "two"),
    crate_file("other/src/lib.rt", "fn one() {}"),
    of("tools/a.py", long_function("first", 41) + long_function("second", 40)),
    of("bench/b.py", "# A line.\n" * 401),
    of("contrib/c.json", "1\n" * 500 + f"{LONG}\n" * 2),
    crate_file("unlisted/src/lib.rt", "fn one() {}"),
]


class Counts(unittest.TestCase):
    def setUp(self):
        self.counts = counts_of(FILES, ["list", "other"])

    def test_a_crate(self):
        found = self.counts.units["list"]
        self.assertEqual(dict(found.lines), {"src": 43, "specs": 2, "proofs": 5})
        self.assertEqual((found.laws, found.clauses, found.functions), (2, 3, 6))
        self.assertEqual((found.longest_file, found.longest_function, found.longest_line, found.parameters), (43, 5, 131, 4))
        self.assertAlmostEqual(found.proofs_to_source(), 3 / 43)
        self.assertAlmostEqual(found.proofs_to_source(with_laws=True), 5 / 43)

    def test_working_crates(self):
        counts = counts_of([], ["laws_of_lists", "list"])
        self.assertEqual([it.name for it in counts.units.values() if it.is_working()], ["list"])

    def test_in_all(self):
        found = self.counts.in_all()
        self.assertEqual(dict(found.lines), {"src": 44, "specs": 2, "proofs": 5})
        self.assertEqual((found.functions, found.longest_function, found.longest_file), (9, 41, 401))
        self.assertEqual([it.name for it in self.counts.crates()], ["list", "other"])

    def test_long_places(self):
        self.assertEqual(self.counts.long_functions, {"tools/a.py first": 41})
        self.assertEqual(self.counts.long_files, {"bench/b.py": 401})
        self.assertEqual(self.counts.long_lines, {"crates/list/specs/List.antt": 1, "contrib/c.json": 2})

    def test_ratios_are_rounded_up(self):
        self.assertEqual([rounded(it) for it in (0, 0.01, 0.1, 1.0, 1.0001, 0.3 - 0.2)], [0, 0.1, 0.1, 1.0, 1.1, 0.1])

    def test_table(self):
        lines = report.table_of(self.counts)
        self.assertEqual(len({len(line) for line in lines[:-1]}), 1)
        self.assertEqual(lines[1].split(), "list 43 2 5 2 0.07 0.12 3 6 43 5 131 4 0".split())
        self.assertTrue(lines[-1].startswith("2 crates, 0 pairs of places that say the same, 3 lines over 130"))

    def test_places(self):
        twice = [of("tools/a.py", "".join(f"a{it} = b{it}\n" for it in range(6)) * 2)]
        self.assertEqual(report.places_of(counts_of(twice, [])), ["pair: tools/a.py:1 ~ tools/a.py:7, 6 lines"])
        self.assertEqual(
            report.places_of(self.counts),
            [
                "function: tools/a.py first, 41 lines",
                "file: bench/b.py, 401 lines",
                "lines: contrib/c.json, 2 over 130 characters",
                "lines: crates/list/specs/List.antt, 1 over 130 characters",
            ],
        )


if __name__ == "__main__":
    unittest.main()
