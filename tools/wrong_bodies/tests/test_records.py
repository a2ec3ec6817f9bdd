"""Tests of records.py."""
import unittest

from support import crate_with_page
from wrong_bodies import records
from wrong_bodies.pages import PageError, bodies_of


class Records(unittest.TestCase):
    """The records of the crate `ring`."""

    def setUp(self):
        self.crate = crate_with_page(self)
        self.file = self.crate.folder / "refused/ring.txt"

    def write(self, text, file="ring.txt"):
        self.file.parent.mkdir(exist_ok=True)
        (self.file.parent / file).write_text(text, encoding="utf-8")

    def test_none(self):
        self.assertEqual(records.records_of(self.crate), {})
        records.check_records(self.crate)

    def test_in_the_order_of_the_page(self):
        records.write_records(self.crate, {"always_pushed": "b", "counts_none": "a", "of_no_page": "c"})
        self.assertEqual(self.file.read_text(encoding="utf-8"), "counts_none a\nalways_pushed b\n")
        self.assertEqual(records.records_of(self.crate), {"counts_none": "a", "always_pushed": "b"})
        records.check_records(self.crate)

    def test_former_records_are_removed(self):
        self.write("counts_none a\n", "another.txt")
        records.write_records(self.crate, {})
        self.assertFalse(self.file.parent.exists())

    def test_records_of_no_body(self):
        for file, name in (("ring.txt", "counted"), ("another.txt", "counts_none")):
            self.write(f"{name} a\n", file)
            with self.assertRaisesRegex(PageError, f"refused/{file} records {name}, .* run `.ci/wrong_bodies --record ring`"):
                records.check_records(self.crate)
            (self.file.parent / file).unlink()

    def test_line_that_is_none(self):
        for text in ("counts_none\n", "counts_none a b\n", "\n"):
            self.write(text)
            with self.assertRaisesRegex(PageError, "ring.txt: a line isn't a name and a digest"):
                records.records_of(self.crate)


class Draws(unittest.TestCase):
    """The bodies that a seed draws."""

    def setUp(self):
        self.crate = crate_with_page(self)
        self.bodies = bodies_of(self.crate)

    def drawn(self, seed):
        """Returns the names of the bodies that a seed draws."""
        return [body.name for body in self.bodies if records.is_drawn(seed, self.crate, body)]

    def test_one_in_four(self):
        count = sum(len(self.drawn(seed)) for seed in range(1000))
        self.assertAlmostEqual(count / (1000 * len(self.bodies)), 0.25, delta=0.02)

    def test_each_within_some_ten_seeds(self):
        never = 0
        for first in range(0, 1000, 10):
            never += not any(records.is_drawn(seed, self.crate, self.bodies[0]) for seed in range(first, first + 10))
        self.assertLess(never, 15)

    def test_the_same_again(self):
        self.assertEqual(self.drawn(7), self.drawn(7))
        self.assertNotEqual(self.drawn(7), self.drawn(8))


if __name__ == "__main__":
    unittest.main()
