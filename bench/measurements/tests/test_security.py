"""Tests of security.py: which result is in which cell; and that it has the floods of the scene."""
import unittest

from support import FACTS, room_of
import floods
from measurements import security
from measurements.results import Results, Unmeasured


class Tables(unittest.TestCase):
    def setUp(self):
        self.folder = room_of(self)

    def lines(self):
        return security.parts(self.folder)["floods"]().splitlines()

    def test_floods(self):
        rows = {"a promise": {"is_kept": True}, security.ALONE: {"p50": 0.251, "p99": 1.5, "p99.9": 20.25}}
        for place, (name, _) in enumerate(security.FLOODS, 1):
            rows[name] = {"a second": 1250 * place, "p50": place, "p99": place + 0.5, "p99.9": 100 * place + 2}
        Results("floods", FACTS, rows).write(self.folder)
        lines = self.lines()[2:]
        self.assertEqual(lines[0], "| none |  | 0.25, 1.5, 20 |")
        self.assertEqual(lines[1], f"| {security.FLOODS[0][1]} | 1,200 | 1.0, 1.5, 100 |")
        self.assertEqual(lines[12], f"| {security.FLOODS[11][1]} | 15,000 | 12, 12, 1,200 |")
        self.assertEqual(len(lines), 13)

    def test_missing_flood_is_named(self):
        Results("floods", FACTS, {security.ALONE: {"p50": 1, "p99": 1, "p99.9": 1}}).write(self.folder)
        with self.assertRaisesRegex(Unmeasured, "floods has no row 'random'"):
            self.lines()

    def test_floods_are_those_of_the_scene(self):
        self.assertEqual([name for name, _ in security.FLOODS], [it.name for it in floods.KINDS])
        self.assertEqual(security.ALONE, floods.ALONE)


if __name__ == "__main__":
    unittest.main()
