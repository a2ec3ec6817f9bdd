"""Tests of endurance.py: which value is in which cell; and of the values that a scene's report keeps."""
import contextlib
import io
import tempfile
import unittest

from support import FACTS
from exchange import Report
from measurements import endurance
from measurements.results import Results, Unmeasured

PLACE = "Abacus 3, 2 processors, Linux 6.1.2, `net.core.rmem_max` 4,194,304."


class Reports(unittest.TestCase):
    def test_named_values_by_promise(self):
        report = Report("flood")
        with contextlib.redirect_stdout(io.StringIO()):
            report.tell("calls end", True, "at once", calls=3, first=[])
            report.tell("calls end", False, calls=4)
            report.tell("memory stays", 1 > 0, at_most="5 KB")
        self.assertEqual(report.promises, {
            "calls end": {"is_kept": True, "calls": 3},
            "calls end (part 2)": {"is_kept": False, "calls": 4},
            "memory stays": {"is_kept": True, "at_most": "5 KB"},
        })
        self.assertEqual((report.count, report.broken), (3, 1))


class Tables(unittest.TestCase):
    def setUp(self):
        room = tempfile.TemporaryDirectory()
        self.addCleanup(room.cleanup)
        self.folder = room.name

    def write_scenes(self, broken="", **facts):
        """Writes results of all scenes: each value is 1,000 and its place. One promise of all scenes may be broken."""
        for name, seen in endurance.SEEN.items():
            rows = {"the accounts balance": {"is_kept": True}, "a storm": {"cut": 3}}
            for place, (promise, value, _) in enumerate(seen):
                rows.setdefault(promise, {"is_kept": promise != broken})[value] = 1000 + place
            Results(name, FACTS | {"seconds": 61} | facts.get(name, {}), rows).write(self.folder)

    def lines(self, part):
        return endurance.parts(self.folder)[part]().splitlines()

    def test_scenes(self):
        self.write_scenes("the exchange took a flood", flood={"seconds": 3421, "date": "2026-02-04"})
        lines = self.lines("scenes")
        self.assertEqual(lines[0], "2026-02-03, 2026-02-04: " + PLACE)
        seen = "1,000 calls; 1,001 digits; 1,002 datagrams lost; 1,003 repeated"
        self.assertEqual(lines[4], f"| `two_sites` | 61 s | 4 | {seen} |")
        seen = "1,000 datagrams; 1,001 calls; 1,002 frames of media lack; broken: the exchange took a flood"
        self.assertEqual(lines[6], f"| `flood` | 57 min | 3 of 4 | {seen} |")
        self.assertEqual(len(lines), 4 + len(endurance.SEEN))

    def test_each_machine_is_named(self):
        self.write_scenes(churn={"processor": "Abacus 4"})
        self.assertEqual(self.lines("scenes")[:2], [f"2026-02-03: {it}" for it in (PLACE, PLACE.replace("Abacus 3", "Abacus 4"))])

    def test_missing_value_is_named(self):
        self.write_scenes()
        rows = {"what isn't authenticated holds little": {"calls": 1}}
        Results("fill", FACTS, rows).write(self.folder)
        with self.assertRaisesRegex(Unmeasured, "fill has no 'frames' in the row .what isn't authenticated"):
            self.lines("scenes")

    def test_storms(self):
        rows = {}
        for place, (_, how, all_vnak_ms) in enumerate(endurance.STORMS):
            for vnak_ms in all_vnak_ms:
                rows[f"loss {how}, vnak_ms {vnak_ms}"] = {"a second": 100.0 + place, "for each": 2.25 + vnak_ms, "cut": place}
        Results("storms", FACTS, rows).write(self.folder)
        lines = self.lines("storms")[2:]
        self.assertEqual(lines[0], f"| {endurance.STORMS[0][0]} | none | 100 | 2.2 | 0 |")
        self.assertEqual(lines[2], "|  | 60 | 101 | 62 | 1 |")
        self.assertEqual(len(lines), 11)


if __name__ == "__main__":
    unittest.main()
