"""Tests of performance.py: which result is in which cell."""
import tempfile
import unittest

from support import write_results
from measurements import performance
from measurements.results import Unmeasured

ABACUS, ROOM = "Abacus 3, 2 processors", "`net.core.rmem_max` 4,194,304"


class Tables(unittest.TestCase):
    def setUp(self):
        room = tempfile.TemporaryDirectory()
        self.addCleanup(room.cleanup)
        self.folder = room.name

    def lines(self, part):
        return performance.parts(self.folder)[part]().splitlines()

    def test_speeds(self):
        # Each figure is its place in the table, so that none is in another's row.
        rows = {}
        for place, (_, row, name, factor) in enumerate(performance.SPEEDS):
            rows.setdefault(row, {})[name] = (place / factor, 0.25 / factor)
        write_results(self.folder, "table", rows)
        for place, (line, (what, *_)) in enumerate(zip(self.lines("speeds")[2:], performance.SPEEDS, strict=True)):
            self.assertEqual(line, f"| {what} | {place:.2f} | 0.25 |")

    def test_bursts(self):
        rows = {performance.row_of_load(*load): self.figures(place, load[4]) for place, load in enumerate(performance.LOADS)}
        write_results(self.folder, "bursts", rows)
        lines = self.lines("bursts")[2:]
        self.assertEqual(lines[0], "| G.711, 512 calls, at once | trunk, trunk | 8.00 | 0.88 | 0.0, 1.5, 20.2 | 1.00 ± 0.10 |")
        self.assertEqual(lines[1], "| G.711, 512 calls, at once | trunk, mini |  | 0.88 | 1.0, 2.5, 21.2 | 2.00 ± 0.10 |")
        self.assertEqual(lines[7], "| GSM, 10 calls, spread | mini, trunk | 8.00 | 0.88 | 7.0, 8.5, 27.2 | 8.00 ± 0.10 |")

    @staticmethod
    def figures(place, gets):
        """Returns the figures of a load, by its place."""
        entries = {"entries": (8.0, 0.0)} if gets == "trunk" else {}
        return entries | {"wire": 0.876, "p50": place, "p99": place + 1.5, "p99.9": place + 20.2, "us": (place + 1, 0.1)}

    def test_losses_are_of_all_loads_and_rounds(self):
        none = {name: 0 for _, name in performance.LOSSES}
        rows = {"one": none | {"loss %": 0.25, "dropped": 2}, "two": none | {"loss %": 0.5, "outboxes": 1 / 3, "dropped": 1}}
        write_results(self.folder, "bursts", rows)
        self.assertEqual(self.lines("losses")[2], "| 2 | 6 | 0.50 % | 9 | 1 | 0 | 0 | 0 |")

    def test_workers(self):
        rows = {
            f"{endpoints}, {sends}, {gets}, {calls}": {"loss %": calls / 64 + more, "p50": place, "p99": 2.5, "p99.9": 9.75}
            for endpoints, more in (("one each", 0), ("shared", 0.5))
            for place, (sends, gets) in enumerate(performance.WAYS)
            for calls in (128, 256, 512)
        }
        rows["shared, mini, trunk, 128"]["loss %"] = 7.0
        write_results(self.folder, "workers", rows)
        self.assertEqual(self.lines("workers")[2:], [
            "| 128, 256 | every way, at most | 4.0 | 7.0 |  |",
            "| 512 | trunk, trunk | 8.0 | 8.5 | 0.0, 2.5, 9.8 |",
            "| 512 | trunk, mini | 8.0 | 8.5 | 1.0, 2.5, 9.8 |",
            "| 512 | mini, trunk | 8.0 | 8.5 | 2.0, 2.5, 9.8 |",
            "| 512 | mini, mini | 8.0 | 8.5 | 3.0, 2.5, 9.8 |",
        ])

    def test_circumstances(self):
        for name, facts in (
            ("table", {"relay_spread": 0.104}), ("bursts", {}), ("workers", {"kernel": "6.1.3", "rounds": 5}),
            ("processor", {"relay_spread": 0.2, "seconds": 2.0, "date": "2026-02-04"}),
        ):
            write_results(self.folder, name, {}, **facts)
        lines = self.lines("circumstances")
        self.assertEqual(lines[:3], [f"{ABACUS}, Linux 6.1.{it}, {ROOM}." for it in (2, 3)] + [""])
        self.assertEqual(lines[5:], [
            "| `table.json` | 2026-02-03 | 3 | 0.5 s | 10 % |",
            "| `bursts.json` | 2026-02-03 | 3 | 0.5 s |  |",
            "| `workers.json` | 2026-02-03 | 5 | 0.5 s |  |",
            "| `processor.json` | 2026-02-04 | 3 | 2 s | 20 % |",
        ])

    def test_rates(self):
        rows = {}
        for place, rate in enumerate(performance.RATES):
            rows[f"{rate}, relay"] = {"us": (9 - place, 0.5), "ratio": 1}
            rows[f"{rate}, exchange, 2 peers"] = {"ratio": (1.5 + place, 0.05)}
            rows[f"{rate}, exchange, 32 peers, 30 silent"] = {"ratio": (1.75 + place, 0.05)}
        write_results(self.folder, "processor", rows)
        self.assertEqual(self.lines("rates")[2:], [
            "| 5,000 | 9.00 ± 0.50 | 1.500 ± 0.050 | 1.750 ± 0.050 |",
            "| 30,000 | 8.00 ± 0.50 | 2.500 ± 0.050 | 2.750 ± 0.050 |",
            "| 100,000 | 7.00 ± 0.50 | 3.500 ± 0.050 | 3.750 ± 0.050 |",
        ])

    def test_missing_results_are_named(self):
        with self.assertRaisesRegex(Unmeasured, "workers.json is missing"):
            self.lines("workers")
        write_results(self.folder, "processor", {"5,000, relay": {"ratio": 1}})
        with self.assertRaisesRegex(Unmeasured, "processor has no 'us' in the row '5,000, relay'"):
            self.lines("rates")


if __name__ == "__main__":
    unittest.main()
