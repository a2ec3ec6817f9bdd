"""Tests of capacity.py: the reckoning, by results whose sums are easily done by hand."""
import tempfile
import unittest

from support import write_results
from measurements import capacity
from measurements.results import Unmeasured

US = {"trunk, trunk": 1.0, "trunk, mini": 3.0, "mini, mini": 5.0}
TABLE = {
    "set-up and end of a call": {"us": (60.0, 1.0)},
    "set-up and end of a call, MD5 on both legs": {"us": (90.0, 2.0)},
    "set-up of a call": {"KB": (12.0, 0.5)},
    "row of the call records": {"us": (14.0, 2.0), "octets": (210.0, 0.0)},
    "PING and PONG of a leg": {"us": (20.0, 1.0)},
    "idle service": {"percent of a processor": 0.1, "wake-ups a second": 50.0, "KB": 4000.0},
    "reserved memory": {"KB of a peer": 716.4, "KB of --calls": 52_800.0, "KB of a worker": 5_890.0},
    "4,096 legs at rest": {"percent of a processor": 0.2},
    "4 workers to 1, 100 calls each": {"ratio": (3.75, 0.15)},
    "trace of voice": {"octets a frame": 400.0},
}


class Tables(unittest.TestCase):
    def setUp(self):
        room = tempfile.TemporaryDirectory()
        self.addCleanup(room.cleanup)
        self.folder = room.name
        bursts = {
            f"{way}, 160, 512, {apart}": {"us": (us * factor, us / 10), "wire": 0.875}
            for way, us in US.items()
            for apart, factor in (("at once", 1), ("spread", 2))
        }
        write_results(self.folder, "bursts", bursts | {"trunk, trunk, 33, 512, at once": {"wire": 0.58}})
        write_results(self.folder, "table", TABLE)

    def lines(self, part):
        """Returns the lines of a part, without the head of its table."""
        return capacity.parts(self.folder)[part]().splitlines()[2:]

    def test_limits(self):
        self.assertEqual(self.lines("limits")[2], "| legs of an exchange | 16,384, so 8,192 joined calls |")

    def test_processor(self):
        # 512 calls are 51,200 frames a second: a microsecond for each is 5.12 %. 100 frames of 1 us are 100 us: 10,000 calls.
        lines = self.lines("processor")
        self.assertEqual(lines[0], "| trunk, trunk | at once | 1.00 ± 0.10 | 5.12 ± 0.51 | 10,000 |")
        self.assertEqual(lines[2], "| trunk, mini | at once | 3.00 ± 0.30 | 15.4 ± 1.5 | 3,300 |")
        self.assertEqual(len(lines), 5)

    def test_others(self):
        lines = self.lines("others")
        self.assertEqual(lines[1], "| .. with MD5 on both legs | 90.0 ± 2.0 us |")
        # 16,384 legs are four times 4,096, each of which adds 0.1 % to the idle 0.1 %; 819.2 PINGs of 20 us are 1.64 %.
        self.assertEqual(lines[5], "| reckoned: 16,384 legs at rest, a PING each 20 s | 2.1 % of a processor |")
        self.assertEqual(lines[6], "| 4 workers | 3.75 ± 0.15 times the frames of one |")

    def test_memory(self):
        # An hour is 60 times 38 entries of 24 octets: 54,720 octets, for each of two legs.
        self.assertEqual(self.lines("memory"), [
            "| an idle service with two peers | 4.0 MB |",
            "| reserved for a peer | 0.72 MB |",
            "| reserved for `--calls` | 53 MB, and 5.9 MB for each further worker |",
            "| a call at its set-up | 12.00 ± 0.50 KB |",
            "| reckoned: a call that talks, each hour | 110 KB |",
        ])

    def test_disk_and_network(self):
        # 192 octets 50 times a second are 76.8 kbit/s. 10,000 frames of 400 octets are 4 MB.
        self.assertEqual(self.lines("disk and network"), [
            "| a call's two rows | 420 octets; a million calls 420 MB |",
            "| a trace of 100 calls of voice | 4.0 MB a second |",
            "| a way of a call, mini frames | 76.8 kbit/s; a call has two in and two out |",
            "| full trunk frames, to that | G.711 0.88, GSM 0.58 |",
        ])

    def test_reckoning(self):
        rows = dict(line.strip("| ").split(" | ", 1) for line in self.lines("reckoning")[2:])
        self.assertEqual(rows, {
            # 10,000 / 4,096 is 2.4; 1,000,000 / 4,096 is 244.1.
            "exchanges": "3 | 25 | 245",
            # 100 frames of 1 us, and of 10 us.
            "processors, trunk frames at once": "1.0 | 10 | 100",
            "processors, mini frames spread": "10 | 100 | 1,000",
            # 10,000 / 180.
            "set-ups a second": "55.6 | 556 | 5,560",
            # 55.6 times 90 us.
            "processors for calls with MD5": "0.0050 | 0.050 | 0.50",
            # 12 KB and two records of three minutes, of 2.736 KB each: 17.47 KB.
            "memory for calls, GB": "0.17 | 1.7 | 17",
            # Two streams of 76.8 kbit/s times 0.875: 134.4 kbit/s.
            "network each way, trunk frames, Gbit/s": "1.3 | 13 | 130",
            # 480 calls a day of 420 octets: 0.2016 MB.
            "call records a day, GB": "2.0 | 20 | 200",
        })

    def test_assumptions(self):
        # 4,096 calls are 409,600 frames a second.
        text = capacity.parts(self.folder)["reckoning"]().splitlines()[0]
        self.assertIn("4,096 calls an exchange", text)
        self.assertIn("takes 41 % of a processor", text)

    def test_missing_result_is_named(self):
        write_results(self.folder, "table", {row: figures for row, figures in TABLE.items() if row != "trace of voice"})
        with self.assertRaisesRegex(Unmeasured, "table has no row 'trace of voice'"):
            capacity.parts(self.folder)["disk and network"]()


if __name__ == "__main__":
    unittest.main()
