"""Tests of waits.py and ports.py."""
import socket
import tempfile
import time
import unittest

import support  # noqa: F401
from iax_test import ports, waits


class Within(unittest.TestCase):
    """A wait for a condition."""

    def test_returns_what_was_found(self):
        found = iter([0, "", "what"])
        self.assertEqual(waits.within("a thing", 5, lambda: next(found)), "what")

    def test_fails_by_name(self):
        begun = time.monotonic()
        with self.assertRaisesRegex(waits.Failed, "^a thing: not within 0.1 s$"):
            waits.within("a thing", 0.1, lambda: None)
        self.assertLess(time.monotonic() - begun, 5)


class Becomes(unittest.TestCase):
    """A wait for a value."""

    def test_waits_for_it(self):
        found = iter([[], ["first"], ["first", "second"], []])
        waits.becomes("lines", lambda: next(found), ["first", "second"], 5)
        self.assertEqual(next(found), [])

    def test_fails_with_what_was_seen(self):
        begun = time.monotonic()
        with self.assertRaisesRegex(waits.Failed, r"^lines: \['another'\], not \['first'\] within 0.1 s$"):
            waits.becomes("lines", lambda: ["another"], ["first"], 0.1)
        self.assertLess(time.monotonic() - begun, 5)

    def test_looks_once_though_it_is_late(self):
        waits.becomes("a number", lambda: 1, 1, -1)


class Ports(unittest.TestCase):
    """Ports of loopback."""

    def test_bound(self):
        with socket.socket(socket.AF_INET, socket.SOCK_DGRAM) as bound:
            bound.bind((ports.LOOPBACK, 0))
            port = bound.getsockname()[1]
            self.assertTrue(waits.is_bound(port))
            self.assertFalse(ports.is_spare(port))
        self.assertFalse(waits.is_bound(port))
        self.assertTrue(ports.is_spare(port))

    def test_spare_port_of_the_system(self):
        self.assertTrue(ports.is_spare(ports.spare_port_of_system(socket.SOCK_STREAM), socket.SOCK_STREAM))


class Lines(unittest.TestCase):
    """A text in a file."""

    def test_written(self):
        with tempfile.NamedTemporaryFile("w", encoding="utf-8") as file:
            file.write("first\nsecond\n")
            file.flush()
            self.assertTrue(waits.is_written(file.name, "second"))
            self.assertFalse(waits.is_written(file.name, "third"))


if __name__ == "__main__":
    unittest.main()
