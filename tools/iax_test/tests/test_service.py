"""Tests of service.py, with a program in place of the exchange."""
import sys
import tempfile
import unittest
from pathlib import Path
from unittest import mock

import support  # noqa: F401
from iax_test import service
from iax_test.service import Service
from iax_test.waits import Failed

# It answers each request with its words, and ends after a stop, with the status that its plan's name has.
PROGRAM = """
import json, os, socket, sys
plan, path = sys.argv[2], sys.argv[4]
print("begins", os.environ.get("MARK"), file=sys.stderr, flush=True)
if plan == "none":
    sys.exit("no plan")
listener = socket.socket(socket.AF_UNIX)
listener.bind(path)
listener.listen()
while True:
    client, _ = listener.accept()
    asked = client.recv(65536).split()
    client.sendall(b"HTTP/1.1 200 OK\\r\\n\\r\\n" + json.dumps(sys.argv[1:]).encode())
    client.close()
    if asked[1] == b"/stop" and plan != "endless":
        print("octets 0 0 0 0")
        sys.exit(int(plan))
"""


class Services(unittest.TestCase):
    """A service that is started, asked and stopped."""

    def setUp(self):
        room = tempfile.TemporaryDirectory()
        self.addCleanup(room.cleanup)
        self.room = Path(room.name)
        (self.room / "program.py").write_text(PROGRAM, encoding="utf-8")
        change = mock.patch.object(service, "PROGRAM", [sys.executable, str(self.room / "program.py")])
        change.start()
        self.addCleanup(change.stop)

    def started(self, plan, *options, **how):
        """Returns a service with this plan."""
        started = Service(plan, str(self.room / "control"), *options, log=str(self.room / "log"), **how)
        self.addCleanup(started.kill)
        return started

    def test_asked_and_stopped(self):
        running = self.started("3", "--drain", "1", environment={"MARK": "x"})
        self.assertEqual(running.ask("GET", "/"), ["run", "3", "--control", running.path, "--drain", "1"])
        running.ask("POST", "/stop")
        self.assertEqual(running.ended(), (3, "octets 0 0 0 0\n"))
        self.assertIsNone(running.ask("GET", "/", seconds=1))
        self.assertEqual(running.logged(), "begins x\n")

    def test_that_ends_at_once(self):
        with self.assertRaisesRegex(Failed, "has ended with status 1: '': begins None\nno plan"):
            self.started("none")

    def test_that_does_not_end(self):
        running = self.started("endless")
        with self.assertRaisesRegex(Failed, "doesn't end"):
            running.ended(0.1)
        self.assertIsNotNone(running.process.poll())


if __name__ == "__main__":
    unittest.main()
