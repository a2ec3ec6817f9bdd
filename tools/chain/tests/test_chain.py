"""Tests of chain without the prover: the longest chain, times of processes, what is kept, and lines."""
import contextlib
import io
import sys
import tempfile
import unittest
from pathlib import Path
from types import SimpleNamespace
from unittest import mock

sys.path.insert(0, str(Path(__file__).resolve().parents[2]))

from chain import __main__ as command  # noqa: E402
from chain import longest, times, watching  # noqa: E402
from chain.watching import Task  # noqa: E402
from wrong_bodies.crates import crates_in  # noqa: E402

ROWS = "call_auth: md5\nlow:\nleft: low\nright: low call_auth\nhigh: left right\n"
SECONDS = {Task("call_auth"): 10.0, Task("low"): 5.0, Task("left"): 30.0, Task("right"): 20.0, Task("high"): 8.0}
PRINTED = "== low\nrt: low proved\nrt: low: its tests are proved\nrt: left NOT PROVED\nrt: right is kept: it\n  rt: high proved\n"


class Chains(unittest.TestCase):
    """The chain that takes the longest."""

    def setUp(self):
        self.crates = crates_in(ROWS, "crates")

    def names(self, seconds):
        """Returns the names of the tasks of the longest chain."""
        return [task.name() for task in longest.longest_chain(self.crates, seconds)]

    def test_longest(self):
        self.assertEqual(self.names(SECONDS), ["low", "left", "high"])
        self.assertEqual(self.names(SECONDS | {Task("call_auth"): 40.0}), ["call_auth", "right", "high"])

    def test_tests_wait_for_the_crates_below(self):
        self.assertEqual(self.names(SECONDS | {Task("left", True): 20.0}), ["low", "left", "high"])
        self.assertEqual(self.names(SECONDS | {Task("left", True): 50.0}), ["low", "left (tests)"])

    def test_without_times(self):
        self.assertEqual(self.names({}), [])
        self.assertEqual(self.names({Task("left"): 1.0}), ["left"])


class Processes(unittest.TestCase):
    """The processes that prove, in a made-up /proc."""

    def setUp(self):
        room = tempfile.TemporaryDirectory()
        self.addCleanup(room.cleanup)
        self.proc = Path(room.name) / "proc"
        self.crates = Path(room.name) / "crates"
        change = mock.patch.object(watching, "PROC", self.proc)
        change.start()
        self.addCleanup(change.stop)
        self.add("self", "", "", 0)

    def add(self, number, words, folder, ticks):
        """Adds a process with the words of its command, its folder, and its user time."""
        process = self.proc / number
        process.mkdir(parents=True, exist_ok=True)
        (process / "cmdline").write_bytes(words.replace(" ", "\0").encode())
        (process / "cwd").unlink(missing_ok=True)
        (process / "cwd").symlink_to(self.crates / folder)
        (process / "stat").write_text(f"{number} (a (b) c) S 1 1 1 0 -1 4 0 0 0 0 {ticks} 50 7 3 20 0\n", encoding="utf-8")

    def test_of_this_checkout_alone(self):
        self.add("1", "/kit/bin/rattle build --crate-name low src/lib.rt", "low", 40)
        self.add("2", "/kit/bin/rattle check --crate-name low src/lib.rt --test", "low", 140)
        self.add("3", "/kit/bin/rattle check --crate-name low src/lib.rt", "/tmp/copy", 40)
        self.add("4", "/kit/bin/rattle check --crate-name low --incremental out", "low", 40)
        self.add("5", "/kit/bin/rattle fmt", "low", 40)
        self.add("6", "/bin/sleep --crate-name low", "low", 40)
        with mock.patch.object(watching, "TICKS", 100):
            found = sorted(watching.provers(self.crates))
        self.assertEqual(found, [("1", Task("low"), 1.0), ("2", Task("low", True), 2.0)])

    def test_last_look_at_each_process(self):
        self.add("1", "/kit/bin/rattle check --crate-name low", "low", 40)
        rounds = iter(range(3))

        def go_on():
            number = next(rounds)
            if number == 1:
                self.add("1", "/kit/bin/rattle check --crate-name low", "low", 240)
                self.add("2", "/kit/bin/rattle build --crate-name low --crate-checked", "low", 40)
            return number < 2

        with mock.patch.object(watching, "TICKS", 100), mock.patch.object(watching.time, "sleep"):
            self.assertEqual(watching.watched(go_on, self.crates), {Task("low"): 4.0})

    def test_real_process(self):
        self.assertGreater(watching.seconds_in(Path("/proc/self/stat").read_text(encoding="utf-8")), 0)


class Command(unittest.TestCase):
    """The command, in a folder of two small crates."""

    def setUp(self):
        room = tempfile.TemporaryDirectory()
        self.addCleanup(room.cleanup)
        self.room = Path(room.name)
        for change in (
            mock.patch.object(times, "FILE", self.room / "kept/proofs.json"),
            mock.patch.object(command, "read_crates", lambda: crates_in(ROWS, self.room)),
            mock.patch.object(command.os, "sched_getaffinity", lambda _: {0, 1}),
        ):
            change.start()
            self.addCleanup(change.stop)

    def run_command(self, *words):
        """Returns the exit status of the command and its lines."""
        printed = io.StringIO()
        with contextlib.redirect_stdout(printed), contextlib.redirect_stderr(io.StringIO()):
            status = command.main([*words])
        return status, printed.getvalue().splitlines()

    def keep(self, seconds):
        times.keep_times(crates_in(ROWS, self.room), seconds)

    def test_no_times(self):
        last = "chain 0 s of processor time; proofs 0 s, from nothing at least 0 min on 2 processors (5 crates have no time)"
        self.assertEqual(self.run_command(), (0, ["", last]))

    def test_all_times(self):
        self.keep(SECONDS)
        source = self.room / "left/src/lib.rt"
        source.parent.mkdir(parents=True)
        source.write_text("pub fn first() {}\n", encoding="utf-8")
        _, lines = self.run_command()
        self.assertEqual(lines[:2], ["    30.0 left *", "    20.0 right"])
        self.assertEqual(lines[-2], "low 5 > left 30 > high 8")
        times_of_yardstick = "chain 43 s of processor time, 4 times call_auth"
        self.assertEqual(lines[-1], f"{times_of_yardstick}; proofs 73 s, from nothing at least 1 min on 2 processors")

    def test_words_that_are_not_understood(self):
        for words in (["--time"], ["--beside"], ["low"]):
            self.assertEqual(self.run_command(*words), (2, []))

    def test_proved_crates_alone(self):
        self.assertEqual(command.proved_in(PRINTED), {Task("low"), Task("low", True)})

    def test_beside(self):
        (self.room / "ci").write_text(PRINTED, encoding="utf-8")
        (self.room / "ended").touch()
        seen = {Task("low"): 5.0, Task("left"): 7.0, Task("low", True): 1.0, Task("other"): 2.0}
        with mock.patch.object(command, "watched", lambda goes_on: {} if goes_on() else seen):
            status, lines = self.run_command("--beside", str(self.room))
        self.assertEqual((status, len(lines)), (0, 1))
        self.assertEqual({name: it[1] for name, it in times.read_times().items()}, {"low": 5.0, "low (tests)": 1.0})

    def test_beside_a_run_whose_folder_is_gone(self):
        with mock.patch.object(command, "watched", lambda goes_on: {Task("low"): 1.0} if not goes_on() else {}):
            self.assertEqual(self.run_command("--beside", str(self.room / "gone"))[0], 0)
        self.assertEqual(times.read_times(), {})

    def test_times_that_are_taken(self):
        with mock.patch.object(command.subprocess, "run", lambda *_, **__: SimpleNamespace(returncode=0)):
            self.assertEqual(self.run_command("--time", "low")[1], ["     0.0 low"])
        self.assertEqual([*times.read_times()], ["low"])
        with mock.patch.object(command.subprocess, "run", lambda *_, **__: SimpleNamespace(returncode=1)):
            self.assertEqual(self.run_command("--time", "left"), (1, ["chain: left isn't proved"]))
        self.assertEqual(self.run_command("--time", "none"), (1, ["chain: none isn't proved"]))

    def test_file_that_is_damaged(self):
        times.FILE.parent.mkdir()
        for text in ("", "7", "[]", '{"low": 3}', '{"low": ["a"]}'):
            times.FILE.write_text(text, encoding="utf-8")
            self.assertEqual(times.read_times(), {}, text)


class Entry(unittest.TestCase):
    """The program."""

    def test_chain_of_the_repository(self):
        crates = command.read_crates()
        seconds = {Task(name): 1.0 for name in crates}
        chain = [task.crate for task in longest.longest_chain(crates, seconds)]
        self.assertEqual(sorted(chain, key=[*crates].index), chain)
        self.assertGreater(len(chain), 9)


if __name__ == "__main__":
    unittest.main()
