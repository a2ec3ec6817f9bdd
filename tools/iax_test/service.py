"""The program as a service: its process, and its answers at the control socket."""
import os
import subprocess
from pathlib import Path

from . import control
from .waits import Failed, within

# The words that run the program: as `rt ci` or `rt run` has built it, or those of EXCHANGE_MAIN.
BUILT = Path(__file__).resolve().parents[2] / "crates/exchange_main/out/exchange_main"
PROGRAM = os.environ.get("EXCHANGE_MAIN", str(BUILT)).split()


class Service:
    """The program, running as a service with a control socket. Its log is written behind what a file has."""

    def __init__(self, plan, path, *options, log, environment=None, before=None, patience=10):
        """Starts it with these options, further variables of the environment, and a function that its process calls first.
        Returns once it answers; waits at most `patience` seconds for that."""
        self.plan, self.path, self.log = plan, path, log
        words = [*PROGRAM, "run", plan, "--control", path, *options]
        variables = os.environ | (environment or {})
        with open(log, "ab") as file:
            self.process = subprocess.Popen(
                words, stdout=subprocess.PIPE, stderr=file, text=True, env=variables, preexec_fn=before
            )
        within("an answer at the control socket", patience, self.answers)

    def answers(self):
        """Returns whether it answers. (Its control socket is bound before the sockets of its workers are, and answers once
        they are.) Raises `Failed` if it has ended."""
        self.fail_if_ended()
        return os.path.exists(self.path) and self.ask("GET", "/") is not None

    def fail_if_ended(self):
        if self.process.poll() is not None:
            raise Failed(
                f"the service has ended with status {self.process.returncode}: {self.process.stdout.read()!r}: {self.logged()}"
            )

    def ask(self, method, target, body=None, seconds=20):
        """Returns the JSON of its answer; None if it doesn't answer within this time."""
        try:
            return control.ask(self.path, method, target, body, seconds)
        except OSError:
            return None

    def logged(self):
        """Returns its log so far."""
        with open(self.log, encoding="utf-8", errors="replace") as file:
            return file.read()

    def ended(self, seconds=20):
        """Returns its status and its output, once it has ended. Kills it if it hasn't within this time."""
        try:
            printed, _ = self.process.communicate(timeout=seconds)
        except subprocess.TimeoutExpired as late:
            self.kill()
            raise Failed(f"the service doesn't end: {self.logged()}") from late
        return self.process.returncode, printed

    def kill(self):
        """Kills it, if it hasn't ended."""
        if self.process.poll() is None:
            self.process.kill()
        self.process.wait()
