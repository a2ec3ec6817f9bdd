"""Runs of the program."""
import subprocess
import tempfile
from pathlib import Path

from iax_test.service import PROGRAM


def ran(*words):
    """Runs the program with these words. Returns its status and its output."""
    return subprocess.run([*PROGRAM, *words], capture_output=True, text=True, timeout=20, check=False)


def ran_over(words, *texts):
    """Runs the program with these words, and then the paths of files with these texts, which only their owner may read."""
    with tempfile.TemporaryDirectory() as folder:
        files = [Path(folder, str(number)) for number in range(len(texts))]
        for file, text in zip(files, texts):
            file.touch(0o600)
            file.write_text(text, encoding="ascii")
        return ran(*words, *map(str, files))
