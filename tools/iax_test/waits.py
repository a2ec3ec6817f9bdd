"""Waits for a condition, and what is often waited for: a bound port, and a line in a file."""
import time


# The seconds after which a wait for a state gives up. It bounds a program that hangs, however slow the machine is.
PATIENCE = 60

# The seconds by which a loaded machine may exceed a time that the program promises.
LOAD = 15


class Failed(Exception):
    """A check that failed, or that can't continue. The message says which."""


def within(what, seconds, look):
    """Waits until `look` returns something true, and returns it. Raises `Failed` after `seconds` seconds."""
    end = time.monotonic() + seconds
    while time.monotonic() < end:
        if found := look():
            return found
        time.sleep(0.02)
    raise Failed(f"{what}: not within {seconds} s")


def becomes(what, look, wanted, seconds=PATIENCE):
    """Waits until `look` returns what is wanted. Raises `Failed` after `seconds` seconds, with what it returned last."""
    end = time.monotonic() + seconds
    while (found := look()) != wanted:
        if time.monotonic() > end:
            raise Failed(f"{what}: {found!r}, not {wanted!r} within {seconds} s")
        time.sleep(0.02)


def is_bound(port):
    """Returns whether a UDP socket of this machine has this port."""
    with open("/proc/net/udp", encoding="ascii") as table:
        return any(line.split()[1].endswith(f":{port:04X}") for line in table.readlines()[1:])


def is_written(path, text):
    """Returns whether a file has this text."""
    with open(path, encoding="utf-8") as file:
        return text in file.read()
