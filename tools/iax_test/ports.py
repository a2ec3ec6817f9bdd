"""Ports of loopback."""
import socket

LOOPBACK = "127.0.0.1"


def is_spare(port, kind=socket.SOCK_DGRAM):
    """Returns whether a socket of this kind can be bound to a port."""
    with socket.socket(socket.AF_INET, kind) as probe:
        try:
            probe.bind((LOOPBACK, port))
        except OSError:
            return False
    return True


def spare_port_of_system(kind=socket.SOCK_DGRAM):
    """Returns a port that the system chooses. It may give that port to another program before this one binds it."""
    with socket.socket(socket.AF_INET, kind) as probe:
        probe.bind((LOOPBACK, 0))
        return probe.getsockname()[1]
