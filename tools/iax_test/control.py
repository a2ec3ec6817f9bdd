"""Requests at the control socket of a service."""
import json
import socket


def connected(path, seconds=10):
    """Returns a connection to the socket at a path, whose reads and writes wait at most this long."""
    client = socket.socket(socket.AF_UNIX)
    client.settimeout(seconds)
    try:
        client.connect(path)
    except OSError:
        client.close()
        raise
    return client


def read_all(client):
    """Returns all octets until the other side ends the connection."""
    return b"".join(iter(lambda: client.recv(65536), b""))


def answer_to(path, octets, seconds=10):
    """Returns the service's answer to these octets. Raises `OSError` if no service answers within this time."""
    with connected(path, seconds) as client:
        client.sendall(octets)
        return read_all(client)


def request(method, target, body=None):
    """Returns the octets of a request; `body` is sent as JSON, if it isn't None."""
    octets = b"" if body is None else json.dumps(body).encode()
    return f"{method} {target} HTTP/1.1\r\nHost: x\r\nContent-Length: {len(octets)}\r\n\r\n".encode() + octets


def body_of(answer):
    """Returns the JSON of an answer; None if it has no body."""
    text = answer.partition(b"\r\n\r\n")[2]
    return json.loads(text) if text else None


def ask(path, method, target, body=None, seconds=10):
    """Returns the JSON of the service's answer to a request. Raises `OSError` if no service answers within this time."""
    return body_of(answer_to(path, request(method, target, body), seconds))
