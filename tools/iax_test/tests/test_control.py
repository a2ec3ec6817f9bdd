"""Tests of control.py, with a socket of their own in place of a service."""
import os
import socket
import tempfile
import threading
import unittest

import support  # noqa: F401
from iax_test import control

ANSWER = b'HTTP/1.1 200 OK\r\nContent-Length: 13\r\n\r\n{"calls": []}'


class Service:
    """A socket that reads one request, and gives an answer in two pieces."""

    def __init__(self, path, answer):
        self.answer, self.octets = answer, b""
        self.listener = socket.socket(socket.AF_UNIX)
        self.listener.bind(path)
        self.listener.listen()
        self.thread = threading.Thread(target=self.serve)
        self.thread.start()

    def serve(self):
        with self.listener, self.listener.accept()[0] as client:
            self.octets = client.recv(65536)
            client.sendall(self.answer[:20])
            client.sendall(self.answer[20:])


class Requests(unittest.TestCase):
    """Requests and their answers."""

    def setUp(self):
        folder = tempfile.TemporaryDirectory(prefix="control-")
        self.addCleanup(folder.cleanup)
        self.path = os.path.join(folder.name, "socket")

    def serve(self, answer):
        service = Service(self.path, answer)
        self.addCleanup(service.thread.join)
        return service

    def test_request_without_a_body(self):
        octets = b"GET /calls HTTP/1.1\r\nHost: x\r\nContent-Length: 0\r\n\r\n"
        self.assertEqual(control.request("GET", "/calls"), octets)

    def test_request_with_a_body(self):
        octets = b'POST /calls HTTP/1.1\r\nHost: x\r\nContent-Length: 16\r\n\r\n{"peer": "west"}'
        self.assertEqual(control.request("POST", "/calls", {"peer": "west"}), octets)

    def test_answer_in_pieces(self):
        service = self.serve(ANSWER)
        self.assertEqual(control.ask(self.path, "GET", "/calls", seconds=5), {"calls": []})
        service.thread.join()
        self.assertEqual(service.octets, control.request("GET", "/calls"))

    def test_answer_without_a_body(self):
        self.serve(b"HTTP/1.1 204 No Content\r\n\r\n")
        self.assertIsNone(control.ask(self.path, "GET", "/calls", seconds=5))

    def test_no_service(self):
        with self.assertRaises(FileNotFoundError):
            control.ask(self.path, "GET", "/calls", seconds=5)


if __name__ == "__main__":
    unittest.main()
