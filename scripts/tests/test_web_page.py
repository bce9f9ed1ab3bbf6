"""What a web page's browser sends to the service's port: it is answered one line and let go, and no line of its body is asked."""
import os
import shutil
import socket
import subprocess
import sys
import unittest

TOP = os.path.dirname(os.path.dirname(os.path.dirname(os.path.realpath(__file__))))
sys.path.insert(0, f"{TOP}/scripts")

import program  # noqa: E402
from stress import service  # noqa: E402

INSERT = b'{"cmd":"insert","row":{"owner":"page","balance":1,"vip":false}}\n'
SIZE, START = b'{"cmd":"size"}\n', b'{"cmd":"start"}\n'
NO_JSON, TOO_LONG = b'{"error":"json","ok":false}\n', b'{"error":"line","ok":false}\n'
HEADERS = b"Host: 127.0.0.1:8000\r\nContent-Type: text/plain\r\nContent-Length: 999\r\n\r\n"


def size(count):
    return b'{"ok":true,"size":%d}\n' % count


class WebPages(unittest.TestCase):
    @classmethod
    def setUpClass(cls):
        found = program.service()
        if not found:
            raise unittest.SkipTest("neither the service nor rt, which compiles it, is there")
        cls.running = service.Service(found)
        cls.addClassCleanup(cls.running.stop)

    def heard(self, *pieces, shuts=True):
        """All that a connection is answered that sends these pieces, to its end."""
        got = b""
        with self.running.connect() as stream:
            try:
                for it in pieces:
                    stream.sendall(it)
                if shuts:
                    stream.shutdown(socket.SHUT_WR)
            except OSError:
                pass  # (it was let go meanwhile)
            try:
                while more := stream.recv(1 << 16):
                    got += more
            except ConnectionResetError:
                pass  # (so it ends where bytes of it weren't read)
        return got

    def size(self):
        with self.running.connect() as stream:
            return service.asked(stream, SIZE)

    def test_no_line_of_a_body_is_asked(self):
        before = self.size()
        for first in (b"POST / HTTP/1.1\r\n", b"GET /?x HTTP/1.1\r\n", b"OPTIONS * HTTP/1.1\n", b"PRI * HTTP/2.0\r\n", b"patch / HTTP/1.1\r\n",
                      b"!#$%&'*+-.^_`|~ / HTTP/1.1\r\n", b"7 / HTTP/1.1\r\n", b"\x00\n", b"\xff\n", b"/\n", b"[\n", b"A\n", b"z\n"):
            for shuts in (True, False):
                self.assertEqual(self.heard(first + HEADERS + INSERT * 3, shuts=shuts), NO_JSON, first)
        self.assertEqual(self.size(), before)

    def test_in_pieces(self):
        before, sent = self.size(), b"POST / HTTP/1.1\r\n" + HEADERS + INSERT
        for at in range(1, 24):
            self.assertEqual(self.heard(sent[:at], sent[at:], shuts=False), NO_JSON, at)
        self.assertEqual(self.heard(*(bytes([it]) for it in sent), shuts=False), NO_JSON)
        self.assertEqual(self.size(), before)

    def test_a_long_path(self):
        before = self.size()
        for length in (65_500, 65_536, 70_000, 300_000):
            sent = b"POST /" + b"a" * length + b" HTTP/1.1\r\n" + HEADERS + INSERT
            self.assertEqual(self.heard(sent, shuts=False), TOO_LONG if length > 65_500 else NO_JSON, length)
        self.assertEqual(self.size(), before)

    def test_a_hello_of_tls(self):
        before = self.size()
        self.assertEqual(self.heard(b"\x16\x03\x01\x02\x00\x01\x00\x01\xfc\x03\x03\n" + INSERT, shuts=False), b'{"error":"json","ok":false}\n')
        self.assertEqual(self.size(), before)

    def test_a_first_line_without_a_newline(self):
        self.assertEqual(self.heard(b"GET / HTTP/1.1"), NO_JSON)
        with self.running.connect() as stream:
            stream.sendall(b"GET / HTT")
            self.assertIn(b'"ok":true', self.size())
            stream.sendall(b"P/1.1\n")
            self.assertEqual(stream.recv(1 << 16), NO_JSON)
            self.assertEqual(stream.recv(1 << 16), b"")

    def test_other_first_lines_are_served_on(self):
        before = self.size()
        for first in (b"{\n", b"{get\n", b" POST / HTTP/1.1\n", b"\tGET\n", b"\rGET\n"):
            self.assertEqual(self.heard(first + SIZE), NO_JSON + before, first)
        self.assertEqual(self.heard(SIZE + b"POST / HTTP/1.1\n" + SIZE), before + NO_JSON + before)
        self.assertEqual(self.heard(SIZE, b"POST / HTTP/1.1\n", SIZE), before + NO_JSON + before)
        self.assertEqual(self.heard(b"\nPOST / HTTP/1.1\n" + SIZE), NO_JSON + before)

    def test_others_keep_what_they_hold(self):
        with self.running.connect() as holder:
            self.assertIn(b'"ok":true', service.asked(holder, START))
            self.assertEqual(self.heard(b"POST / HTTP/1.1\r\n" + HEADERS + b'{"cmd":"undo_all"}\n', shuts=False), NO_JSON)
            self.assertEqual(service.asked(holder, b'{"cmd":"undo_all"}\n'), b'{"ok":true,"undone":1}\n')

    def test_places_are_given_back(self):
        for _ in range(3 * service.MOST):
            self.assertEqual(self.heard(b"POST / HTTP/1.1\r\n" + INSERT, shuts=False), NO_JSON)
        self.assertIn(b'"ok":true', self.size())

    @unittest.skipUnless(shutil.which("curl"), "curl isn't there")
    def test_curl(self):
        before = self.size()
        for method in ("POST", "patch", "7", "~"):
            words = ["curl", "--silent", "--max-time", "60", "-X", method, "--data-binary", "\n" + INSERT.decode(), f"http://127.0.0.1:{self.running.port}/"]
            self.assertNotEqual(subprocess.run(words, stdin=subprocess.DEVNULL, capture_output=True).returncode, 0, method)
        self.assertEqual(self.size(), before)


if __name__ == "__main__":
    unittest.main()
