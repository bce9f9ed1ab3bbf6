"""Whether `stall.py` finds a server whose replies wait for an acknowledgement, and no other: on a server that is made here, which sends
the replies to each piece by a call of its own, with Nagle's delay and without."""
import contextlib
import io
import os
import socket
import sys
import threading
import unittest

TOP = os.path.dirname(os.path.dirname(os.path.dirname(os.path.realpath(__file__))))
sys.path.insert(0, f"{TOP}/scripts")

from stress import stall  # noqa: E402


def serve(listener, has_delay):
    stream, _ = listener.accept()
    with stream:
        stream.setsockopt(socket.IPPROTO_TCP, socket.TCP_NODELAY, 0 if has_delay else 1)
        while True:
            piece = stream.recv(4096)
            if not piece:
                return
            if b"\n" in piece:
                stream.sendall(b'{"ok":true}\n' * piece.count(b"\n"))


def judged(has_delay):
    """What is printed, and the answer."""
    with socket.create_server(("127.0.0.1", 0)) as listener:
        thread = threading.Thread(target=serve, args=(listener, has_delay))
        thread.start()
        out = io.StringIO()
        with socket.create_connection(listener.getsockname()) as stream, contextlib.redirect_stdout(out):
            well = stall.measured(stream, 0.1, 3)
        thread.join()
    return well, out.getvalue()


class Stall(unittest.TestCase):
    def test_a_wait_is_found(self):
        well, said = judged(has_delay=True)
        self.assertFalse(well, said)
        self.assertIn("wait: they have less than 1/3", said)

    def test_no_wait(self):
        well, said = judged(has_delay=False)
        self.assertTrue(well, said)

    def test_a_third_is_enough(self):
        self.assertEqual(stall.waiting({40: 300.0, 61: 100.0}), [])
        self.assertEqual(stall.waiting({40: 300.0, 61: 99.0}), [61])

    def test_slow_without_waiting(self):
        self.assertEqual(stall.waiting({61: 370_772.0, 1_000: 2_223_172.0}), [], "0.14 ms a batch more is no wait")
        self.assertEqual(stall.waiting({61: 1_400.0, 1_000: 22_700.0, 40: 506_000.0}), [61, 1_000])


if __name__ == "__main__":
    unittest.main()
