"""What the clients of `replica_test.py` keep of what a member tells them, and what is taken for look-ups that were compared: on a member that is
made here."""
import json
import os
import socket
import sys
import threading
import unittest

TOP = os.path.dirname(os.path.dirname(os.path.dirname(os.path.realpath(__file__))))
sys.path.insert(0, f"{TOP}/scripts")

from stress.replica_kit import Stuck, until  # noqa: E402
from stress.replica_load import Differs, Reader, Register, check_readers, first_done, look_for_errors  # noqa: E402


class Member(threading.Thread):
    """It answers each line by its command, to any connection, until it is closed."""

    def __init__(self, **replies):
        super().__init__(daemon=True)
        self._replies, self._listener = replies, socket.create_server(("127.0.0.1", 0))
        self.port = self._listener.getsockname()[1]
        self.start()

    def run(self):
        while True:
            try:
                stream, _ = self._listener.accept()
            except OSError:
                return
            threading.Thread(target=self._serve, args=(stream,), daemon=True).start()

    def _serve(self, stream):
        with stream, stream.makefile("rwb") as lines:
            try:
                for text in lines:
                    # (of two members `cmd` the last counts)
                    lines.write(json.dumps(self._replies[json.loads(text)["cmd"]]).encode() + b"\n")
                    lines.flush()
            except OSError:
                pass

    def close(self):
        self._listener.shutdown(socket.SHUT_RDWR)
        self._listener.close()


def role(name):
    return {"ok": True, "role": name, "term": 3, "leader": ""}


ROW = {"ok": True, "row": {"owner": "register", "balance": 5, "vip": False}}
ERROR = {"error": "json", "ok": False}


class Clients(unittest.TestCase):
    def member(self, **replies):
        made = Member(**replies)
        self.addCleanup(made.close)
        return made

    def read(self, acknowledged=0, **replies):
        """A reader of a member that answers so."""
        register = Register([], 0)
        register.acknowledged = acknowledged
        reader = Reader(self.member(**replies).port, register)
        reader.start()
        until("a reply that is judged", lambda: reader.told > 3 or reader.stale or not reader.is_alive(), 20)
        reader.end()
        reader.join(20)
        return reader

    def test_look_ups_that_are_compared(self):
        leads, follows = self.read(5, member=role("leader"), get=ROW), self.read(5, member=role("follower"), get=ERROR)
        self.assertEqual((leads.error, follows.error, follows.current), (None, None, 0))
        self.assertEqual(check_readers([leads, follows]), leads.current)
        with self.assertRaisesRegex(Differs, "5 where 6 was acknowledged"):
            check_readers([leads, self.read(6, member=role("leader"), get=ROW)])

    def test_none_is_compared(self):
        with self.assertRaisesRegex(Stuck, "no member led"):
            check_readers([self.read(member=role("follower"), get=ERROR)])
        with self.assertRaisesRegex(Stuck, "never told what it is"):
            check_readers([Reader(1, Register([], 0))])

    def test_a_member_that_answers_an_error(self):
        with self.assertRaisesRegex(Stuck, "KeyError.*role"):
            look_for_errors([self.read(member=ERROR, get=ROW)])

    def test_a_client_that_ends_by_itself(self):
        talker = Register([self.member(member=role("leader"), modify={}).port], 0)
        talker.start()
        talker.join(20)
        for look in (lambda: look_for_errors([talker]), lambda: first_done([talker], 0)):
            with self.assertRaisesRegex(Stuck, "a client: KeyError.*ok"):
                look()


if __name__ == "__main__":
    unittest.main()
