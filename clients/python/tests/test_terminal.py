"""The prompt at a terminal, and what it does alike in a pipe: the depth before each line, pages, files, and a server that goes away."""
import functools
import os
import pty
import re
import select
import signal
import socket
import subprocess
import sys
import time
import unittest
from typing import Any, List

import kit
from test_service import SERVICE

from mi_client import Database, Server
from mi_tools.prompt import Prompt

PLAIN = re.compile(rb"\x1b\[[0-9;?]*[a-zA-Z]|\r")
LONGEST = 20.0


class Terminal:
    """A prompt whose input and output are a terminal of 80 columns and 24 lines."""

    def __init__(self, test: unittest.TestCase, *words: str, **variables: str) -> None:
        mine, its = pty.openpty()
        env = {**kit.environment(), "TERM": "dumb", "HOME": kit.folder(test), "COLUMNS": "80", "LINES": "24", **variables}
        command = [sys.executable, "-m", "mi_client", *words]
        # (what a shell starts behind itself ignores interrupts, and so would this)
        heeds = functools.partial(signal.signal, signal.SIGINT, signal.SIG_DFL)
        self.process = subprocess.Popen(command, stdin=its, stdout=its, stderr=its, env=env, start_new_session=True, preexec_fn=heeds)
        os.close(its)
        self._end, self._test, self.seen = mine, test, b""
        test.addCleanup(os.close, mine)
        test.addCleanup(self.process.wait)
        test.addCleanup(self.process.kill)

    def until(self, wanted: str) -> str:
        """What comes up to these words, which come."""
        end = time.monotonic() + LONGEST
        while wanted.encode() not in self.seen:
            ready, _, _ = select.select([self._end], [], [], max(0.0, end - time.monotonic()))
            try:
                data = os.read(self._end, 65_536) if ready else b""
            except OSError:
                data = b""
            if not data:
                self._test.fail(f"{wanted!r} doesn't come behind {self.seen.decode()!r}")
            self.seen = PLAIN.sub(b"", self.seen + data)
        before, _, self.seen = self.seen.partition(wanted.encode())
        return before.decode()

    def type(self, text: str) -> None:
        os.write(self._end, f"{text}\n".encode())

    def asked(self, text: str, wanted: str) -> str:
        self.type(text)
        return self.until(wanted)


class AtATerminal(unittest.TestCase):
    def test_depth_and_what_is_undone(self) -> None:
        it = Terminal(self)
        it.until("weltiyo> ")
        it.asked("start", "weltiyo [1]> ")
        it.asked("start", "weltiyo [2]> ")
        self.assertIn("undone: 2 sessions that this connection held", it.asked("quit", "since the first"))
        self.assertEqual(it.process.wait(LONGEST), 0)

    def test_a_server_that_is_gone(self) -> None:
        with Server(service=SERVICE) as server:
            it = Terminal(self, "--connect", str(server.port))
            it.asked("start", "weltiyo [1]> ")
            port = server.port
            server.process.kill()
            server.process.wait()
        said = it.asked("size", "weltiyo (not connected)> ")
        self.assertIn("The connection is closed, and what it held is undone; \\c connects again", said)
        self.assertIn("not connected: ", it.asked("\\c", "weltiyo (not connected)> "))
        service = subprocess.Popen([SERVICE, "--listen", str(port)], stdout=subprocess.PIPE)
        assert service.stdout
        for end in (service.stdout.close, service.wait, service.kill):
            self.addCleanup(end)
        service.stdout.readline()
        self.assertIn("connected; what the connection before held is undone", it.asked("\\c", "weltiyo> "))
        self.assertIn("size 0", it.asked("size", "weltiyo> "))
        it.type("quit")
        self.assertEqual(it.process.wait(LONGEST), 0)

    def test_a_server_that_gives_no_reply(self) -> None:
        with socket.create_server(("127.0.0.1", 0)) as listener:
            it = Terminal(self, "--connect", str(listener.getsockname()[1]), "--timeout", "0.2")
            it.until("gave no reply for 0.2 seconds")
            it.until("weltiyo (not connected)> ")
            it.type("quit")
            self.assertEqual(it.process.wait(LONGEST), 0)

    def test_an_interrupt(self) -> None:
        with socket.create_server(("127.0.0.1", 0)) as listener:
            it = Terminal(self, "--connect", str(listener.getsockname()[1]), "--timeout", "0")
            with listener.accept()[0] as there:
                there.recv(100)
                os.kill(it.process.pid, signal.SIGINT)
                it.until("interrupted while a reply was awaited. The connection is closed")
                it.asked("quit", "quit")
                self.assertEqual(it.process.wait(LONGEST), 0)

    def test_pages(self) -> None:
        """One that is longer than the screen goes through the pager, and Enter shows the next one."""
        it = Terminal(self, PAGER="sed 's/^/paged /'")
        for n in range(31):
            it.asked(f'insert {{"owner":"o{n}","balance":{n // 3},"vip":false}}', "ms)")
        said = it.asked("range by_balance limit=25", "(Enter shows them)")
        self.assertEqual((said.count("paged "), said.count("o24")), (28, 1))
        it.until("weltiyo> ")
        said = it.asked("", "6 rows")
        self.assertEqual((said.count("paged "), re.findall("o[0-9]+", said)), (0, [f"o{n}" for n in range(25, 31)]))
        it.until("weltiyo> ")
        self.assertIn("there is no page behind", it.asked("\\n", "weltiyo> "))

    def test_a_file_has_one_time(self) -> None:
        path = kit.written(self, "size\n\nsize\nrevision\n", "lines.txt")
        it = Terminal(self)
        it.until("weltiyo> ")
        said = it.asked(f"\\i {path}", "weltiyo> ")
        self.assertEqual(said.count("size 0\n"), 2)
        self.assertRegex(said, r"size 0\nsize 0\ndepth 0, held 0, revision 0\n\(3 lines in [0-9.]+ ms\)\n$")


class InAPipe(unittest.TestCase):
    def test_what_is_undone(self) -> None:
        said = "undone: 1 session that this connection held, with all that changed since the first\n"
        for words, typed in ([], "start\nquit\n"), ([], "start\n"), (["--run", kit.written(self, "start\n", "lines.txt")], ""):
            ran = kit.ran(*words, typed=typed)
            self.assertEqual((ran.returncode, ran.stdout, ran.stderr), (0, '{"ok":true,"revision":1}\n', said))
        self.assertEqual(kit.ran(typed="start\npush\n").stderr, "")

    def pages(self, db: Database, line: str, tables: bool = True) -> List[Any]:
        """The owners of each page."""
        prompt = Prompt(db, typed=False, tables=tables, times=False)
        found = [prompt.answer(line) or ""]
        while not found[-1].startswith("there is no page"):
            found.append(prompt.answer("\\n") or "")
        return [re.findall("o[0-9]+", it) for it in found[:-1]]

    def test_the_next_page(self) -> None:
        db = kit.start(self)
        for n in range(11):
            db.insert({"owner": f"o{n}", "balance": n // 4, "vip": n % 2 == 0})
        ahead = [f"o{n}" for n in range(11)]
        for line, want in [
            ("range by_balance limit=3", ahead),
            ('range by_balance limit=3 lower={"gt":[0]} upper={"lt":[2]}', ahead[4:8]),
            ("range id limit=5", ahead),
            ("range by_balance limit=4 reverse=true", [*ahead[8:][::-1], *ahead[4:8][::-1], *ahead[:4][::-1]]),
            ('range by_class limit=2 lower={"ge":[true,1]}', ["o4", "o6", "o8", "o10", "o1", "o3", "o5", "o7", "o9"]),
            ("list line limit=4", ahead),
            ('{"cmd":"list","index":"line","limit":4,"after":2}', ahead[3:]),
        ]:
            for tables in (True, False):
                pages = self.pages(db, line, tables)
                self.assertEqual([it for page in pages for it in page], want, line)
                self.assertEqual({len(it) for it in pages[:-1]}, {len(pages[0])})
        prompt = Prompt(db, typed=False, tables=True, times=False)
        self.assertTrue((prompt.answer("list line limit=4") or "").endswith("4 rows; more stand behind"))
        self.assertIsNotNone(prompt.answer("size"))
        self.assertEqual(prompt.answer("\\n"), "there is no page behind")
        prompt.answer("list line limit=4")
        db.erase(3)
        self.assertEqual(prompt.answer("\\n"), "not shown: id: there is no record 3")

    def test_without_a_schema(self) -> None:
        db = kit.start(self)
        for n in range(5):
            db.insert({"owner": f"o{n}", "balance": 0, "vip": False})
        db._dialect.schema = None
        self.assertEqual(self.pages(db, "range id limit=2"), [["o0", "o1"], ["o2", "o3"], ["o4"]])
        prompt = Prompt(db, typed=False, tables=True, times=False)
        said = prompt.answer("range by_balance limit=2") or ""
        self.assertTrue(said.endswith("(the next page needs the index's columns: start the prompt with --schema FILE)"), said)

    def test_keys_are_json(self) -> None:
        prompt = Prompt(kit.start(self), typed=False, tables=True, times=False)
        said = prompt.answer('find by_owner ["a\\"b"]') or ""
        self.assertIn('no record has the key ["a\\"b"] in by_owner', said)


if __name__ == "__main__":
    unittest.main()
