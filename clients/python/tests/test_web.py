"""web: who is answered, what may be asked, what is counted, and a server that goes away and comes back. (What the page shows a browser is asked
for by `scripts/stress window`.)"""
import http.client
import json
import os
import re
import subprocess
import sys
import threading
import unittest
from typing import Any, Callable, Dict, List, Optional, Tuple

import kit
from kit import ANN

from mi_client import Database, Schema, Server
from mi_client.commands import CHANGES, COMMANDS, LOOK_UPS, SESSION_STEPS
from mi_tools.fitting import misfit
from mi_tools.web_desk import WRITES, Forbidden, Stack, judged
from mi_tools.web_http import PAGE, Window, policy_of
from mi_tools.web_source import Gone, Source, line_of

SHOP = Schema.read(f"{kit.TOP}/examples/shop.toml")


class Judging(unittest.TestCase):
    def test_the_table_of_commands_says_what_a_look_up_is(self) -> None:
        self.assertEqual(CHANGES | SESSION_STEPS | LOOK_UPS | {"reserve"}, set(COMMANDS))
        self.assertEqual(len(CHANGES) + len(SESSION_STEPS) + len(LOOK_UPS) + 1, len(COMMANDS))

    def test_read_only(self) -> None:
        for name in COMMANDS:
            line = json.dumps({"cmd": name})
            if name in LOOK_UPS:
                self.assertEqual([it.cmd for it in judged([line], False)], [name])
            else:
                self.assertRaisesRegex(Forbidden, "read-only", judged, [line], False)

    def test_writing(self) -> None:
        allowed = {name for name in COMMANDS if self.is_allowed(name)}
        self.assertEqual(allowed, LOOK_UPS | WRITES)
        self.assertEqual(set(COMMANDS) - allowed, {"commit", "undo_all", "push", "reserve"})

    def is_allowed(self, name: str) -> bool:
        try:
            return bool(judged([json.dumps({"cmd": name})], True))
        except Forbidden:
            return False

    def test_what_is_judged_is_what_is_sent(self) -> None:
        """A member that stands twice, spaces, escapes and a newline leave nothing that the server could read otherwise."""
        for given, sent in [
            ('{"cmd":"erase","id":0,"cmd":"size"}', '{"cmd":"size","id":0}'),
            (' { "cmd" : "g\\u0065t", "id": 9223372036854775807 } ', '{"cmd":"get","id":9223372036854775807}'),
            ('{"cmd":"find","index":"x","key":["a\\nb\\u00e9"]}', '{"cmd":"find","index":"x","key":["a\\nbé"]}'),
        ]:
            self.assertEqual([it.text for it in judged([given], False)], [sent])

    def test_what_is_no_command(self) -> None:
        strange: List[Any] = [
            None, [], {}, "x", [1], [["size"]], ["size"], ["[]"], ["{"], ['{"cmd":1}'], ['{"cmd":["size"]}'], ['{"cmd":"fly"}'],
            ['{"cmd":"find","index":"x","key":["\\ud800"]}'], ['{"cmd":"get","id":NaN}'], ['{"cmd":"get","id":' + "9" * 5000 + "}"],
            ["[" * 100_000], ['{"cmd":"find","index":"x","key":["' + "a" * 65_536 + '"]}'], ['{"service":"status"}'],
            ['{"cmd":"size"}\n{"cmd":"undo"}'], ['{"cmd":"size"}', '{"cmd":"member"}'], ['{"cmd":"size"}'] * 2001,
        ]
        for it in strange:
            self.assertRaises(Forbidden, judged, it, True)
        self.assertRaisesRegex(Forbidden, "knows no such command", judged, ['{"cmd":"fly"}'], True)

    def test_changes_of_each_session(self) -> None:
        stack = Stack()
        ok: Dict[str, Any] = {"ok": True}
        for cmd, reply, want in [
            ("insert", ok, []), ("undo", ok, []), ("start", {"ok": True, "revision": 5}, [[5, 0]]), ("insert", ok, [[5, 1]]),
            ("erase", {"ok": False}, [[5, 1]]), ("erase_key", {"ok": True, "erased": 3}, [[5, 4]]),
            ("start", {"ok": True, "revision": 6}, [[5, 4], [6, 0]]), ("modify", {"ok": False, "lost": True}, [[5, 4], [6, 1]]),
            ("modify", {"ok": False, "lost": False}, [[5, 4], [6, 1]]), ("squash", ok, [[5, 5]]),
            ("start", {"ok": False, "error": "depth"}, [[5, 5]]), ("undo", ok, []),
        ]:
            stack.note(cmd, reply)
            self.assertEqual(stack.told(), want, cmd)


class Asking(unittest.TestCase):
    """Over a server of its own: its tables are gone with it, so it is not looked for again."""

    def window(self, may_write: bool = False, schema: Optional[Schema] = None) -> Window:
        db = kit.start(self)
        db.insert(ANN)
        source = Source(lambda: db, schema or Schema.built_in(), None, False)
        source.start()
        self.addCleanup(source.close)
        window = Window(0, source, may_write, "a test")
        threading.Thread(target=window.serve_forever, args=(0.02,), daemon=True).start()
        self.addCleanup(window.server_close)
        self.addCleanup(window.shutdown)
        return window

    def asked(self, window: Window, path: str, body: Any, **differs: Any) -> Tuple[int, bytes, Dict[str, str]]:
        host = f"127.0.0.1:{window.server_port}"
        headers = {"Host": host, "Origin": f"http://{host}", "Content-Type": "application/json", "Authorization": f"Bearer {window.token}", **differs}
        stream = http.client.HTTPConnection("127.0.0.1", window.server_port, timeout=20)
        try:
            stream.request("POST", path, json.dumps(body), {name: it for name, it in headers.items() if it is not None})
            answer = stream.getresponse()
            return answer.status, answer.read(), dict(answer.getheaders())
        finally:
            stream.close()

    def test_lines(self) -> None:
        window = self.window()
        status, body, headers = self.asked(window, "/ask", {"lines": ['{"cmd":"size"}', '{"cmd":"get","id":0}', '{"cmd":"get","id":5}']})
        head, *replies = body.decode().split("\n")
        self.assertEqual((status, headers["Content-Type"]), (200, "application/x-ndjson"))
        self.assertEqual(replies, ['{"ok":true,"size":1}', '{"ok":true,"row":{"balance":50,"id":0,"owner":"ann","vip":false}}', '{"error":"id","ok":false}'])
        self.assertEqual((json.loads(head)["epoch"], json.loads(head)["changes"]), (1, []))

    def test_nothing_of_a_request_with_a_forbidden_line_is_sent(self) -> None:
        window = self.window()
        status, body, _ = self.asked(window, "/ask", {"lines": ['{"cmd":"size"}', '{"cmd":"start"}']})
        self.assertEqual((status, json.loads(body)["why"]), (403, "start changes something, and this window is read-only: start it with --write"))
        self.assertEqual(self.asked(window, "/ask", {"lines": ['{"cmd":"revision"}']})[1].split(b"\n")[1], b'{"depth":0,"held":0,"ok":true,"revision":0}')

    def test_who_is_answered(self) -> None:
        window = self.window(True)
        size = {"lines": ['{"cmd":"size"}']}
        other = f"127.0.0.1:{window.server_port}"
        local, rebound = (f"{it}:{window.server_port}" for it in ("localhost", "evil.example"))
        for wanted, differs in [
            (200, {}), (200, {"Sec-Fetch-Site": "same-origin"}), (200, {"Host": local, "Origin": f"http://{local}"}),
            (403, {"Host": "evil.example"}), (403, {"Host": local}), (403, {"Host": rebound, "Origin": f"http://{rebound}"}),
            (403, {"Origin": None}), (403, {"Origin": "null"}),
            (403, {"Origin": f"https://{other}"}), (403, {"Sec-Fetch-Site": "same-site"}), (403, {"Sec-Fetch-Site": "none"}),
            (415, {"Content-Type": "text/plain"}), (415, {"Content-Type": "application/json; charset=utf-8"}),
            (401, {"Authorization": None}), (401, {"Authorization": window.token}), (401, {"Authorization": "Bearer é"}),
        ]:
            status, _, headers = self.asked(window, "/ask", size, **differs)
            self.assertEqual(status, wanted, differs)
            self.assertEqual([it for it in headers if it.startswith("Access-Control")], [])
        self.assertEqual(self.asked(window, "/fly", size)[0], 404)
        self.assertEqual(self.asked(window, "/ask", [])[0], 400)

    def test_the_page_knows_no_token_and_runs_its_own_script_alone(self) -> None:
        window = self.window()
        stream = http.client.HTTPConnection("127.0.0.1", window.server_port, timeout=20)
        stream.request("GET", "/")
        answer = stream.getresponse()
        body = answer.read().decode()
        stream.close()
        self.assertNotIn(window.token, body)
        self.assertEqual(answer.getheader("Content-Security-Policy"), policy_of(body))
        self.assertEqual((answer.getheader("Cache-Control"), answer.getheader("X-Frame-Options")), ("no-store", "DENY"))
        self.assertEqual(len(re.findall("'sha256-", policy_of(body))), 2)
        for what in ("innerHTML", "insertAdjacentHTML", "document.write", "eval(", "http://", "https://", "//cdn", " style=", " onclick="):
            self.assertNotIn(what, body.replace("http://www.w3.org/2000/svg", ""), what)

    def test_each_window_has_its_own_token(self) -> None:
        first, second = self.window(), self.window()
        self.assertNotEqual(first.token, second.token)
        self.assertGreaterEqual(len(first.token), 43)
        self.assertEqual(first.address, f"http://127.0.0.1:{first.server_port}/#{first.token}")

    def test_what_a_page_is_told_first(self) -> None:
        status, body, _ = self.asked(self.window(), "/open", {})
        told = json.loads(body)
        names = [it["name"] for it in told["tables"]]
        self.assertEqual((status, told["write"], told["status"], names), (200, False, False, ["accounts"]))
        by_class = next(it for it in told["tables"][0]["indexes"] if it["name"] == "by_class")
        parts = [{"column": "vip", "descends": True, "type": "flag"}, {"column": "balance", "descends": False, "type": "int"}]
        self.assertEqual(by_class["parts"], parts)
        self.assertEqual(set(told["commands"]), set(COMMANDS))

    def test_a_server_of_its_own_that_has_ended(self) -> None:
        db = kit.start(self)
        source = Source(lambda: db, Schema.built_in(), None, False)
        source.start()
        self.addCleanup(source.close)
        db.close()
        self.assertRaises(Gone, source.ask, [line_of("size")])
        self.assertRaises(Gone, source.ask, [line_of("size")])


class Schemas(unittest.TestCase):
    def test_another_schema_is_told(self) -> None:
        db = kit.start(self)
        self.assertEqual(misfit(db, Schema.built_in()), "")
        self.assertEqual(misfit(db, SHOP), "the server refuses the table item as table: this schema isn't its own; name it by --schema FILE")


class Coming(unittest.TestCase):
    def test_back(self) -> None:
        """A server that ends and one that takes its port: another epoch, and no session is counted any more."""
        first = Server(kit.program(), clients=1)
        source = Source(lambda: Database.connect(first.port, wait=10), Schema.built_in(), first.port, True)
        self.addCleanup(source.close)
        source.start()
        told = source.ask([line_of("start"), line_of("insert", row=ANN), line_of("size")])
        self.assertEqual((told.epoch, told.replies[2], told.changes), (1, '{"ok":true,"size":1}', [[1, 1]]))
        first.close()
        self.assertRaises(Gone, source.ask, [line_of("size")])
        words = [kit.program(), "--listen", str(first.port), "--clients", "1"]
        with subprocess.Popen(words) as second:
            try:
                told = until(lambda: source.ask([line_of("size")]))
                self.assertEqual((told.epoch, told.replies, told.changes), (2, ['{"ok":true,"size":0}'], []))
            finally:
                second.kill()

    def test_the_tool(self) -> None:
        with Server(kit.program(), clients=1) as server:
            words = [sys.executable, "-m", "mi_client", "web", "--connect", str(server.port)]
            with subprocess.Popen(words, stdout=subprocess.PIPE, text=True, env=kit.environment()) as ran:
                assert ran.stdout
                self.assertEqual(ran.stdout.readline(), f"port {server.port}, read-only; who has this address is let in, Ctrl-C ends it:\n")
                self.assertRegex(ran.stdout.readline(), r"^http://127\.0\.0\.1:\d+/#[\w-]{43}\n$")
                ran.terminate()

    def test_the_tool_says_that_another_client_is_awaited(self) -> None:
        """The program answers once all its clients have come."""
        with Server(kit.program(), clients=3) as server, server.connect():
            ran = kit.ran("web", "--connect", str(server.port), "--timeout", "0.5")
            server.process.kill()  # (it waits for its third client)
        self.assertEqual((ran.returncode, ran.stdout), (1, ""))
        self.assertIn(f"weltiyo web: port {server.port} gave no reply for 0.5 seconds", ran.stderr)
        self.assertIn("it waits for another client", ran.stderr)

    def test_the_tool_says_what_it_lacks(self) -> None:
        ran = kit.ran("web", "--connect", "1")
        self.assertEqual((ran.returncode, ran.stdout), (1, ""))
        self.assertIn("weltiyo web: nothing listens on port 1 of 127.0.0.1", ran.stderr)
        self.assertEqual(kit.ran("web", "--port", "65536").returncode, 2)
        self.assertTrue(os.path.isfile(PAGE))


def until(ask: Callable[[], Any]) -> Any:
    """The answer of a call, once it has one."""
    for _ in range(400):
        try:
            return ask()
        except Gone:
            threading.Event().wait(0.05)
    raise AssertionError("it doesn't come back")


if __name__ == "__main__":
    unittest.main()
