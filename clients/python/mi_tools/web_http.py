"""The address of `weltiyo web`: one page and three questions, for this page alone. A browser sends what any page asks of it, so each
request is judged by where it says that it comes from (`Host`, `Origin`, `Sec-Fetch-Site`), by its content type, which other pages can't
send unasked, and by the token, which they can't know."""
from __future__ import annotations

import base64
import hashlib
import hmac
import http.server
import json
import os
import re
import secrets
import select
import socket
from typing import Any, Callable, Dict, Optional, Tuple

from mi_client import Schema
from mi_client.commands import COMMANDS, REFUSALS
from mi_tools.web_desk import Forbidden, judged
from mi_tools.web_source import EVERY, KEPT, STATUS_MEMBERS, Gone, Source, Unwanted

PAGE = f"{os.path.dirname(os.path.realpath(__file__))}/web_page.html"
LONGEST_BODY = 2_000_000
IDLE_SECONDS = 120.0
INLINE = re.compile(r"<(script|style)>(.*?)</\1>", re.DOTALL)
Answer = Tuple[int, str, bytes]
"""A status, a content type, and the bytes."""


class Turned(Exception):
    """A request that isn't answered: a status, and why in words."""

    def __init__(self, status: int, why: str) -> None:
        super().__init__(why)
        self.status = status


def policy_of(page: str) -> str:
    """What the page may do: run its own script and style, which are named by their digests, and ask where it came from."""
    digests: Dict[str, list[str]] = {"script": [], "style": []}
    for kind, text in INLINE.findall(page):
        digests[kind].append(f"'sha256-{base64.b64encode(hashlib.sha256(text.encode()).digest()).decode()}'")
    return "; ".join([
        "default-src 'none'", f"script-src {' '.join(digests['script'])}", f"style-src {' '.join(digests['style'])}", "connect-src 'self'",
        "img-src data:", "base-uri 'none'", "form-action 'none'", "frame-ancestors 'none'", "require-trusted-types-for 'script'",
    ])


def described(schema: Schema) -> Any:
    """The tables as the page takes them."""
    return [
        {
            "name": table.name,
            "columns": [{"name": it.name, "type": it.type} for it in table.columns],
            "indexes": [
                {
                    "name": it.name, "kind": it.kind, "unique": it.unique,
                    "parts": [{"column": part.column, "descends": part.descends, "type": table.type_of(part.column)} for part in it.parts],
                }
                for it in table.indexes
            ],
        }
        for table in schema.tables
    ]


class Window(http.server.ThreadingHTTPServer):
    """Listens on 127.0.0.1. Raises OSError where the port is taken."""

    daemon_threads = True

    def __init__(self, port: int, source: Source, may_write: bool, title: str) -> None:
        super().__init__(("127.0.0.1", port), Handler)
        self.source, self.may_write, self.title = source, may_write, title
        self.token = secrets.token_urlsafe(32)
        self.hosts = {f"{it}:{self.server_port}" for it in ("127.0.0.1", "localhost")}
        with open(PAGE, encoding="utf-8") as file:
            page = file.read()
        self.page, self.policy = page.encode(), policy_of(page)

    @property
    def address(self) -> str:
        """The token stands behind `#`: a browser sends that to nobody, so it is in no log and in no `Referer`."""
        return f"http://127.0.0.1:{self.server_port}/#{self.token}"

    def handle_error(self, request: Any, client_address: Any) -> None:
        """A browser that breaks off is no fault."""


class Handler(http.server.BaseHTTPRequestHandler):
    server: Window
    protocol_version = "HTTP/1.1"
    disable_nagle_algorithm = True
    timeout = IDLE_SECONDS

    def do_GET(self) -> None:
        self._answered(self._page)

    def do_POST(self) -> None:
        self._answered(self._question)

    # What is asked

    def _page(self) -> Answer:
        self._judge_host()
        if self.path != "/":
            raise Turned(404, "there is one page here: /")
        return 200, "text/html; charset=utf-8", self.server.page

    def _question(self) -> Answer:
        self._judge_host()
        self._judge_question()
        asked = self._body()
        answer = {"/open": self._open, "/ask": self._ask, "/look": self._look}.get(self.path)
        if answer is None:
            raise Turned(404, "there is no such question")
        try:
            return answer(asked)
        except Gone as error:
            return 503, "application/json", _encoded({"gone": str(error), "returns": self.server.source.returns})
        except Forbidden as error:
            raise Turned(403, str(error)) from None

    def _open(self, _: Dict[str, Any]) -> Answer:
        source = self.server.source
        return 200, "application/json", _encoded({
            "title": self.server.title, "write": self.server.may_write, "tables": described(source.schema), "epoch": source.epoch,
            "commands": {name: it.about for name, it in COMMANDS.items()}, "refusals": REFUSALS,
            "status": source.has_status, "members": STATUS_MEMBERS, "every": EVERY, "kept": KEPT,
        })

    def _ask(self, asked: Dict[str, Any]) -> Answer:
        """A line about the replies, and then each reply as the server wrote it."""
        lines = judged(asked.get("lines"), self.server.may_write)
        told = self.server.source.ask(lines, self._is_waited_for)
        head = json.dumps({"epoch": told.epoch, "ms": round(told.seconds * 1000, 3), "changes": told.changes}, separators=(",", ":"))
        return 200, "application/x-ndjson", "\n".join([head, *told.replies]).encode("utf-8", "replace")

    def _look(self, asked: Dict[str, Any]) -> Answer:
        since = asked.get("since")
        after = float(since) if isinstance(since, (int, float)) else 0.0
        source = self.server.source
        samples = [it for it in list(source.samples) if it["at"] > after]
        return 200, "application/json", _encoded({"samples": samples, "status": source.has_status})

    # Whether it is answered

    def _judge_host(self) -> None:
        """A name that was made to lead here, as by DNS rebinding, isn't this host."""
        hosts = self.headers.get_all("Host") or []
        if len(hosts) != 1 or hosts[0] not in self.server.hosts:
            raise Turned(403, "the header Host names another place")

    def _judge_question(self) -> None:
        if self.headers.get_all("Origin") != [f"http://{self.headers['Host']}"]:
            raise Turned(403, "the header Origin names another page, or none")
        if self.headers.get("Sec-Fetch-Site", "same-origin") != "same-origin":
            raise Turned(403, "another page asks")
        if self.headers.get_all("Content-Type") != ["application/json"]:
            raise Turned(415, "the content type is application/json")
        given = (self.headers.get("Authorization") or "").encode("utf-8", "replace")
        if not hmac.compare_digest(given, f"Bearer {self.server.token}".encode()):
            raise Turned(401, "the token is missing, or another one")

    def _body(self) -> Dict[str, Any]:
        length = self.headers.get("Content-Length", "")
        if self.headers.get("Transfer-Encoding") or not re.fullmatch(r"[0-9]{1,7}", length) or int(length) > LONGEST_BODY:
            raise Turned(413, f"a question has a length, of at most {LONGEST_BODY} bytes")
        try:
            found = json.loads(self.rfile.read(int(length)))
        except (ValueError, RecursionError):
            raise Turned(400, "a question is JSON") from None
        if not isinstance(found, dict):
            raise Turned(400, "a question is an object")
        return found

    def _is_waited_for(self) -> bool:
        """Whether the browser still waits: one that has scrolled on breaks its question off."""
        look = select.poll()
        look.register(self.connection, select.POLLIN)
        try:
            return not look.poll(0) or self.connection.recv(1, socket.MSG_PEEK) != b""
        except OSError:
            return False

    # How it is answered

    def _answered(self, made: Callable[[], Answer]) -> None:
        try:
            self._send(*made())
        except Turned as it:
            # (what was sent with it isn't read)
            self.close_connection = True
            self._send(it.status, "application/json", _encoded({"why": str(it)}))
        except Unwanted:
            self.close_connection = True

    def _send(self, status: int, kind: str, body: bytes) -> None:
        self.send_response(status)
        for name, value in (
            ("Content-Type", kind), ("Content-Length", str(len(body))), ("Cache-Control", "no-store"), ("X-Content-Type-Options", "nosniff"),
            ("Content-Security-Policy", self.server.policy), ("Referrer-Policy", "same-origin"), ("X-Frame-Options", "DENY"),
            ("Cross-Origin-Resource-Policy", "same-origin"),
        ):
            self.send_header(name, value)
        if self.close_connection:
            self.send_header("Connection", "close")
        self.end_headers()
        self.wfile.write(body)

    def send_error(self, code: int, message: Optional[str] = None, explain: Optional[str] = None) -> None:
        """What can't be read as a request, and other methods, among them what a browser asks before another page's question."""
        self.close_connection = True
        self._send(code, "application/json", _encoded({"why": "this isn't answered"}))

    def version_string(self) -> str:
        return "weltiyo"

    def log_message(self, format: str, *args: Any) -> None:
        """Nothing is logged."""


def _encoded(value: Any) -> bytes:
    return json.dumps(value, separators=(",", ":")).encode()
