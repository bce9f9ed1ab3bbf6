"""From a call to its line, and from the reply to what the call answers, by the schema where it is known. Each connection has
one; it reads and writes nothing."""
from __future__ import annotations

import json
from typing import Any, Dict, Mapping, Optional, TypeVar, Union

from mi_client import explain
from mi_client.commands import SESSION_STEPS
from mi_client.errors import NeedsSchema, Refused
from mi_client.request import Alone, Request, Values
from mi_client.schema import SCHEMA_LINE, Schema

T = TypeVar("T")

_decode = json.JSONDecoder().raw_decode
"""(a reply is one JSON object and nothing else)"""

REFUSAL = b'{"error"'
"""How a refusal begins, and no other reply."""


ASKS_SCHEMA = f"{SCHEMA_LINE}\n".encode()


class Dialect:
    def __init__(self, schema: Optional[Schema]) -> None:
        self.schema = schema
        self.session_steps = 0
        """How many of the lines may have begun or ended a session. (Those by which a block does so are made without this.)"""

    def learn(self, reply: bytes) -> Optional[Schema]:
        """The schema that is known from here on: that of this reply to ASKS_SCHEMA, or where it tells none the one that was known before."""
        self.schema = Schema.told(reply) or self.schema
        return self.schema

    def line(self, request: Request[Any]) -> bytes:
        """The line of a request. Keys that are given by columns become lists in its members. Raises NeedsSchema, ValueError
        where such a key, or a value alone, isn't one of its index, and TypeError where a value is nothing that JSON has."""
        members = request.members
        if members["cmd"] in SESSION_STEPS:
            self.session_steps += 1
        if "key" in members:
            members["key"] = self.key(members, members["key"])
        for side in ("lower", "upper"):
            if isinstance(members.get(side), Mapping):
                members[side] = {name: self.key(members, it) for name, it in members[side].items()}
        return request.line()

    def made_elsewhere(self, line: Union[str, bytes]) -> bytes:
        """A line that is given whole, with its newline. Nobody looks into it, so it may begin or end a session. Raises ValueError where it is
        no single line, or an empty one, which would have no reply."""
        self.session_steps += 1
        data = line if isinstance(line, bytes) else line.encode("utf-8", "surrogatepass")
        data = data[:-1] if isinstance(line, bytes) and data.endswith(b"\n") else data
        if b"\n" in data or not data.rstrip(b"\r"):
            raise ValueError("a line has one command and no newline")
        return data + b"\n"

    def key(self, members: Mapping[str, Any], key: Values) -> Any:
        if not isinstance(key, (Alone, Mapping)):
            return key
        if self.schema is None:
            if isinstance(key, Alone):
                return key  # (the server knows how many parts the index has)
            raise NeedsSchema("a key is given by columns, and this connection was opened without a schema")
        return self.schema.key(members["index"], key, members.get("table"))

    def read(self, request: Request[T], reply: bytes) -> T:
        """What the call answers. Raises Refused."""
        found: Dict[str, Any] = _decode(reply.decode())[0]
        if not found["ok"]:
            raise self.refusal(request.members, found)
        return request.read(found)

    def refusal(self, members: Mapping[str, Any], reply: Dict[str, Any], change: Optional[int] = None) -> Refused:
        return Refused(reply, explain.why(self.schema, members, reply["error"]), change)
