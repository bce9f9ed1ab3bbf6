"""A key that is a value alone, and what is no key or no bound, on each kind of connection. What is refused here is never sent."""
import asyncio
import inspect
import unittest
from decimal import Decimal
from typing import Any, Callable, List, Tuple
from unittest import mock

import kit
import test_embedded

from mi_client import Database, Embedded, Refused, Server
from mi_client.aio import AsyncDatabase

PAIRS = """table = "pair"
column = [{ name = "a", type = "text" }, { name = "b", type = "text" }, { name = "n", type = "int" }, { name = "on", type = "flag" }]
index = [
    { name = "by_ab", kind = "ordered", key = ["a", "b"] },
    { name = "ab", kind = "hashed", key = ["a", "b"] },
    { name = "rank_ab", kind = "ranked", key = ["a", "b"] },
    { name = "by_a", kind = "hashed", key = ["a"] },
    { name = "by_n", kind = "ranked", key = ["n"] },
    { name = "by_on", kind = "hashed", key = ["on"] },
    { name = "by_on_n", kind = "ordered", key = ["on", "n"] },
]
"""
ROWS = [{"a": "x", "b": "y", "n": 5, "on": True}, {"a": "xy", "b": "z", "n": 7, "on": False}]

Call = Callable[[Any], Any]

COMMANDS: List[Tuple[Call, Any]] = [
    (lambda db: db.find("by_n", 5), 0),
    (lambda db: db.find("by_a", "xy"), 1),
    (lambda db: db.find("by_n", (it for it in [7])), 1),
    (lambda db: db.find("by_ab", {"xy": 0, "z": 0}.keys()), 1),
    (lambda db: db.find("by_ab", ["xy"]), 1),
    (lambda db: db.count("by_on", True), 1),
    (lambda db: db.lower_rank("by_n", 7), 1),
    (lambda db: db.upper_rank("by_n", 7), 2),
    (lambda db: db.range("by_n", lower={"ge": 6}), [1]),
    (lambda db: db.range("by_n", upper={"lt": 6}, reverse=True), [0]),
    (lambda db: db.erase_key("by_a", "y"), 0),
]
"""Calls, and what they answer: of rows the ids."""

WALKS: List[Tuple[Call, Any]] = [
    (lambda db: db.walk_range("by_n", lower={"ge": 5}, upper={"le": (it for it in [7])}, page=1), [0, 1]),
    (lambda db: db.walk_range("by_n", "n", upper={"le": 5}), [0]),
    (lambda db: db.equal("by_n", 5), [0]),
    (lambda db: db.equal("by_on", True), [0]),
    (lambda db: db.equal("by_a", "x"), [0]),
    (lambda db: db.count_range("by_n", 5, 7), 2),
]

PARTS = "the key of {} has the parts a, b, so a value alone is none: give a list of values"
NO_KEY = 'a key is a value or a list of values, as "ann" or \\["ann", 5\\]; {} is neither'
NO_VALUE = "{} is of the type {}, which can't be sent"
NO_BOUND = 'a bound is a mapping, as {{"ge": \\[10\\]}} or {{"le": \\[10\\]}}; {} is none'

WRONG_COMMANDS: List[Tuple[Call, str]] = [
    (lambda db: db.erase_key("by_ab", "xy"), PARTS.format("by_ab")),
    (lambda db: db.erase_key("ab", "xy"), PARTS.format("ab")),
    (lambda db: db.erase_key("rank_ab", "xy"), PARTS.format("rank_ab")),
    (lambda db: db.find("by_ab", "xy"), PARTS.format("by_ab")),
    (lambda db: db.count("ab", 5), PARTS.format("ab")),
    (lambda db: db.lower_rank("rank_ab", "xy"), PARTS.format("rank_ab")),
    (lambda db: db.upper_rank("rank_ab", True), PARTS.format("rank_ab")),
    (lambda db: db.range("by_ab", lower={"ge": "xy"}), PARTS.format("by_ab")),
    (lambda db: db.find("by_a", b"xy"), NO_KEY.format("bytes")),
    (lambda db: db.erase_key("by_ab", bytearray(b"xy")), NO_KEY.format("bytearray")),
    (lambda db: db.count("by_ab", {"x", "y"}), NO_KEY.format("set")),
    (lambda db: db.lower_rank("by_n", frozenset([5])), NO_KEY.format("frozenset")),
    (lambda db: db.find("by_n", None), NO_KEY.format("NoneType")),
    (lambda db: db.range("by_n", lower=[5]), NO_BOUND.format("list")),
    (lambda db: db.range("by_n", upper=5), NO_BOUND.format("int")),
    (lambda db: db.range("by_n", upper={"le": b"5"}), NO_KEY.format("bytes")),
    (lambda db: db.find("by_ab", ["xy", b"z"]), NO_VALUE.format("key", "bytes")),
    (lambda db: db.insert({**ROWS[0], "b": b"y"}), NO_VALUE.format("b", "bytes")),
    (lambda db: db.replace(0, {**ROWS[0], "a": bytearray(b"x")}), NO_VALUE.format("a", "bytearray")),
    (lambda db: db.modify(0, set={"a": "x", "b": object()}), NO_VALUE.format("b", "object")),
    (lambda db: db.modify(0, add={"n": Decimal(5)}), NO_VALUE.format("n", "Decimal")),
    (lambda db: db.insert(b"x"), NO_VALUE.format("row", "bytes")),
]
WRONG_WALKS: List[Tuple[Call, str]] = [
    (lambda db: db.equal("rank_ab", "xy"), PARTS.format("rank_ab")),
    (lambda db: db.walk_range("by_ab", upper={"le": "xy"}), PARTS.format("by_ab")),
    (lambda db: db.count_range("rank_ab", "xy", ["z"]), PARTS.format("rank_ab")),
    (lambda db: db.count_range("rank_ab", ["x"], "xy"), PARTS.format("rank_ab")),
    (lambda db: db.equal("by_a", frozenset("x")), NO_KEY.format("frozenset")),
    (lambda db: db.count_range("by_n", object(), 7), NO_KEY.format("object")),
    (lambda db: db.walk_range("by_n", lower="ge"), NO_BOUND.format("str")),
]


def told(answer: Any) -> Any:
    """Of rows the ids."""
    answer = getattr(answer, "rows", answer)
    if isinstance(answer, dict):
        return answer["id"]
    return answer if isinstance(answer, int) else [it["id"] for it in answer]


class OneByOne(unittest.TestCase):
    commands, wrong = COMMANDS + WALKS, WRONG_COMMANDS + WRONG_WALKS

    def setUp(self) -> None:
        self.db: Any = self.opened()
        self.addCleanup(self.db.close)
        for row in ROWS:
            self.db.insert(row)

    def opened(self) -> Database:
        return kit.start(self, PAIRS)

    def ask(self, call: Call) -> Any:
        return told(call(self.db))

    def test_a_value_alone_is_the_key_of_one_part(self) -> None:
        for call, wanted in self.commands:
            with self.subTest(inspect.getsource(call).strip()):
                self.assertEqual(self.ask(call), wanted)

    def test_what_is_no_key_and_no_bound_is_not_sent(self) -> None:
        sent: List[bytes] = []
        send, self.db._channel.exchange = self.db._channel.exchange, lambda line: sent.append(line)
        queue, self.db._channel.queue = self.db._channel.queue, lambda data: sent.append(data)
        for call, words in self.wrong:
            with self.subTest(inspect.getsource(call).strip()), self.assertRaisesRegex((TypeError, ValueError), f"^{words}$"):
                self.ask(call)
        self.assertEqual([it for it in sent if it], [])
        self.db._channel.exchange, self.db._channel.queue = send, queue
        self.assertEqual(self.db.size(), 2)


class Ahead(OneByOne):
    commands, wrong = COMMANDS, WRONG_COMMANDS

    def ask(self, call: Call) -> Any:
        with self.db.pipeline() as ahead:
            answer = call(ahead)
        return told(answer.result())


class InTheProcess(unittest.TestCase):
    def test_what_is_no_key_and_no_bound_is_not_asked(self) -> None:
        library = test_embedded.library() or f"{kit.stand_in()}/libweltiyo.so"
        with Embedded.open(kit.written(self, PAIRS), library) as db, mock.patch.object(db._lines, "_asked") as asked:
            for call, words in WRONG_COMMANDS + WRONG_WALKS:
                with self.subTest(inspect.getsource(call).strip()), self.assertRaisesRegex((TypeError, ValueError), f"^{words}$"):
                    told(call(db))
        asked.assert_not_called()


@test_embedded.needs_library
class InTheProcessBesides(OneByOne):
    def opened(self) -> Database:
        return Embedded.open(kit.written(self, PAIRS))


class InTasks(unittest.TestCase):
    def test_the_same(self) -> None:
        async def ask(db: AsyncDatabase, call: Call) -> Any:
            answer = call(db)
            return told([it async for it in answer] if hasattr(answer, "__aiter__") else await answer)

        async def main() -> None:
            async with await AsyncDatabase.start(kit.program(), kit.written(self, PAIRS)) as db:
                for row in ROWS:
                    await db.insert(row)
                for call, wanted in COMMANDS + WALKS:
                    with self.subTest(inspect.getsource(call).strip()):
                        self.assertEqual(await ask(db, call), wanted)
                for call, words in WRONG_COMMANDS + WRONG_WALKS:
                    with self.subTest(inspect.getsource(call).strip()), self.assertRaisesRegex((TypeError, ValueError), f"^{words}$"):
                        await ask(db, call)
                self.assertEqual(await db.size(), 2)

        asyncio.run(main())


class WithoutASchema(unittest.TestCase):
    def test_the_server_judges(self) -> None:
        with Server(kit.program(), schema=kit.written(self, PAIRS)) as server, Database.connect(server.port, wait=10) as db:
            for row in ROWS:
                db.insert(row)
            self.assertEqual((db.find("by_n", 5)["id"], db.find("by_ab", "xy")["id"]), (0, 1))
            self.assertEqual([it["id"] for it in db.range("by_ab", lower={"ge": "xy"}).rows], [1])
            for index in ("by_ab", "ab"):
                with self.assertRaisesRegex(Refused, "^key"):
                    db.erase_key(index, "xy")
            with self.assertRaisesRegex(Refused, "^form: key is a text; an array wanted$"):
                db.ask("find", index="by_a", key="xy")
            with self.assertRaisesRegex(Refused, "^form: lower is a list"):
                db.ask("range", index="by_n", lower=[5])
            self.assertEqual(db.size(), 2)


if __name__ == "__main__":
    unittest.main()
