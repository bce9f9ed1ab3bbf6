"""A member that runs over a fake etcd, with a server of its own, for the tests of members."""
import asyncio
import contextlib
import json
import os
import socket
import unittest
from typing import Any, AsyncIterator, Awaitable, Callable, Dict, List
from unittest import mock

import kit
from fake_etcd import FakeEtcd, Post, etcds

from mi_replica.checkpoint import batches
from mi_replica.etcd import Message
from mi_replica.log import Term
from mi_replica.member import Member, Settings

NOWHERE = "http://127.0.0.1:1"
INSERT = b'{"cmd":"insert","row":{"owner":"%s","balance":1,"vip":false}}\n'
SIZE = b'{"cmd":"size"}\n'
OWNERS = (b"a", b"b", b"c", b"d")
LONG = 20.0


def free_port() -> int:
    with socket.socket() as it:
        it.bind(("127.0.0.1", 0))
        return int(it.getsockname()[1])


def lines_in(folder: str) -> List[bytes]:
    """The lines of the one checkpoint of a folder, which no base has."""
    path, = [f"{folder}/{it}" for it in os.listdir(folder) if it.endswith((".journal", ".checkpoint"))]
    return [line for some in batches(path) for line in some]


def checkpoints_in(folder: str) -> List[str]:
    return sorted(it for it in os.listdir(folder) if it.endswith((".journal", ".checkpoint")))


def text_in(path: str) -> bytes:
    with open(path, "rb") as file:
        return file.read()


def put(path: str, text: bytes) -> str:
    with open(path, "wb") as file:
        file.write(text)
    return path


def script(test: unittest.TestCase, text: str) -> str:
    """A program that stands in for the service."""
    path = kit.written(test, f"#!/bin/sh\n{text}\n", "mi_service")
    os.chmod(path, 0o700)
    return path


def changed(path: str, change: Callable[[bytes], bytes]) -> None:
    """Changes what a file has, where it stands."""
    with open(path, "r+b") as file:
        text = change(file.read())
        file.seek(0)
        file.write(text)
        file.truncate()


class Running:
    """A member of the ledger `led` that runs, and its client. What it notes is kept."""

    def __init__(self, etcd: FakeEtcd, folder: str, checkpoint: int = 1, service: str = "") -> None:
        """Its own server is this service where one is named, else `mi_server`."""
        self.port = free_port()
        program, body = (service, "service") if service else (kit.program(), "pipes")
        self.member = Member(Settings([NOWHERE], "led", program, self.port, folder=folder, checkpoint=checkpoint, body=body))
        etcd.serve(*etcds(self.member._log), self.member._lease._etcd)
        self.task = asyncio.ensure_future(self.member.run())

    async def ask(self, line: bytes) -> Dict[str, Any]:
        """The reply to a line, once it leads."""
        while not self.task.done():
            if self.member._role == "leader":
                reader, writer = await asyncio.open_connection("127.0.0.1", self.port)
                writer.write(line)
                found: Dict[str, Any] = json.loads(await reader.readline())
                writer.close()
                return found
            await asyncio.sleep(0.02)
        self.task.result()
        raise AssertionError("the member has ended")

    async def look(self, line: bytes) -> Dict[str, Any]:
        """The reply to a line, whatever its role."""
        reader, writer = await asyncio.open_connection("127.0.0.1", self.port)
        try:
            writer.write(line)
            found: Dict[str, Any] = json.loads(await asyncio.wait_for(reader.readline(), LONG))
            return found
        finally:
            writer.close()

    async def insert(self, *owners: bytes) -> None:
        """An entry of each, behind the checkpoint that the one before has begun."""
        for it in owners:
            assert (await self.ask(INSERT % it))["ok"]
            while self.member._writing:
                await asyncio.sleep(0.01)

    async def until(self, line: bytes, wanted: Dict[str, Any]) -> None:
        """Until it replies so. Its connection may be cut meanwhile, without a reply."""
        while True:
            with contextlib.suppress(ValueError):
                if await self.ask(line) == wanted:
                    return
            await asyncio.sleep(0.02)

    async def until_checkpoint(self, number: int) -> None:
        """Until it tells of a checkpoint up to this entry."""
        while (await self.ask(b'{"cmd":"member"}\n'))["checkpoint"] != number:
            await asyncio.sleep(0.02)

    def cut(self) -> asyncio.Event:
        """Cuts its log off from etcd until the event is set."""
        passes = asyncio.Event()

        def through(post: Post) -> Any:
            async def posted(path: str, body: Message) -> Message:
                await passes.wait()
                return await post(path, body)

            return posted

        for it in etcds(self.member._log):
            it.post = through(it.post)  # type: ignore[method-assign]
        return passes

    async def has_told(self, number: int) -> None:
        """Until etcd knows that it has a checkpoint up to this entry."""
        while (await self.member._log.members()).get(f"127.0.0.1:{self.port}", {}).get("checkpoint") != number:
            await asyncio.sleep(0.02)

    async def end(self) -> None:
        self.task.cancel()
        await asyncio.gather(self.task, return_exceptions=True)
        self.member._temporary.cleanup()
        await asyncio.sleep(0.02)


class Test(unittest.TestCase):
    service = ""
    """The service that members have, where it isn't `mi_server`."""

    def setUp(self) -> None:
        self.etcd, self.notes = FakeEtcd(), []  # type: FakeEtcd, List[str]
        self.folder = f"{kit.folder(self)}/m"
        patched = mock.patch("mi_replica.member.note", self.notes.append)
        patched.start()
        self.addCleanup(patched.stop)

    def play(self, act: Callable[[], Awaitable[None]]) -> None:
        asyncio.run(asyncio.wait_for(act(), 3 * LONG))

    @contextlib.asynccontextmanager
    async def running(self, folder: str = "", checkpoint: int = 1) -> AsyncIterator[Running]:
        made = Running(self.etcd, folder or self.folder, checkpoint, self.service)
        try:
            yield made
        finally:
            await made.end()

    async def forget(self, it: Running, number: int) -> None:
        """The entries up to this one leave the log, by the member that leads."""
        key = self.etcd.keys[b"led/leader"]
        await it.member._log.forget(number, Term(key.made, key.value, 3, 0.5))

    async def with_checkpoint(self, *owners: bytes) -> None:
        """A member has run and left a checkpoint with rows of these owners."""
        async with self.running() as it:
            await it.insert(*owners)
            await it.until_checkpoint(len(owners))
