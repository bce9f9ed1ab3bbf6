"""How a connection ends that breaks off: each call raises Ended with the reason, of a `Database` and of an `AsyncDatabase`, whatever the
server does. The servers here are threads of the test."""
import asyncio
import contextlib
import errno
import os
import signal
import socket
import struct
import threading
import time
import unittest
from typing import Any, Callable, Iterator, List
from unittest import mock

import kit

from mi_client import Database, Ended
from mi_client.aio import AsyncDatabase
from mi_client.channel import Channel

Serve = Callable[[socket.socket], None]
PATIENCE = 0.3
"""Seconds that a reply may take here, where the server never gives a whole one."""


def listener(test: unittest.TestCase, serve: Serve) -> int:
    """The port of a server for one client, which does this with its connection, and then closes it."""
    it = socket.create_server(("127.0.0.1", 0))

    def work() -> None:
        with contextlib.suppress(OSError):
            stream, _ = it.accept()
            with stream:
                serve(stream)

    thread = threading.Thread(target=work, daemon=True)
    thread.start()
    test.addCleanup(thread.join, 20)
    test.addCleanup(it.close)
    port: int = it.getsockname()[1]
    return port


def trickles(stream: socket.socket) -> None:
    """A byte of a reply again and again, for 20 seconds at least, or until the client has gone."""
    stream.recv(65_536)
    stream.settimeout(0.02)
    for _ in range(1000):
        stream.send(b" ")
        with contextlib.suppress(socket.timeout):
            if not stream.recv(65_536):
                return


def dies(stream: socket.socket) -> None:
    """The end comes in the middle of a reply."""
    stream.recv(65_536)
    stream.send(b'{"ok":true,"si')
    stream.shutdown(socket.SHUT_WR)
    while stream.recv(65_536):  # (what isn't read would reset the connection)
        pass


def resets(stream: socket.socket) -> None:
    stream.recv(65_536)
    stream.send(b'{"ok":true,"si')
    stream.setsockopt(socket.SOL_SOCKET, socket.SO_LINGER, struct.pack("ii", 1, 0))


def says_more(stream: socket.socket) -> None:
    """Lines that nothing asked for, until the client has gone."""
    while True:
        stream.send(b'{"ok":true,"size":1}\n')


ENDS = [(dies, "^the server ended the connection$"), (resets, "Connection reset by peer$|Broken pipe$")]


class Reasons(unittest.TestCase):
    """Whatever ends a connection, its calls raise Ended and say why, also those that come later."""

    def test_a_server_that_ends_in_the_middle_of_a_reply(self) -> None:
        for serve, why in ENDS:
            for call in [*CALLS, pass_turns]:
                with Database.connect(listener(self, serve)) as db:
                    for _ in range(2):
                        with self.assertRaisesRegex(Ended, why):
                            call(db)
                    self.assertFalse(db.is_open)

    def test_such_a_server_and_tasks(self) -> None:
        async def main(port: int, call: Callable[[Any], Any], why: str) -> None:
            async with await AsyncDatabase.connect(port) as db:
                for _ in range(2):
                    with self.assertRaisesRegex(Ended, why):
                        await asyncio.wait_for(call(db), 20)

        for serve, why in ENDS:
            for call in [*CALLS_OF_TASKS, pass_turns_of_tasks]:
                asyncio.run(main(listener(self, serve), call, why))

    def test_a_stream_that_fails(self) -> None:
        """By an error that is no ConnectionError, as where the network is gone."""
        async def main(port: int, call: Callable[[Any], Any]) -> None:
            async with await AsyncDatabase.connect(port) as db:
                db._reader.set_exception(OSError(errno.ENETUNREACH, "no network"))
                with self.assertRaisesRegex(Ended, "no network"):
                    await asyncio.wait_for(call(db), 20)

        for call in [*CALLS_OF_TASKS, pass_turns_of_tasks]:
            asyncio.run(main(listener(self, lambda stream: stream.recv(65_536)), call))

    def test_lines_that_nothing_asked_for(self) -> None:
        async def main(port: int) -> None:
            async with await AsyncDatabase.connect(port) as db:
                with self.assertRaisesRegex(Ended, "^the server sent a line that nothing asked for$"):
                    while True:
                        await asyncio.wait_for(db.size(), 20)

        asyncio.run(main(listener(self, says_more)))

    def test_an_interrupted_call(self) -> None:
        self.addCleanup(signal.signal, signal.SIGUSR1, signal.getsignal(signal.SIGUSR1))
        for call in CALLS:
            self.interrupted(call)

    def interrupted(self, call: Callable[[Database], Any]) -> None:
        raised: List[bool] = []
        is_over = threading.Event()

        def interrupts(stream: socket.socket) -> None:
            stream.recv(65_536)
            while not raised:  # (one that comes just ahead of the wait for the reply wouldn't end it)
                signal.pthread_kill(threading.main_thread().ident or 0, signal.SIGUSR1)
                time.sleep(0.01)
            is_over.set()
            stream.recv(65_536)

        def interrupt(*_: Any) -> None:
            if not raised:
                raised.append(True)
                raise KeyboardInterrupt

        signal.signal(signal.SIGUSR1, interrupt)
        with Database.connect(listener(self, interrupts)) as db:
            with self.assertRaises(KeyboardInterrupt):
                call(db)
            self.ended(db, "^(a call was|calls sent ahead were) interrupted by KeyboardInterrupt: the connection is closed$")
        self.assertTrue(is_over.wait(20))  # (no signal comes later)

    def test_an_interrupted_block(self) -> None:
        def lines() -> Iterator[str]:
            yield '{"cmd":"size"}'
            raise KeyboardInterrupt

        db = kit.start(self)
        with self.assertRaises(KeyboardInterrupt), db.pipeline() as made:
            made.size()
            raise KeyboardInterrupt
        self.ended(db, "^calls sent ahead were interrupted by KeyboardInterrupt: the connection is closed$")
        db = kit.start(self)
        with self.assertRaises(KeyboardInterrupt):
            list(db.ask_lines(lines()))
        self.ended(db, "^calls sent ahead were interrupted by KeyboardInterrupt: the connection is closed$")
        db = kit.start(self)
        with mock.patch.object(db._dialect, "read", side_effect=KeyboardInterrupt), self.assertRaises(KeyboardInterrupt):
            within(db)
        self.ended(db, "^a session was interrupted where it begins or ends: the connection is closed$")

    def ended(self, db: Database, why: str) -> None:
        self.assertFalse(db.is_open)
        for call in CALLS:
            with self.assertRaisesRegex(Ended, why):
                call(db)


class Timeouts(unittest.TestCase):
    """They are of a whole reply, however it comes."""

    def test_a_server_that_trickles(self) -> None:
        for call in CALLS:
            with Database.connect(listener(self, trickles), timeout=PATIENCE) as db:
                for _ in range(2):
                    with self.assertRaisesRegex(Ended, "^the server took too long$"):
                        call(db)

    def test_such_a_server_and_tasks(self) -> None:
        async def main(port: int, call: Callable[[Any], Any]) -> None:
            async with await AsyncDatabase.connect(port, timeout=60) as db:
                self.assertEqual(db._timeout, 60)
                db.answer_within(PATIENCE)
                for _ in range(2):
                    with self.assertRaisesRegex(Ended, "^the server took too long$"):
                        await asyncio.wait_for(call(db), 20)

        for call in CALLS_OF_TASKS:
            asyncio.run(main(listener(self, trickles), call))

    def test_a_server_of_its_own_that_stands_still(self) -> None:
        async def main() -> None:
            async with await AsyncDatabase.start(kit.program()) as db:
                db.answer_within(PATIENCE)
                os.kill(db.process, signal.SIGSTOP)
                asked = [asyncio.ensure_future(db.size()) for _ in range(3)]
                for it in asked:
                    with self.assertRaisesRegex(Ended, "^the server took too long$"):
                        await asyncio.wait_for(it, 20)

        asyncio.run(main())

    def test_each_reply_has_its_own(self) -> None:
        """By a clock of the test: of 20 replies to lines sent ahead each is waited for two seconds, and five are allowed; then each takes six."""
        for seconds, is_in_time in ((2, True), (6, False)):
            (reading, far), (near, writing) = os.pipe(), os.pipe()
            channel = Channel.of_pipes(reading, writing, 5)
            now = [0.0]

            def poll(timeout: float, poll: Any = channel._in.poll, far: int = far, now: List[float] = now, step: float = seconds / 2) -> Any:
                now[0] += min(step, timeout / 1000)
                if step <= timeout / 1000:
                    os.write(far, b"{" if now[0] % (2 * step) else b"}\n")
                return poll(0)

            with mock.patch("time.monotonic", lambda now=now: now[0]), mock.patch.object(channel, "_in", mock.Mock(poll=poll)):
                channel.queue(b"x\n" * 20)
                with contextlib.nullcontext() if is_in_time else self.assertRaises(TimeoutError):
                    while now[0] < 40:
                        channel.step()
            self.assertEqual(len(channel.taken()), 20 if is_in_time else 0)
            for it in (reading, far, near, writing):
                os.close(it)

    def test_a_loop_that_was_busy(self) -> None:
        """The reply that came meanwhile is in time."""
        async def main(port: int) -> None:
            async with await AsyncDatabase.connect(port) as db:
                db.answer_within(0.05)
                for _ in range(3):
                    asked = asyncio.ensure_future(db.size())
                    await asyncio.sleep(0)  # (then it is sent)
                    came.wait(20)
                    came.clear()
                    busy.wait(0.1)
                    self.assertEqual(await asked, 7)

        def serve(stream: socket.socket) -> None:
            while stream.recv(65_536):
                stream.send(b'{"ok":true,"size":7}\n')
                came.set()

        came, busy = threading.Event(), threading.Event()
        asyncio.run(main(listener(self, serve)))


def ahead(db: Database) -> None:
    with db.pipeline() as it:
        it.size()
        it.size()


def within(db: Database) -> None:
    with db.session():
        db.insert(kit.ANN)


def pass_turns(db: Database) -> None:
    """Empty lines, until one can't be written or what the server said is read."""
    while True:
        db.pass_turn()
        db.size()


async def pass_turns_of_tasks(db: AsyncDatabase) -> None:
    while True:
        await db.pass_turn()
        await asyncio.sleep(0)


async def within_of_tasks(db: AsyncDatabase) -> None:
    async with db.session():
        await db.insert(kit.ANN)


async def lines_of_tasks(db: AsyncDatabase) -> None:
    async for _ in db.ask_lines(['{"cmd":"size"}'] * 3):
        pass


async def walk_of_tasks(db: AsyncDatabase) -> None:
    async for _ in db.walk_list("line"):
        pass


CALLS: List[Callable[[Database], Any]] = [
    lambda db: db.size(), lambda db: db.ask_line('{"cmd":"size"}'), lambda db: list(db.ask_lines(['{"cmd":"size"}'] * 3)),
    lambda db: list(db.walk_list("line")), ahead, within,
]
CALLS_OF_TASKS: List[Callable[[AsyncDatabase], Any]] = [
    lambda db: db.size(), lambda db: db.ask_line('{"cmd":"size"}'), lines_of_tasks, walk_of_tasks, within_of_tasks,
    lambda db: asyncio.gather(db.size(), db.size()),
]


if __name__ == "__main__":
    unittest.main()
