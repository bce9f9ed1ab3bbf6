"""A member's own server, which is asked by one connection for all that changes, and by another for what others look up meanwhile. There are
two bodies: `Service` runs `mi_service`, which has as many connections as are wanted; `Piped` runs `mi_server` over its standard input,
so there the two are one, and what the server would tell another connection is told here. `Service` reads checkpoints that have a base, by a
journal of its own that is gone with it; what that takes is given back while it runs."""
from __future__ import annotations

import asyncio
import contextlib
import ctypes
import os
import shutil
import subprocess
import tempfile
from typing import Callable, List, Optional, Sequence

from mi_client.server import GUARD
from mi_replica import lines as known
from mi_replica.based import Rebase, copied, parts_of
from mi_tools.journal_names import segment_path

LARGEST_READ = 1 << 18
SPARED = 8 << 20
"""Behind so many bytes of lines the room is given back that a journal takes which nobody reads. So many at its end stay."""
PUNCH_HOLE, KEEP_SIZE = 2, 1
REFUSED = 3
"""The status of a service that refuses a journal."""


class Gone(Exception):
    """The server has ended, or doesn't answer as one."""


class Wire:
    """A connection on which one batch of lines at a time is asked."""

    def __init__(self, reader: asyncio.StreamReader, writer: asyncio.StreamWriter) -> None:
        self._reader, self._writer = reader, writer
        self._replies: List[bytes] = []
        self._rest = b""

    async def ask(self, lines: Sequence[bytes]) -> List[bytes]:
        """The replies, without their newlines, to lines that have theirs and are none of them empty."""
        try:
            self._writer.write(b"".join(lines))
            while len(self._replies) < len(lines):
                data = await self._reader.read(LARGEST_READ)
                if not data:
                    raise Gone("the server has ended")
                *whole, self._rest = (self._rest + data).split(b"\n")
                self._replies += whole
        except OSError as error:
            raise Gone(f"the server: {error}") from error
        taken, self._replies = self._replies, []
        return taken

    def close(self) -> None:
        self._writer.transport.abort()


class Own:
    """A server. `ask` is the connection that changes; `look` is another one, between two batches of the first."""

    async def start(self, checkpoint: Optional[str] = None) -> None:
        """Begins with the base of a checkpoint, where one is named that has a base, else without any row. Its lines are asked by the caller. Raises
        Gone, and ValueError where the base is refused."""
        raise NotImplementedError

    def rebase(self, say: Callable[[str], None]) -> Optional[Rebase]:
        """What makes bases of its checkpoints, and says where it can't; None where the program knows no bases."""
        return None

    async def ask(self, lines: Sequence[bytes]) -> List[bytes]:
        """The replies of the connection that changes. Raises Gone."""
        raise NotImplementedError

    async def look(self, lines: Sequence[bytes]) -> List[bytes]:
        """What another connection is told. Where nobody holds sessions, only look-ups may be asked."""
        raise NotImplementedError

    async def close(self) -> None:
        raise NotImplementedError

    async def header(self) -> bytes:
        """The first line of a journal over its schema, asked in the place of `start`; nothing, where the program doesn't tell."""
        return b""

    async def held(self) -> int:
        """How many sessions the connection that changes holds."""
        return held((await self.ask([known.REVISION]))[0])


def held(reply: bytes) -> int:
    """How many sessions the asking connection holds, as a reply to `revision` says."""
    found = known.HELD.search(reply)
    if not found:
        raise Gone(f"the server answers {reply[:80]!r} to revision")
    return int(found[1])


class Piped(Own):
    def __init__(self, program: str, schema: Optional[str]) -> None:
        self._words = [program] + (["--schema", schema] if schema else [])
        self._process: Optional[asyncio.subprocess.Process] = None
        self._lock = asyncio.Lock()

    async def start(self, checkpoint: Optional[str] = None) -> None:
        if checkpoint and parts_of(checkpoint).base:
            raise ValueError(f"{checkpoint} has a base, which mi_service alone reads")
        pipe = asyncio.subprocess.PIPE
        # (it ends with this process, since its input then ends; an interrupt at the terminal is for the member)
        self._process = await asyncio.create_subprocess_exec(*self._words, stdin=pipe, stdout=pipe, start_new_session=True)
        assert self._process.stdin and self._process.stdout
        self._wire = Wire(self._process.stdout, self._process.stdin)

    async def ask(self, lines: Sequence[bytes]) -> List[bytes]:
        async with self._lock:
            return await self._wire.ask(lines)

    async def look(self, lines: Sequence[bytes]) -> List[bytes]:
        named = [known.command(it) for it in lines]
        asked = [it for it, (name, _) in zip(lines, named) if name in known.LOOK_UPS]
        told = iter(await self.ask(asked) if asked else [])
        return [self._told(name, refusal, told) for name, refusal in named]

    @staticmethod
    def _told(name: Optional[str], refusal: bytes, told: "object") -> bytes:
        if name is None:
            return refusal
        if name not in known.LOOK_UPS:
            return known.BUSY
        reply: bytes = next(told)  # type: ignore[call-overload]
        # (another connection holds none)
        return known.HELD.sub(b'"held":0', reply) if name == "revision" else reply

    async def close(self) -> None:
        if self._process:
            with contextlib.suppress(ProcessLookupError):
                self._process.kill()
            await self._process.wait()


class Service(Own):
    def __init__(self, program: str, schema: Optional[str]) -> None:
        self._program, self._schema = program, schema
        self._process: Optional[subprocess.Popen[bytes]] = None
        self._guard: Optional[subprocess.Popen[bytes]] = None
        self._wires: List[Wire] = []
        self._lock = asyncio.Lock()
        self._journal: Optional[int] = None
        """The file of its journal, which has no name any more."""
        self._unspared, self._is_closed = 0, False

    async def start(self, checkpoint: Optional[str] = None) -> None:
        has_base = checkpoint is not None and parts_of(checkpoint).base > 0
        loop = asyncio.get_running_loop()
        port = await (loop.run_in_executor(None, self._started_on, checkpoint) if has_base else loop.run_in_executor(None, self._started))
        try:
            self._wires = [Wire(*await asyncio.open_connection("127.0.0.1", port)) for _ in range(2)]
        except OSError as error:
            raise Gone(f"{self._program}: {error}") from error

    def _started(self, *more: str) -> int:
        """Starts the program, and answers its port."""
        if self._is_closed:
            raise Gone(f"{self._program} isn't wanted any more")
        words = [self._program, "--listen", "0", *more] + (["--schema", self._schema] if self._schema else [])
        # (with SIGXFSZ ignored, as Python has it, so that a file without room is told in place of killing it)
        self._process = subprocess.Popen(
            words, stdin=subprocess.DEVNULL, stdout=subprocess.PIPE, start_new_session=True, restore_signals=False
        )
        quiet = {"stdout": subprocess.DEVNULL, "stderr": subprocess.DEVNULL, "start_new_session": True}
        self._guard = subprocess.Popen([*GUARD, str(self._process.pid)], stdin=subprocess.PIPE, **quiet)  # type: ignore[call-overload]
        assert self._process.stdout
        said = self._process.stdout.readline()
        if not said.startswith(b"listening "):
            raise Gone(f"{self._program} doesn't listen")
        return int(said.rpartition(b":")[2])

    def _started_on(self, checkpoint: str) -> int:
        """The same with the base of a checkpoint. It reads a copy, which is gone behind that."""
        try:
            folder = copied(checkpoint)
        except OSError as error:
            raise Gone(f"no copy of {checkpoint}: {error}") from error
        try:
            port = self._started("--journal", f"{folder}/journal", "--sync", "never")
            self._journal = os.open(segment_path(f"{folder}/journal", parts_of(checkpoint).segment), os.O_RDWR)
            return port
        except Gone:
            if self._process and self._process.wait() == REFUSED:
                raise ValueError(f"{self._program} refuses the base of {checkpoint}") from None
            raise
        except OSError as error:
            raise Gone(f"{self._program}: {error}") from error
        finally:
            shutil.rmtree(folder, ignore_errors=True)

    def rebase(self, say: Callable[[str], None]) -> Optional[Rebase]:
        return Rebase(self._program, self._schema, say)

    async def header(self) -> bytes:
        """The first line of a journal of this program over this schema."""
        with tempfile.TemporaryDirectory(prefix="mi_replica-") as folder:
            try:
                await asyncio.get_running_loop().run_in_executor(None, self._started, "--journal", f"{folder}/journal")
                with open(f"{folder}/journal", "rb") as file:
                    return file.readline()
            except OSError as error:
                raise Gone(f"{self._program}: {error}") from error
            finally:
                await self.close()

    async def ask(self, lines: Sequence[bytes]) -> List[bytes]:
        async with self._lock:
            if self._journal is not None:
                self._spare(self._journal, sum(map(len, lines)))
            return await self._wires[0].ask(lines)

    def _spare(self, journal: int, size: int) -> None:
        """Gives back the room that the journal takes, some bytes of lines at a time. Where the file system can't do that it grows."""
        self._unspared += size
        if self._unspared > SPARED:
            self._unspared, end = 0, os.fstat(journal).st_size - SPARED
            if end > 0:
                give_back(journal, end)

    async def look(self, lines: Sequence[bytes]) -> List[bytes]:
        async with self._lock:
            return await self._wires[1].ask(lines)

    async def close(self) -> None:
        self._is_closed = True
        if self._journal is not None:
            os.close(self._journal)
            self._journal = None
        for wire in self._wires:
            wire.close()
        for ran in (self._guard, self._process):
            if ran:
                ran.kill()
                ran.wait()
        for it in (self._process and self._process.stdout, self._guard and self._guard.stdin):
            if it:
                it.close()


def give_back(handle: int, end: int) -> None:
    """Lets a file take no room for its first bytes, which are zeros then."""
    system = ctypes.CDLL(None)
    call = getattr(system, "fallocate64", None) or getattr(system, "fallocate", None)
    if call:
        call(handle, PUNCH_HOLE | KEEP_SIZE, ctypes.c_int64(0), ctypes.c_int64(end))


def own_of(program: str, schema: Optional[str], body: str = "") -> Own:
    """The server of this program: by its name, where no body is named."""
    is_service = body == "service" or not body and "mi_service" in os.path.basename(program)
    return Service(program, schema) if is_service else Piped(program, schema)
