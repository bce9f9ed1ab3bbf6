"""The file of a checkpoint in its parts: a base, where it has one, and behind it a segment of a journal.

    {"base":1,"line":L,..,"segment":S,..}    the base as `mi_service --rebase` writes it: the tables behind line L of segment S
    ..
    {"sha256":".."}                          its last line
    {"journal":2,..,"segment":S}             the header of segment S, and behind it all its lines; L of them are in the base

Without a base it is a journal of one file. `mi_service` alone makes and reads a base, of a journal that stands in a folder of its own."""
from __future__ import annotations

import contextlib
import hashlib
import json
import mmap
import os
import shutil
import subprocess
import tempfile
import threading
from typing import IO, Any, Callable, Iterator, List, NamedTuple, Optional

from mi_client.server import GUARD
from mi_tools.journal_names import base_path, numbers_of, segment_path

PIECE = 1 << 18
LONGEST_HEADER = 1 << 12
BASE, HEADER, FIRST, DIGEST = b'{"base":', b'{"journal":', b'{"journal":1,', b'\n{"sha256":'
"""How a base begins, any segment's header, that of the first segment, and a base's last line."""
SESSIONS = b"journal: sessions"
"""What a rebase says where a session has been open since an earlier segment: it changes nothing then."""
QUIETLY = ["nice", "-n", "10"]
"""How a rebase is run: beside a server whose clients wait for it."""
MEMORY = "/dev/shm"
"""A folder of files in memory, where the system has one."""


class Parts(NamedTuple):
    base: int
    """How many bytes the base has, or 0."""
    segment: int
    """The number of the segment behind it."""
    covered: int
    """How many of the segment's lines the base has."""
    lines: int
    """Behind so many bytes the segment's header ends."""


def parts_of(path: str) -> Parts:
    """Where the parts of a checkpoint stand. Raises ValueError where it has no header, or its base no end."""
    with open(path, "rb") as file:
        first, heading, size = file.readline(LONGEST_HEADER), {"segment": 1, "line": 0}, 0
        if first.startswith(BASE):
            heading, size = heading_of(first, path), size_of_base(file, path)
            file.seek(size)
            first = file.readline(LONGEST_HEADER)
    if not first.startswith(HEADER if size else FIRST) or not first.endswith(b"\n"):
        raise ValueError(f"{path}: no header")
    return Parts(size, heading["segment"], heading["line"], size + len(first))


def heading_of(line: bytes, path: str) -> Any:
    """The members of a base's first line. Raises ValueError."""
    found = json.loads(line)
    if not all(type(found.get(it)) is int and found[it] >= 0 for it in ("segment", "line")):
        raise ValueError(f"{path}: no heading of a base")
    return found


def size_of_base(file: IO[bytes], path: str) -> int:
    """How many bytes the base at the beginning of a file has. No line but its last begins as that does."""
    with mmap.mmap(file.fileno(), 0, access=mmap.ACCESS_READ) as data:
        at = data.find(DIGEST)
        end = data.find(b"\n", at + 1)
    if at < 0 or end < 0:
        raise ValueError(f"{path}: a base without an end")
    return end + 1


def unpack(path: str, journal: str, is_base_alone: bool = False) -> str:
    """Writes the parts of a checkpoint as the files of a journal, and answers its segment's path. Where the base alone is wanted the segment has
    no line behind it. Raises ValueError and OSError."""
    parts = parts_of(path)
    segment = segment_path(journal, parts.segment)
    with open(path, "rb") as source:
        if parts.base:
            with open(base_path(journal), "wb") as target:
                copy(source, target, parts.base)
        with open(segment, "wb") as target:
            if is_base_alone:
                target.writelines(source.readline() for _ in range(1 + parts.covered))
            else:
                shutil.copyfileobj(source, target, PIECE)
    return segment


def copy(source: IO[bytes], target: IO[bytes], size: int) -> None:
    while size:
        piece = source.read(min(size, PIECE))
        if not piece:
            raise OSError("the file has become shorter")
        target.write(piece)
        size -= len(piece)


def join(journal: str, path: str) -> None:
    """Writes a journal's base and its segment as a checkpoint. Raises ValueError where it has no base, or lines in a segment behind that."""
    with open(base_path(journal), "rb") as file:
        number = heading_of(file.readline(LONGEST_HEADER), journal)["segment"]
    for it in numbers_of(journal):
        with open(segment_path(journal, it), "rb") as file:
            if it > number and file.readline() and file.read(1):
                raise ValueError(f"{journal}: segment {it} has lines")
    with open(path, "wb", opener=lambda name, how: os.open(name, how, 0o600)) as target:
        for name in (base_path(journal), segment_path(journal, number)):
            with open(name, "rb") as source:
                shutil.copyfileobj(source, target, PIECE)
    with open(path, "rb") as file:
        file.seek(-1, os.SEEK_END)
        if file.read() != b"\n":
            raise ValueError(f"{journal}: segment {number} has no whole last line")


class Rebase:
    """Makes a checkpoint shorter, in a thread that waits: what it has becomes a base. A run of `mi_service` does that, with memory for the tables once more."""

    def __init__(self, program: str, schema: Optional[str], say: Callable[[str], None]) -> None:
        self._words = [program, *(["--schema", schema] if schema else []), "--rebase", "--journal"]
        self._say, self._lock, self._is_over = say, threading.Lock(), False
        self._ran: Optional["subprocess.Popen[bytes]"] = None

    def __call__(self, path: str) -> None:
        """Where the base can't be made the file stays as it is, with its lines: so while its sessions are open for long. While the lines behind a base
        have fewer bytes than that none is made: it would take more than it gives."""
        folder = f"{path}.parts"
        try:
            base = parts_of(path).base
            if os.path.getsize(path) - base < base:
                return
            os.mkdir(folder, 0o700)
            unpack(path, f"{folder}/journal")
            if self._is_done(f"{folder}/journal"):
                join(f"{folder}/journal", f"{folder}/made")
                os.replace(f"{folder}/made", path)
        except (OSError, ValueError) as error:
            self._say(f"the checkpoint keeps its lines, without a new base: {error}")
        finally:
            shutil.rmtree(folder, ignore_errors=True)

    def hurry(self) -> None:
        """Ends a run: the checkpoint of its time keeps its lines."""
        with self._lock:
            if self._ran:
                self._ran.kill()
                self._ran = None

    def end(self) -> None:
        """The same, and none begins behind that."""
        self._is_over = True
        self.hurry()

    def _is_done(self, journal: str) -> bool:
        """Runs a rebase, whose program ends with this process. Raises OSError where it fails, but for open sessions, or an end that was wanted."""
        quiet = {"stdin": subprocess.DEVNULL, "stdout": subprocess.DEVNULL, "start_new_session": True}
        with self._lock:
            if self._is_over:
                return False
            words = [*QUIETLY, *self._words, journal]
            self._ran = ran = subprocess.Popen(words, stderr=subprocess.PIPE, restore_signals=False, **quiet)  # type: ignore[call-overload]
        with guarded(ran):
            said = ran.communicate()[1].strip()
        with self._lock:
            was_ended, self._ran = self._ran is None, None
        if ran.returncode and not said.startswith(SESSIONS) and not was_ended:
            raise OSError(f"a rebase ended with status {ran.returncode}: {said[-200:].decode(errors='replace')}")
        return bool(ran.returncode == 0)


@contextlib.contextmanager
def guarded(ran: "subprocess.Popen[bytes]") -> Iterator[None]:
    """Within the block a process ends where this one does, however that comes."""
    quiet = {"stdout": subprocess.DEVNULL, "stderr": subprocess.DEVNULL, "start_new_session": True}
    with subprocess.Popen([*GUARD, str(ran.pid)], stdin=subprocess.PIPE, **quiet) as guard:  # type: ignore[call-overload]
        try:
            yield
        finally:
            guard.kill()


def places_for(path: str) -> List[str]:
    """How the paths begin of folders where a copy of a checkpoint may stand: in memory, so that a full disk stops no server, and else beside it."""
    folder, name = os.path.split(os.path.abspath(path))
    beside = f"{folder}/{name.partition('.')[0]}.new."
    return [it for it in (in_memory(folder), beside) if it]


def in_memory(folder: str) -> str:
    """How the paths begin of folders in memory whose files are copies of a folder's; the empty text where the system has no such place."""
    if not os.path.isdir(MEMORY) or not os.access(MEMORY, os.W_OK | os.X_OK):
        return ""
    path = hashlib.sha256(os.fsencode(os.path.realpath(folder))).hexdigest()
    return f"{MEMORY}/mi_replica-{os.stat(folder).st_dev:x}-{path[:16]}-"


def clean(folder: str) -> None:
    """Removes the copies that a member which was killed has left in memory."""
    begins = os.path.basename(in_memory(folder))
    for it in os.listdir(MEMORY) if begins else []:
        if it.startswith(begins):
            shutil.rmtree(f"{MEMORY}/{it}", ignore_errors=True)


def copied(path: str) -> str:
    """A new folder with the base of a checkpoint, and with its segment as far as the base has that: the files of a journal of the name `journal`. Raises
    ValueError, and OSError where there is no room."""
    *others, last = places_for(path)
    for begins in others:
        with contextlib.suppress(OSError):
            return copied_to(begins, path)
    return copied_to(last, path)


def copied_to(begins: str, path: str) -> str:
    folder = tempfile.mkdtemp(prefix=os.path.basename(begins), dir=os.path.dirname(begins))
    try:
        unpack(path, f"{folder}/journal", is_base_alone=True)
    except BaseException:
        shutil.rmtree(folder, ignore_errors=True)
        raise
    return folder
