"""A member's checkpoint: a file NAME.<identity>.<20 digits>.<16 digits>.<16 digits>.journal, or .checkpoint, with what a server needs that is to have
all lines up to the end of the entry of the first number of the ledger of this identity; the sum of the log up to there, and what the file's own bytes
come to, stand behind it. One that ends in .journal is a journal with all the lines, so `scripts/journal.py` checks it and counts it. In one that ends in
.checkpoint a base stands in front, and the lines follow that (`based.py`). A file of this name is written whole: it gets the name once it and what it has
are on the disk. Whoever changes it gives it another name, or it is damaged."""
from __future__ import annotations

import contextlib
import hashlib
import json
import os
import re
import shutil
import subprocess
import sys
import tempfile
from typing import Callable, Iterable, Iterator, List, NamedTuple, Optional, Tuple

from mi_replica.based import BASE, PIECE, clean, parts_of
from mi_replica.front import SUM_DIGITS, Front
from mi_replica.log import OtherLedger

HEADER_FORMAT = 1
LINES, BASED = "journal", "checkpoint"
"""What the name of a checkpoint ends in: of one with all lines, and of one with a base."""
ASIDE = ".damaged"
"""What the name of a checkpoint that can't be read ends in, so that it is none any more."""
REPLACED = ".replaced"
"""And of one whose place another member's took: that may stand on others, if etcd's data was put back and those have left the log."""
TOOL = os.path.normpath(f"{os.path.dirname(os.path.realpath(__file__))}/../../../scripts/journal.py")
"""What drops blocks that were undone. A checkout has it; where it isn't there checkpoints stay whole."""


def header(revision: int, schema: str) -> bytes:
    """The first line of a journal."""
    return json.dumps({"journal": HEADER_FORMAT, "revision": revision, "schema": schema}, separators=(",", ":")).encode() + b"\n"


def digest_of(path: str) -> str:
    """What the bytes of a file come to: the first digits of their SHA-256."""
    found = hashlib.sha256()
    with open(path, "rb") as file:
        for piece in iter(lambda: file.read(PIECE), b""):
            found.update(piece)
    return found.hexdigest()[:SUM_DIGITS]


class Damaged(Exception):
    """A checkpoint isn't what was written."""


class Checkpoint(NamedTuple):
    """Up to where a file has the log, what its bytes come to, and where it is."""

    front: Front
    digest: str
    path: str

    def check(self) -> None:
        """Raises Damaged where the file isn't the one that was written, and OSError where it can't be read."""
        found = digest_of(self.path)
        if found != self.digest:
            raise Damaged(f"the bytes of {self.path} come to {found}")


class Folder:
    """Where the checkpoints of one member stand, of which only the newest is kept. `shorter` makes the file of one shorter, where it can. Raises
    OtherLedger where one is another ledger's."""

    def __init__(self, path: str, name: str, identity: str, shorter: Optional[Callable[[str], None]] = None) -> None:
        os.makedirs(path, exist_ok=True)
        self.path, self._name, self._shorter = path, f"{name}.{identity}", shorter or shorten
        self._pattern = re.compile(re.escape(self._name) + rf"\.(\d{{20}})\.([0-9a-f]{{{SUM_DIGITS}}})\.([0-9a-f]{{{SUM_DIGITS}}})\.({LINES}|{BASED})")
        clean(path)
        for it in os.listdir(path):
            if it.startswith(f"{name}.new."):  # (which a member that was killed has left)
                remove(f"{path}/{it}")
            elif re.fullmatch(re.escape(name) + rf"\.([^.]*\.)?\d{{20}}\.([^.]*\.){{0,2}}({LINES}|{BASED})", it) and not self._pattern.fullmatch(it):
                raise OtherLedger(
                    f"{path}/{it} is a checkpoint of another ledger: {name} in etcd has the identity {identity}. Name another --folder, or move"
                    " that file away: then this member takes what the ledger in etcd has"
                )
        self._temporary = f"{name}.new."

    def _all(self) -> List[Checkpoint]:
        found = filter(None, map(self._pattern.fullmatch, os.listdir(self.path)))
        return [Checkpoint(Front(int(it[1]), it[2]), it[3], f"{self.path}/{it[0]}") for it in found]

    def newest(self) -> Optional[Checkpoint]:
        return max(self._all(), default=None)

    def set_aside(self, checkpoint: Checkpoint, ending: str = ASIDE) -> str:
        """Takes a checkpoint for none. It stays beside the others, by a name that is answered; one that was set aside so before leaves,
        so that these aren't more and more."""
        aside = checkpoint.path + ending
        os.replace(checkpoint.path, aside)
        for it in os.listdir(self.path):
            if it.startswith(f"{self._name}.") and it.endswith(ending) and f"{self.path}/{it}" != aside:
                os.unlink(f"{self.path}/{it}")
        self._sync()
        return aside

    def write(self, front: Front, first: bytes, entries: Iterable[Tuple[int, bytes]]) -> Checkpoint:
        """Writes a checkpoint up to here: the newest one, or the header, and the entries behind it, of which it may have some already. Raises
        Damaged where that isn't what was written, or isn't there any more, so that the entries don't follow."""
        old = self.newest()
        with self.new_file() as path:
            with open(path, "wb") as target:
                if old:
                    old.check()
                    with open(old.path, "rb") as source:
                        shutil.copyfileobj(source, target, PIECE)
                else:
                    target.write(first)
                before = old.front.number if old else 0
                for at, lines in entries:
                    if at > before + 1:
                        raise Damaged(f"entry {at} doesn't follow {before}, up to where the checkpoint in {self.path} goes")
                    if at > before:
                        target.write(lines)
                    before = max(at, before)
            self._shorter(path)
            return self.keep(path, front)

    @contextlib.contextmanager
    def new_file(self) -> Iterator[str]:
        """An empty file beside the checkpoints, which is gone behind the block unless it was kept."""
        handle, path = tempfile.mkstemp(dir=self.path, prefix=self._temporary)
        os.close(handle)
        try:
            yield path
        finally:
            with contextlib.suppress(FileNotFoundError):
                os.unlink(path)

    def keep(self, path: str, front: Front, digest: str = "") -> Checkpoint:
        """Makes a file the checkpoint up to here, and the only one. Where a digest is given, it is another member's: ValueError is raised
        where its bytes don't come to that, and the one before is set aside."""
        found = digest_of(path)
        if digest not in ("", found):
            raise ValueError(f"its bytes come to {found}, and not to {digest}")
        with open(path, "rb") as file:
            ending = BASED if file.read(len(BASE)) == BASE else LINES
            os.fsync(file.fileno())
        made = Checkpoint(front, found, f"{self.path}/{self._name}.{front.number:020}.{front.sum}.{found}.{ending}")
        os.rename(path, made.path)
        self._sync()
        for it in sorted(self._all()):
            if it.path != made.path and digest:
                self.set_aside(it, REPLACED)
            elif it.path != made.path:
                os.unlink(it.path)
        return made

    def _sync(self) -> None:
        handle = os.open(self.path, os.O_RDONLY | os.O_DIRECTORY)
        try:
            os.fsync(handle)
        finally:
            os.close(handle)


def remove(path: str) -> None:
    """Removes a file, or a folder with all that it has."""
    if os.path.isdir(path):
        shutil.rmtree(path)
    else:
        os.unlink(path)


def shorten(path: str) -> None:
    """Drops blocks that were undone, where the tool for it is there. Where that fails the file stays as it is."""
    if os.path.isfile(TOOL):
        words = ["nice", "-n", "10", sys.executable, TOOL, "compact", path]
        with contextlib.suppress(OSError):
            subprocess.run(words, stdin=subprocess.DEVNULL, stdout=subprocess.DEVNULL, stderr=subprocess.DEVNULL)


def batches(path: str) -> Iterator[List[bytes]]:
    """The lines of a checkpoint that no base of it has, some at a time, each with its newline. Raises ValueError where it is no journal, which
    has no empty line either (to one a server answers nothing)."""
    parts = parts_of(path)
    with open(path, "rb") as file:
        file.seek(parts.lines)
        for _ in range(parts.covered):
            file.readline()
        while True:
            lines = file.readlines(PIECE)
            if not lines:
                return
            if not lines[-1].endswith(b"\n"):
                raise ValueError(f"{path}: torn")
            if b"\n" in lines or b"\r\n" in lines:
                raise ValueError(f"{path}: an empty line")
            yield lines
