"""Files that come whole: a new one is written beside the old one, as NAME.part, and takes its place once all of it is on the disk. So the old
one is there until then. Its mode stays, and its owner and group where they may. Symbolic links are followed; a hard link keeps the old rows."""
from __future__ import annotations

import contextlib
import fcntl
import os
import shutil
from typing import IO, Iterator, Optional

PART = ".part"
MOST_LINKS = 40


def place_of(path: str) -> Optional[str]:
    """Where the file of this name stands or would, behind its links. None where something else is there, as a device or a pipe, or what a process
    has open, as /dev/stdout: that is written as it is."""
    for _ in range(MOST_LINKS):
        folder = os.path.realpath(os.path.dirname(path) or ".")
        if folder.startswith("/proc/"):
            return None
        place = os.path.join(folder, os.path.basename(path))
        if not os.path.islink(place):
            return place if os.path.isfile(place) or not os.path.exists(place) else None
        path = os.path.join(folder, os.readlink(place))
    return None


def part_of(path: str) -> Optional[str]:
    """What the new file is called until it is whole; None where none is made."""
    place = None if path == "-" else place_of(path)
    return f"{place}{PART}" if place is not None else None


@contextlib.contextmanager
def replacing(place: str, kept: int = 0, is_gone_on_with: bool = False) -> Iterator[IO[bytes]]:
    """A file that takes this place at the end of the block. The first `kept` bytes are those of the part that a run before has left, else of the
    file that is there. Where the block raises the file stays as it was, and the part stays where it may be gone on with. Raises OSError."""
    part, old = f"{place}{PART}", None
    with contextlib.suppress(FileNotFoundError):
        old = os.stat(place)
        os.close(os.open(place, os.O_WRONLY))  # (which says where it may not be written)
    with _claimed(part, 0o666 if old is None else 0o600) as file:
        try:
            if old is not None:
                _take_after(file.fileno(), old)
            _keep(file, kept, place)
            yield file
            file.flush()
            os.fsync(file.fileno())
        except BaseException:
            if not is_gone_on_with:
                os.unlink(part)
            raise
        os.rename(part, place)
    _sync_folder(os.path.dirname(place))


def _claimed(part: str, mode: int) -> IO[bytes]:
    """The part, locked. Raises OSError where another run writes it."""
    while True:
        file = open(os.open(part, os.O_RDWR | os.O_CREAT | os.O_NOFOLLOW | os.O_CLOEXEC, mode), "rb+")
        try:
            fcntl.flock(file, fcntl.LOCK_EX | fcntl.LOCK_NB)
            if os.path.samestat(os.fstat(file.fileno()), os.stat(part)):
                return file
        except BlockingIOError:
            file.close()
            raise OSError(f"{part} is being written by another run") from None
        except FileNotFoundError:
            pass
        except BaseException:
            file.close()
            raise
        file.close()  # (the other run has ended meanwhile, and its part is the file now)


def _take_after(handle: int, old: os.stat_result) -> None:
    """Gives a new file the owner, the group and the mode of the old one."""
    for owner, group in ((old.st_uid, -1), (-1, old.st_gid)):
        with contextlib.suppress(PermissionError):
            os.fchown(handle, owner, group)
    os.fchmod(handle, old.st_mode & 0o7777)


def _keep(file: IO[bytes], kept: int, place: str) -> None:
    """Leaves the first bytes alone, and stands behind them."""
    if file.seek(0, os.SEEK_END) < kept:
        file.seek(0)
        with open(place, "rb") as old:
            shutil.copyfileobj(old, file)
    file.truncate(kept)
    file.seek(kept)


def _sync_folder(folder: str) -> None:
    """Makes a rename stay, where the file system knows that of folders."""
    with contextlib.suppress(OSError):
        handle = os.open(folder, os.O_RDONLY | os.O_DIRECTORY)
        try:
            os.fsync(handle)
        finally:
            os.close(handle)
