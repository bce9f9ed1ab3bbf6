"""Disks that are full and have room by turns, and callers of a service whose journal is on one. `crash.py` and `crowd.py` use them."""
import contextlib
import os
import subprocess
import tempfile
import time

from journal import end_of
from stress import service
from stress.callers import Load
from stress.journal_walk import Differs

LOOKING = 2_000
"""Bytes that the lines for looking need at most."""
ASKED_ROOM = 65_536 + 1 + 65_536
"""Bytes of room without which a service refuses changes: the longest line, its newline, and what is kept for undoing."""


class Limit:
    """In the place of a disk a limit of files' sizes, behind which a write fails as on a full disk."""

    def __init__(self, folder):
        self.file, self.size = f"{folder}/journal", 0

    def takes(self, more, at_once=False):
        """It has room for so many bytes more."""
        self.size = max(self.size, os.path.getsize(self.file)) + more

    def full(self):
        """It has no byte more than what is there."""
        self.size = os.path.getsize(self.file)

    def set(self, running):
        """It is that of a service that runs."""
        service.limit_files(running.process.pid, self.size)

    def close(self):
        """Nothing of it is left."""


class SmallDisk:
    """A file system in memory, which root makes. Its space is taken by another file, but for some pages."""

    PAGE = 4096

    def __init__(self, folder):
        self.folder, self.others, self.size, self.owed = folder, f"{folder}/others", None, 0
        if subprocess.run(["mount", "-t", "tmpfs", "-o", "size=2m", "tmpfs", folder], stderr=subprocess.DEVNULL).returncode:
            raise PermissionError("a file system of its own needs root")

    def takes(self, more, at_once=False):
        """It has room for so many bytes more, once they are a page; or for a page that begins, at once."""
        self.owed += more + at_once * (self.PAGE - 1)
        pages, self.owed = divmod(self.owed, self.PAGE)
        os.truncate(self.others, max(0, os.path.getsize(self.others) - pages * self.PAGE))

    def full(self):
        """The other file takes what is left."""
        with contextlib.suppress(OSError), open(self.others, "ab", buffering=0) as file:
            while file.write(bytes(self.PAGE)):
                pass

    def set(self, running):
        """It is that of a service that runs."""

    def close(self):
        subprocess.run(["umount", self.folder], check=True)


class Filling(Load):
    """Callers of a service whose disk is full most of the time; now and then it has room for some lines."""

    PAUSE = 0.05, 0.3
    """Seconds in which it has no more room, at least and at most."""

    def __init__(self, disk, *how):
        super().__init__(*how)
        self.disk, self.next_room = disk, 0

    def step(self):
        if time.monotonic() > self.next_room:
            self.next_room = time.monotonic() + self.pick.uniform(*self.PAUSE)
            self.disk.takes(self.pick.choice([0, 100, 400, 1_500]))
            self.disk.set(self.running)
        super().step()


def room_of(path):
    """How many bytes a journal has behind its last newline."""
    with open(path, "rb") as file:
        return os.fstat(file.fileno()).st_size - end_of(file.fileno())


def takes_looking(disk, journal):
    """A disk has room so that the tables can be looked at. (Undoing takes of what is kept for it.)"""
    lacks = LOOKING + ASKED_ROOM - room_of(journal)
    if lacks > 0:
        disk.takes(lacks, at_once=True)


def on_each(folder, runs):
    """Something that is run on each kind of disk, in a folder there, and answers how many lines were refused and how many weren't. What they
    saw."""
    seen, refused = [], 0
    for kind, what in ((Limit, "under a limit"), (SmallDisk, "on a small disk")):
        home = tempfile.mkdtemp(dir=folder)
        try:
            disk = kind(home)
        except OSError as why:
            seen.append(f"{what}: left out, {why}")
            continue
        try:
            more, done = runs(home, disk)
        finally:
            disk.close()
        refused += more
        seen.append(f"{what}: {more} changes refused, {done} lines done")
    if not refused:
        raise Differs(f"on disks that are full at times no line was refused: {'; '.join(seen)}")
    return "; ".join(seen)
