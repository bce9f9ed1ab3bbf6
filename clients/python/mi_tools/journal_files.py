"""How the files of a service's journal stand: its segments and its base, by their names and sizes. Of a segment and of the base alone the first line is
read, and no file is changed."""
from __future__ import annotations

import contextlib
import os
import time
from typing import Iterable, NamedTuple, Optional

from mi_tools.journal_names import base_path, numbers_of, segment_path
from mi_tools.journals import LONGEST_HEADER, heading_of, number_in


class Base(NamedTuple):
    size: int
    """Its bytes."""
    age: int
    """How many seconds ago it was written, by the time of its file."""


class Files(NamedTuple):
    segments: int
    """How many segments are there."""
    newest: int
    """The number of the newest."""
    size: int
    """The bytes of all segments, with the room behind their text."""
    base: Optional[Base] = None
    covered: int = 0
    """How many of the segments the base covers, so that no start reads them."""


def stat_of(path: str) -> Optional[os.stat_result]:
    """What the system tells of a file; None where it isn't there, or no longer. Raises OSError where it may not be seen."""
    with contextlib.suppress(FileNotFoundError):
        return os.stat(path)
    return None


def base_of(journal: str) -> Optional[Base]:
    """The base, where there is one. Raises OSError."""
    found = stat_of(base_path(journal))
    return None if found is None else Base(found.st_size, max(0, int(time.time() - found.st_mtime)))


def covered_in(journal: str, numbers: Iterable[int]) -> int:
    """How many of these segments the base covers, by its first line; 0 where that doesn't tell."""
    try:
        with open(base_path(journal), "rb") as file:
            first = heading_of(file.readline(LONGEST_HEADER), journal)["segment"]
        return sum(it < first for it in numbers)
    except (OSError, ValueError):
        return 0


def files_of(journal: str) -> Optional[Files]:
    """How the files stand, without those that go meanwhile; None where no segment is there. Raises OSError where they can't be seen."""
    stats = ((it, stat_of(segment_path(journal, it))) for it in numbers_of(journal))
    sizes = {it: found.st_size for it, found in stats if found is not None}
    return Files(len(sizes), max(sizes), sum(sizes.values()), base_of(journal), covered_in(journal, sizes)) if sizes else None


def journal_of(segment: str) -> Optional[str]:
    """The journal that has this segment, whose number its header tells; None where its name has another one. Raises Damaged and OSError."""
    with open(segment, "rb") as file:
        end = segment_path("", number_in(file.readline(LONGEST_HEADER), segment))
    return segment[:len(segment) - len(end)] if segment.endswith(end) else None


def files_beside(locked: Optional[str]) -> Optional[Files]:
    """How the files stand of the journal whose newest segment a service has locked, by what /proc has for it. None where they can't be seen, as
    those of another user's service, or where the segment has no name any more."""
    if locked is None:
        return None
    path = os.path.realpath(locked)
    with contextlib.suppress(OSError, ValueError):
        journal = journal_of(path) if os.path.samefile(path, locked) else None
        return None if journal is None else files_of(journal)
    return None
