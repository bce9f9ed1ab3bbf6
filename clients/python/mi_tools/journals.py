"""A service's journal, asked of a server as the service does at its start. Its files are read alone: they are neither locked nor changed, so the
service may go on with them meanwhile. A segment's text ends at its first zero byte. Behind that stands room, which are zeros that the service
writes over; a torn line may stand in front of it. The lines of a journal with a base are asked by the service alone (`journal_copies`)."""
from __future__ import annotations

import bisect
import errno
import hashlib
import json
import os
from typing import IO, Any, Callable, Dict, Iterator, List, Optional, Tuple

from mi_client import Database, Schema
from mi_client.commands import belongs_in_journal
from mi_tools.journal_names import base_path, numbers_of, segment_path
from mi_tools.meaning import hash_of

FORMAT = 1
LATER = 2
"""The format of a later segment."""
PIECE = 1 << 20
LONGEST_HEADER = 1_024


class Damaged(ValueError):
    """A line of a journal that the service would refuse. Its message begins with the place."""


class OtherSchema(ValueError):
    """A journal is of another schema than the one that is named."""


class Gone(OSError):
    """A rebase has changed a journal's files while they were read: read again they are whole."""


def has_base(journal: str) -> bool:
    """Whether a journal has a base, which the service alone reads."""
    return os.path.exists(base_path(journal))


def header_of(line: bytes, path: str, formats: Tuple[int, ...] = (FORMAT,)) -> Dict[str, Any]:
    """The members of a journal's first line. Raises Damaged."""
    try:
        found = json.loads(line)
    except (ValueError, RecursionError):
        found = None
    if not isinstance(found, dict) or found.get("journal") not in formats or not line.endswith(b"\n"):
        raise Damaged(f"{path}:1: no header of a journal of format {' or '.join(map(str, formats))}")
    return found


def number_in(line: bytes, path: str) -> int:
    """The number of the segment that has this first line. Raises Damaged."""
    found = header_of(line, path, (FORMAT, LATER))
    number = found.get("segment") if found["journal"] == LATER else 1
    if type(number) is not int or number < 1:
        raise Damaged(f"{path}:1: the header says no number of a segment")
    return number


def heading_of(line: bytes, path: str) -> Dict[str, Any]:
    """The members of a base's first line, which says behind which line of which segment it stands. Raises Damaged."""
    try:
        found = json.loads(line)
    except (ValueError, RecursionError):
        found = None
    if not isinstance(found, dict) or found.get("base") != FORMAT or type(found.get("segment")) is not int or found["segment"] < 1:
        raise Damaged(f"{path}:1: no heading of a base of format {FORMAT}")
    return found


def check_hash(path: str, digest: Any, schema: Optional[Schema], file: Optional[str], may_be_of_bytes: bool = False) -> None:
    """Raises OtherSchema where a journal's header or heading has another schema's hash than this one's, which was read from a file or is built in; and
    OSError."""
    if schema is None:
        raise OtherSchema(f"{path}: the schema is compared with the journal's, so --schema names a file that can be read twice")
    if digest != hash_of(schema) and not (may_be_of_bytes and digest == bytes_hash(file)):
        other = file or "the built-in table accounts"
        raise OtherSchema(f"{path}: the journal is of another schema than {other}: name the one that the service was started with by --schema FILE")


def check_schema(path: str, header: Dict[str, Any], schema: Optional[Schema], file: Optional[str]) -> None:
    """Raises OtherSchema where a first segment's header is of another schema, Damaged where its revision isn't the schema's first one, and OSError."""
    check_hash(path, header.get("schema"), schema, file, True)
    if schema is not None and header.get("revision") != schema.first_revision:
        raise Damaged(f"{path}:1: the header begins with the revision {header.get('revision')}, and its schema with {schema.first_revision}")


def bytes_hash(file: Optional[str]) -> str:
    """What stands for a schema in the checkpoints of a ledger's member over `mi_server`, which tells no hash: digits of its bytes' SHA-256."""
    data = b""
    if file is not None:
        with open(file, "rb") as schema:
            data = schema.read()
    return hashlib.sha256(data).hexdigest()[:16]


def text_of(handle: int) -> int:
    """Where the text of a journal's file ends: at its first zero byte."""
    at = 0
    while piece := os.pread(handle, PIECE, at):
        zero = piece.find(b"\0")
        if zero >= 0:
            return at + zero
        at += len(piece)
    return at


def end_before(handle: int, text: int) -> int:
    """Where the last newline ends that a file has before a place."""
    at = text
    while at:
        start = max(0, at - PIECE)
        newline = os.pread(handle, at - start, start).rfind(b"\n")
        if newline >= 0:
            return start + newline + 1
        at = start
    return 0


def end_of(handle: int) -> int:
    """Where the last newline of a journal's text ends. What stands before that stays as it is while the service goes on."""
    return end_before(handle, text_of(handle))


def lost_behind(handle: int, text: int) -> int:
    """How many bytes behind the text stand up to the last that is no zero: what a start would cut off. 0 where the service has written on there."""
    at, last = text, text
    while piece := os.pread(handle, PIECE, at):
        bare = len(piece.rstrip(b"\0"))
        last, at = at + bare if bare else last, at + len(piece)
    return last - text if os.pread(handle, 1, text) == b"\0" else 0


def open_listed(path: str) -> IO[bytes]:
    """A file of a journal, which was there when its folder was read. Raises Gone where it isn't any more."""
    try:
        return open(path, "rb")
    except FileNotFoundError:
        raise Gone(f"{path}: it was taken away while the journal was read, as by a rebase: read the journal again") from None


def segments_of(journal: str) -> List[str]:
    """The paths of the segments that a journal without a base has now, the first one first. Raises Damaged where one is missing, Gone where a base
    has come, and OSError."""
    numbers = numbers_of(journal)
    if not numbers:
        raise FileNotFoundError(errno.ENOENT, os.strerror(errno.ENOENT), journal)
    if has_base(journal):
        raise Gone(f"{base_path(journal)}: it came while the journal was read, as by a rebase: read the journal again")
    for wanted, number in enumerate(numbers, 1):
        if number != wanted:
            raise Damaged(f"{segment_path(journal, wanted)}: this segment is missing, and segment {number} is there")
    return [segment_path(journal, it) for it in numbers]


def later_header(first: Dict[str, Any], number: int, previous: str) -> bytes:
    """The first line of a later segment of a journal whose first one has this header: behind a segment with this SHA-256."""
    found = {"journal": LATER, "previous": previous, "revision": first.get("revision"), "schema": first.get("schema"), "segment": number}
    return json.dumps(found, separators=(",", ":")).encode() + b"\n"


class Lines:
    """The lines of a journal without a base, in their order, which are gone through once: those of the segments that are there at the beginning. Of
    each segment the lines are taken that it has when it is reached, so they are a front of the journal, whatever the service adds."""

    def __init__(self, journal: str) -> None:
        """Raises Damaged, Gone and OSError."""
        self._paths = segments_of(journal)
        with open_listed(self._paths[0]) as file:
            self.header = header_of(file.readline(LONGEST_HEADER), self._paths[0])
        self._before: List[int] = []
        """How many lines stand before each segment that was reached."""

    def place(self, count: int) -> str:
        """Where the line stands that has so many before it: its segment, and its number there, of which the header has 1."""
        n = bisect.bisect_right(self._before, count) - 1
        return f"{self._paths[n]}:{count - self._before[n] + 2}"

    def __iter__(self) -> Iterator[bytes]:
        """The lines with their newlines, and without the headers. Raises Damaged, Gone and OSError."""
        count = 0
        wanted: Optional[bytes] = None
        for number, path in enumerate(self._paths, 1):
            self._before.append(count)
            digest = hashlib.sha256()
            with open_listed(path) as file:
                for line in lines_in(file, path, wanted, number == len(self._paths), digest.update):
                    yield line
                    count += 1
            wanted = later_header(self.header, number + 1, digest.hexdigest())


def lines_in(file: IO[bytes], path: str, wanted: Optional[bytes], is_newest: bool, summed: Callable[[bytes], None]) -> Iterator[bytes]:
    """The lines of a segment behind its header, as many as there are at the beginning. A later one is to have the `wanted` header. All that is read
    is `summed`. Raises Damaged."""
    text = text_of(file.fileno())
    end, lost = end_before(file.fileno(), text), lost_behind(file.fileno(), text)
    if not is_newest and os.fstat(file.fileno()).st_size > end:
        raise Damaged(f"{path}: a torn line or room stands at its end, and a later segment is there")
    first = file.readline(max(end, text))
    if end or wanted is None or not wanted.startswith(first):  # (else its beginning was torn, and it has no line yet)
        check_first(first, path, wanted)
    summed(first)
    at, number = len(first), 2
    while at < end:
        line = file.readline()
        if not line.rstrip(b"\r\n"):
            raise Damaged(f"{path}:{number}: an empty line")
        summed(line)
        yield line
        at, number = at + len(line), number + 1
    if lost:
        raise Damaged(f"{path}:{number}: {lost_note(lost)}")


def check_first(line: bytes, path: str, wanted: Optional[bytes]) -> None:
    """Raises Damaged where a line isn't the header of a first segment, or of a later one not the one that is wanted."""
    if wanted is None:
        header_of(line, path)
    elif line != wanted:
        raise Damaged(f"{path}:1: no header that goes on with the segment before it: one of the two is another journal's, or was changed")


def lost_note(lost: int) -> str:
    """What is said of bytes that stand behind a text and zeros."""
    return f"zeros, and {lost} bytes up to the last that is none, which a start of the service would cut off"


def replay(db: Database, lines: Lines) -> None:
    """Asks a server with empty tables the lines, and undoes what was held at their end. Raises Damaged, Gone, OSError and Ended."""
    for count, reply in enumerate(db.ask_lines(lines)):
        if not belongs_in_journal(reply.encode()):
            raise Damaged(f"{lines.place(count)}: no line of a journal of this schema; the server answers {reply}")
    for _ in range(db.revision().held):
        db.undo()
