"""A service of its own on a copy of a journal: what asks a journal that has a base, since the service alone reads that. Of the journal itself nothing
is locked or changed, and another service may go on with it. The copy stands in a folder that its user alone enters (TMPDIR has its place), and is gone
once the service has read it."""
from __future__ import annotations

import contextlib
import os
import subprocess
import tempfile
from typing import IO, Any, List, NoReturn, Optional

from mi_client import Database, Ended, Schema
from mi_client.server import GUARD
from mi_tools.journal_names import base_path, numbers_of, segment_path
from mi_tools.journals import (LONGEST_HEADER, PIECE, Damaged, Gone, Lines, check_hash, check_schema, end_before, heading_of, lost_behind, lost_note,
                               open_listed, text_of)

PROBE_SECONDS = 60.0
"""How long a program may take to tell its options."""


class NoService(ValueError):
    """A program is no service, and is to read a base."""


def is_service(program: str) -> bool:
    """Whether a program is a service: its --help tells that it takes --journal. Raises OSError where it can't be started."""
    try:
        ran = subprocess.run([program, "--help"], stdin=subprocess.DEVNULL, capture_output=True, timeout=PROBE_SECONDS)
    except subprocess.TimeoutExpired:
        return False
    return b"--journal" in ran.stdout + ran.stderr


def no_service(journal: str, program: str, option: str) -> NoService:
    """What is raised where this program is to read a journal's base, and is none that does."""
    return NoService(f"{journal}: it has a base, which mi_service alone reads, and {program} isn't that (its --help names no --journal): "
                     f"name mi_service by {option}")


# The copy


def copy(journal: str, to: str) -> None:
    """Copies a journal's base, where it has one, and its segments from that on. Of the newest the whole lines are copied, of the others all, so that a
    service tells what is wrong there. A segment that is begun meanwhile is left out. Raises Gone where a rebase has changed the files meanwhile,
    Damaged and OSError."""
    with contextlib.ExitStack() as opened:
        base: Optional[IO[bytes]] = None
        first = 1
        with contextlib.suppress(FileNotFoundError):
            base = opened.enter_context(open(base_path(journal), "rb"))
        if base:
            first = heading_of(base.readline(LONGEST_HEADER), base_path(journal))["segment"]
            copy_bytes(base, base_path(to), os.fstat(base.fileno()).st_size)
        numbers = [it for it in numbers_of(journal) if it >= first]
        for number in numbers:
            path = segment_path(journal, number)
            with open_listed(path) as file:
                copy_bytes(file, segment_path(to, number), newest_end(file, path) if number == numbers[-1] else os.fstat(file.fileno()).st_size)
        if not is_base(base, journal):
            raise Gone(f"{base_path(journal)}: another one came while the journal was copied, as by a rebase: read the journal again")


def is_base(base: Optional[IO[bytes]], journal: str) -> bool:
    """Whether this is the base that a journal has now; None is none."""
    try:
        now = os.stat(base_path(journal))
    except FileNotFoundError:
        return base is None
    return base is not None and os.path.samestat(os.fstat(base.fileno()), now)


def newest_end(file: IO[bytes], path: str) -> int:
    """Where the whole lines of a newest segment end. Raises Damaged where bytes stand behind zeros: a start would cut them off without a word."""
    text = text_of(file.fileno())
    lost = lost_behind(file.fileno(), text)
    if lost:
        raise Damaged(f"{path}: {lost_note(lost)}")
    return end_before(file.fileno(), text)


def copy_bytes(source: IO[bytes], to: str, size: int) -> None:
    """Copies so many bytes from the start of a file to a new one. Raises OSError."""
    source.seek(0)
    with open(to, "xb") as target:
        while size:
            piece = source.read(min(size, PIECE))
            if not piece:
                raise OSError(f"{source.name}: the file has become shorter")
            target.write(piece)
            size -= len(piece)


# The service


class Service:
    """A service that was started with these words. It ends with this process, however that ends."""

    def __init__(self, words: List[str]) -> None:
        """Raises OSError."""
        quiet: Any = {"stdout": subprocess.DEVNULL, "stderr": subprocess.DEVNULL, "start_new_session": True}
        pipes: Any = {"stdin": subprocess.DEVNULL, "stdout": subprocess.PIPE, "stderr": subprocess.PIPE}
        # (an interrupt at the terminal is for the tool; with SIGXFSZ ignored, as Python has it, a file without room is told)
        self._process: subprocess.Popen[bytes] = subprocess.Popen(words, start_new_session=True, restore_signals=False, **pipes)
        self._guard: subprocess.Popen[bytes] = subprocess.Popen([*GUARD, str(self._process.pid)], stdin=subprocess.PIPE, **quiet)

    def listens(self) -> bool:
        """Waits until it listens, or ends."""
        assert self._process.stdout
        return self._process.stdout.readline().startswith(b"listening ")

    def ended(self) -> subprocess.CompletedProcess[str]:
        """Waits until it ends, and answers its status and what it said of that."""
        said = self._process.communicate()[1].decode(errors="replace").strip()
        return subprocess.CompletedProcess(self._process.args, self._process.returncode, "", said)

    def close(self) -> None:
        """Ends it. Twice is fine."""
        for it in (self._guard, self._process):
            it.kill()
            it.wait()
        for stream in (self._process.stdout, self._process.stderr, self._guard.stdin):
            if stream:
                stream.close()


class OnCopy(Database):
    """A connection to a service of its own, which ends with it."""

    service: Optional[Service] = None

    @classmethod
    def of(cls, service: Service, socket: str, schema: Optional[Schema]) -> OnCopy:
        """A connection to this service, which listens at a path. Raises OSError."""
        db = cls.connect(socket, None, schema)
        assert isinstance(db, OnCopy)
        db.service = service
        return db

    def close(self) -> None:
        super().close()
        if self.service:
            self.service.close()


def on_a_copy(program: str, journal: str, schema: Optional[str]) -> OnCopy:
    """A connection to a service, this program, with the tables of a journal. `schema` is the schema's file. Raises Damaged with what the service says
    where it refuses the journal, OtherSchema, Gone and OSError; Ended where the service ends otherwise, and ValueError where the schema is none."""
    read = schema_read(schema)
    check_kept_schema(journal, read, schema)
    with tempfile.TemporaryDirectory(prefix="weltiyo-") as folder:
        copied, socket = f"{folder}/journal", f"{folder}/socket"
        copy(journal, copied)
        service = Service([program, "--unix", socket, "--journal", copied, "--sync", "never", *(["--schema", schema] if schema else [])])
        try:
            if not service.listens():
                refuse(service.ended(), program, journal, copied)
            return OnCopy.of(service, socket, read)
        except BaseException:
            service.close()
            raise


def schema_read(file: Optional[str]) -> Optional[Schema]:
    """The schema of a file, or the built-in one; None where it can't be read twice, as from a pipe. Raises OSError and ValueError."""
    if file is None:
        return Schema.built_in()
    return Schema.read(file) if os.path.isfile(file) or not os.path.exists(file) else None


def check_kept_schema(journal: str, schema: Optional[Schema], file: Optional[str]) -> None:
    """Raises OtherSchema where a journal is of another schema, by its base or else its first header; Damaged, Gone and OSError."""
    try:
        with open(base_path(journal), "rb") as base:
            check_hash(journal, heading_of(base.readline(LONGEST_HEADER), base_path(journal)).get("schema"), schema, file)
    except FileNotFoundError:
        check_schema(journal, Lines(journal).header, schema, file)


def refuse(ended: subprocess.CompletedProcess[str], program: str, journal: str, copied: str) -> NoReturn:
    """Raises what a service's end means, which had this copy of a journal."""
    said = ended.stderr.replace(copied, journal)
    if said.startswith("journal: "):
        ending = f": {journal}"
        raise Damaged(f"{journal}: {program} refuses it: {said[:-len(ending)] if said.endswith(ending) else said}")
    raise Ended(f"{program} ended with status {ended.returncode}{': ' if said else ''}{said}")
