#!/usr/bin/env python3
"""Reads journals: files of the lines that changed a database, in the order in which they were executed.

    journal.py check FILE [--replay PROGRAM [--schema FILE]]    whether each line is whole and a change's; with --replay, whether PROGRAM takes it as one,
                                                                and the schema is the header's
    journal.py stat FILE                                        lines by command, sessions, sizes
    journal.py compact FILE [--to NEW]                          a shorter journal of the same database, in a new file that is then renamed
    journal.py copy FILE NEW                                    its text up to the last newline, also of one that is in use

A journal may have a base, FILE.base, which has the tables behind some line, and segments, FILE.000002 and on: `mi_service` makes them, the base by
--rebase. check, stat and copy take them all, from the base on, and no segment that the base covers; compact takes a journal of one file, and
`mi_service --rebase` makes others shorter.

--replay PROGRAM asks `mi_server` the lines of all segments, and each reply is to be one of a change. `mi_service`, which alone reads a base, is started
on a copy in TMPDIR, and ended once it listens, or says what is wrong. It is told by its --help, which names --journal.

A journal's first line is its header, {"journal":1,"revision":R,"schema":"HASH"}: the format, the first revision and the hash of the
schema. That of a later segment has its number too, and the SHA-256 of the segment before it. It is no command, so `mi_server < FILE` refuses it and
then does the other lines, as one connection. Of each holder that went away there is an undo for each session that it held. A journal's text ends at
its first zero byte. Behind its last newline a torn line may stand, and behind the text room: zeros that the service writes over. Where other bytes
stand behind zeros, a start of the service would cut them off; that is damage here, but for `copy`. Of a file that is in use the text is read that is
there at the beginning.

compact drops whole blocks that were undone, from the start to the undo: an undo restores everything, counters too. It follows squash,
commit, undo_all and push. A commit inside such a block has ended sessions below it, so it stays; a push stays where the sessions below
were held. So the database is the same, the open sessions are, and as many of them are held. The file must not be in use meanwhile: it is
locked, and a file that another program has locked is refused; so are a file whose place the new one takes, and the new one until its name
stays. Where --to names no file yet, one that has come meanwhile keeps its name, and the status is 4. Symbolic links are followed.

Statuses: 0; 2 where the words are wrong, or name another schema than the journal's; 3 where the journal or its base is damaged, with the number of
the first such line, from 1; 4 where a file can't be read or written, or is in use, or a rebase comes meanwhile. A torn end is said, and is no damage."""
import argparse
import bisect
import collections
import contextlib
import fcntl
import hashlib
import itertools
import os
import re
import resource
import signal
import stat as modes
import subprocess
import sys
import tempfile
import threading
import time

import bases
from reference import CHANGES, LONGEST_LINE, MOST_SESSIONS, STEPS, Refusal, form, is_count, is_text, read

sys.path.insert(0, f"{os.path.dirname(os.path.dirname(os.path.realpath(__file__)))}/clients/python")

from mi_tools import journals  # noqa: E402
from mi_tools.journal_copies import is_service, no_service, on_a_copy  # noqa: E402
from mi_tools.journals import end_before, end_of, lost_behind, text_of  # noqa: E402, F401

FORMAT = 1
DIGITS = re.compile("[0-9a-f]+")
SESSIONS = ("start", "undo", "squash", "commit", "undo_all", "push")
# How the replies to lines that a journal has begin, but for that to a modify which lost its record.
CHANGED = tuple(b'{"id":|{"ok":true}|{"erased":|{"ok":true,"revision":|{"committed":|{"ok":true,"undone":|{"ok":true,"pushed":'.split(b"|"))


class Damaged(Exception):
    """A line that no journal has: its number, from 1, and why. `path` is the segment's, where the journal has several."""

    def __init__(self, number, why, path=None):
        super().__init__(f"line {number}: {why}")
        self.number, self.path = number, path


class Progress:
    """Says on standard error how far a file has been read, once a second, where that takes longer."""

    def __init__(self, what, size):
        self.what, self.size, self.next = what, size, time.monotonic() + 1

    def at(self, done):
        if time.monotonic() >= self.next:
            self.next = time.monotonic() + 1
            share = 100 * done // max(self.size, 1)
            print(f"{self.what}: {done / 1e6:.0f} of {self.size / 1e6:.0f} MB, {share} %", file=sys.stderr, flush=True)


class OtherSchema(Exception):
    """A journal is of another schema than the one that is named."""


Line = collections.namedtuple("Line", "number start end name members")


def header(text, number=1):
    """The revision and the schema's hash that the first line of a segment says, and of a later one the sum of the segment before it."""
    if number > 1:
        found = bases.header_of(text)
        if found is None or found["segment"] != number:
            raise Damaged(1, f"no header of segment {number}")
        return found["revision"], found["schema"], found["previous"]
    try:
        found = read(text)
    except Refusal:
        raise Damaged(1, "no header, which is JSON") from None
    if not isinstance(found, dict) or "journal" not in found:
        raise Damaged(1, "no header")
    if found["journal"] != FORMAT:
        raise Damaged(1, f"a journal of format {found['journal']}, and {FORMAT} is known")
    if set(found) != {"journal", "revision", "schema"} or not is_count(found["revision"]) or not is_text(found["schema"]):
        raise Damaged(1, "a header has the members journal, revision and schema")
    if not DIGITS.fullmatch(found["schema"]):
        raise Damaged(1, "its hash isn't of hexadecimal digits")
    if text != f'{{"journal":{FORMAT},"revision":{found["revision"]},"schema":"{found["schema"]}"}}'.encode():
        raise Damaged(1, "a header that is written in another way, or has something behind it")
    return found["revision"], found["schema"], None


def command(number, text):
    """The command of a line behind the header, and its members."""
    bare = text[:-1] if text.endswith(b"\r") else text
    if len(text) > LONGEST_LINE:
        raise Damaged(number, f"{len(text)} bytes, and {LONGEST_LINE} are the most")
    try:
        return form(read(bare))
    except Refusal as refusal:
        raise Damaged(number, "no JSON" if refusal.reply["error"] == "json" else "no command") from None


class Journal:
    """A segment of a journal that is read once, by `lines`, which counts its lines, with the header. Its last newline ends at `end`, where `torn` bytes
    of a torn line stand. Behind those stand zeros: `room` bytes, or `lost` ones, of which the last is none."""

    def __init__(self, file, what="reading", number=1, wanted=None):
        """`wanted` answers the header of a newest segment behind others, of which a kill may have left a front alone."""
        handle = file.fileno()
        text = text_of(handle)
        self.file, self.end = file, end_before(handle, text)
        self.torn, self.lost = text - self.end, lost_behind(handle, text)
        self.size = os.fstat(handle).st_size
        self.room = self.size - text
        self.progress = Progress(what, self.end)
        self.first = file.readline() if self.end else b""
        if not self.first and not (wanted and wanted().startswith(os.pread(handle, text, 0))):
            raise Damaged(1, "no whole header")
        self.revision, self.schema, self.previous = header((self.first or wanted())[:-1], number)
        self.count = 1 if self.first else 0

    def lines(self):
        at, number = len(self.first), 2
        while at < self.end:
            text = self.file.readline()
            self.count = number
            yield Line(number, at, at + len(text), *command(number, text[:-1]))
            at, number = at + len(text), number + 1
            if number % 256 == 0:
                self.progress.at(at)
        if self.lost:
            raise Damaged(number, f"zeros, and {self.lost} bytes up to the last that is none, which a start of the service would cut off: as in a copy "
                                  "that was made while lines were written, or behind a stop of the machine")


class Chain:
    """A journal: its base, where it has one, and its segments from there on, the last of which may be in use. Those in front, which the base covers, may
    be there, some of them or none: they are counted alone."""

    def __init__(self, path, what="reading"):
        self.path, self.base, self.files = path, base_of(path), contextlib.ExitStack()
        try:
            self.open(what)
        except (Damaged, bases.BadChain, FileNotFoundError):
            if base_of(path) != self.base:
                raise OSError("another base came while the journal was read, as by a rebase: read the journal again") from None
            raise

    def open(self, what):
        """Opens the segments that are there; from then on it makes no difference whether a rebase takes some away."""
        first = self.base.segment if self.base else 1
        self.segments, self.journals = bases.segments_of(self.path, self.base.segment if self.base else 0), []
        self.covered = [it for it in bases.numbers_of(self.path) if it < first]
        with contextlib.ExitStack() as opened:
            if not self.segments or self.segments[0].number != first:
                self.segments = [bases.Segment(first, bases.segment_path(self.path, first))]
            for n, segment in enumerate(self.segments):
                self.journals.append(self.opened(opened, segment, what))
                self.check_header(n, segment, self.last)
            self.files = opened.pop_all()

    def __enter__(self):
        return self

    def __exit__(self, *_):
        self.files.close()

    def named(self, segment):
        return segment.path if segment.number > 1 else None

    def opened(self, opened, segment, what):
        wanted = self.next_header if self.journals and segment is self.segments[-1] else None
        try:
            return Journal(opened.enter_context(open(segment.path, "rb")), what, segment.number, wanted)
        except Damaged as damaged:
            damaged.path = self.named(segment)
            raise

    def next_header(self):
        """The header of the segment behind those that were opened."""
        number = self.segments[len(self.journals)].number
        return bases.segment_header(text_sum(self.last), number, self.last.schema, self.last.revision)

    def check_header(self, n, segment, journal):
        """Whether a segment's header is that of this journal, behind its base or the segment before it."""
        if n == 0 and self.base and bases.sum_of(journal.first[:-1]) != self.base.sum:
            raise Damaged(1, "the header of another journal than the base's", self.named(segment))
        if n > 0 and journal.previous != text_sum(self.journals[n - 1]):
            raise Damaged(1, "the sum of another segment than the one before it", self.named(segment))
        if journal.schema != (self.base or self.journals[0]).schema:
            raise Damaged(1, "the header of another schema", self.named(segment))

    @property
    def last(self):
        return self.journals[-1]

    @property
    def revision(self):
        return self.base.revision if self.base else self.journals[0].revision

    @property
    def first_bytes(self):
        """How many bytes are headers."""
        return sum(len(it.first) for it in self.journals)

    @property
    def end(self):
        return sum(it.end for it in self.journals)

    def lines(self):
        """The lines behind the base. Where each begins and ends is counted from the first segment's start."""
        before, skip = 0, self.base.line if self.base else 0
        for segment, journal in zip(self.segments, self.journals):
            try:
                for line in itertools.islice(journal.lines(), skip, None):
                    yield line._replace(start=line.start + before, end=line.end + before)
                if journal is not self.last and (journal.torn or journal.room):
                    raise Damaged(1, "a torn end or room, and a later segment is there")
            except Damaged as damaged:
                damaged.path = damaged.path or self.named(segment)
                raise
            before, skip = before + journal.end, 0


def base_of(path):
    """The base of a journal, or None where it has none."""
    try:
        with open(bases.base_path(path), "rb") as file:
            return bases.read_base(file.read())
    except FileNotFoundError:
        return None
    except bases.BadBase as bad:
        raise Damaged(bad.number, str(bad).split(": ", 1)[1], bases.base_path(path)) from None


def text_sum(journal):
    """The SHA-256 of a segment's whole lines."""
    digest, at = hashlib.sha256(), 0
    while at < journal.end:
        piece = os.pread(journal.file.fileno(), min(1 << 20, journal.end - at), at)
        if not piece:
            raise OSError("a segment has become shorter")
        digest.update(piece)
        at += len(piece)
    return digest.hexdigest()


def behind(places, start):
    """The places, which are in order, that begin behind this one."""
    return places[bisect.bisect_left(places, (start + 1,)):]


class Open:
    """An open session: where its block begins, and how many sessions were held below it then."""

    def __init__(self, start, held):
        self.start, self.held = start, held


class Blocks:
    """The open sessions of a journal that one connection asks, and which bytes of it a shorter one doesn't need."""

    def __init__(self, revision):
        self.revision, self.open, self.held, self.most = revision, [], 0, 0
        self.dropped, self.commits, self.pushes = [], [], []
        self.ended = collections.Counter()

    def take(self, line):
        """The next line. One that names no session step, or is refused, changes nothing here."""
        if line.name == "start":
            self.begin(line)
        elif line.name == "commit":
            self.commit(line, line.members["revision"])
        elif line.name == "push" and self.held:
            self.pushes.append((line.start, line.end))
            self.held = 0
        elif line.name == "squash" and self.open:
            self.close(1, "squashed")
        elif line.name == "undo" and self.open:
            self.undo(line, 1)
        elif line.name == "undo_all" and self.open:
            self.undo(line, len(self.open))

    def begin(self, line):
        if len(self.open) < MOST_SESSIONS:
            self.open.append(Open(line.start, self.held))
            self.held += 1
            self.revision += 1
            self.most = max(self.most, len(self.open))

    def close(self, count, how):
        """The newest sessions end."""
        del self.open[len(self.open) - count:]
        self.held = max(0, self.held - count)
        self.revision -= count
        self.ended[how] += count

    def commit(self, line, revision):
        first = self.revision - len(self.open) + 1
        ended = max(0, min(len(self.open), revision - first + 1))
        if ended:
            del self.open[:ended]
            self.commits.append((line.start, line.end))
            self.held = min(self.held, len(self.open))
            self.ended["committed"] += ended

    def undo(self, line, count):
        """The newest sessions are undone: their lines aren't needed, but for those that say something of what is below them."""
        lowest = self.open[-count]
        inside = behind(self.commits, lowest.start)
        pushed = behind(self.pushes, lowest.start)
        if pushed and lowest.held:
            inside.append(pushed[0])
        self.close(count, "undone")
        while self.dropped and self.dropped[-1][0] >= lowest.start:
            self.dropped.pop()
        at = lowest.start
        for start, end in sorted(inside):
            if at < start:
                self.dropped.append((at, start))
            at = end
        self.dropped.append((at, line.end))


def blocks_of(journal):
    """Which lines there are, by command, and the sessions."""
    blocks, counts = Blocks(journal.revision), collections.Counter()
    for line in journal.lines():
        counts[line.name] += 1
        blocks.take(line)
    return blocks, counts


def end_note(journal):
    """What stands behind the last newline."""
    torn = f"; the last {journal.torn} bytes{' in front of room' if journal.room else ''} are torn, and no line" if journal.torn else ""
    return f"{torn}; room: {journal.room} bytes" if journal.room else torn


def may_be_kept(line):
    """Whether a journal may have a line of this command; else it is damaged. What a server answers to the line isn't known here."""
    if line.name in CHANGES or line.name in STEPS:
        return True
    raise Damaged(line.number, f"a look-up, {line.name}, which no journal has")


def check(path, replay, schema):
    is_served = replay is not None and is_service(replay)
    with Chain(path, "checking") as chain:
        if replay and chain.base and not is_served:
            raise no_service(path, replay, "--replay")
        count = sum(1 for it in chain.lines() if may_be_kept(it))
        journal = chain.last
        if replay:
            check_schema(path, journal.schema, schema)
        asked = "" if replay else "; its lines weren't asked (--replay PROGRAM asks them)"
        print(f"{path}: {chain_note(chain)}{count} lines, schema {journal.schema}, ok as a file{end_note(journal)}{covered_note(chain)}{asked}", flush=True)
        if is_served:
            on_a_copy(replay, path, schema).close()
            print(f"{path}: replayed: {replay} serves a copy of it")
        elif replay:
            replay_check(chain, replay, schema)


def chain_note(chain):
    """What stands in front of a journal's lines, where that is more than one file."""
    if chain.base is None and len(chain.segments) == 1:
        return ""
    rows = f"a base of {sum(len(it.rows) for it in chain.base.tables)} rows, " if chain.base else ""
    first, last = chain.segments[0].number, chain.segments[-1].number
    return f"{rows}segment{'' if first == last else 's'} {first}{'' if first == last else f' to {last}'}, "


def covered_note(chain):
    """Which segments are there that the base covers, so that a start doesn't look at them."""
    if not chain.covered:
        return ""
    return f"; the base has segment{'' if len(chain.covered) == 1 else 's'} {', '.join(map(str, chain.covered))} too, not looked at"


def check_schema(path, digest, schema):
    """Whether a header's hash is that of a schema's file, or of the built-in table."""
    from mi_client import Schema
    from mi_tools.journals import bytes_hash
    from mi_tools.meaning import hash_of

    named = Schema.read(schema) if schema else Schema.built_in()
    if digest not in (hash_of(named), bytes_hash(schema)):
        raise OtherSchema(f"{path}: the journal is of another schema than {schema or 'the built-in table accounts'}: --schema FILE names its own")


def may_be_change(reply):
    """Whether a reply, with its newline, may be to a line that a journal has: one that changed something, or is answered as such a one."""
    text = reply[:-1]
    return text.startswith(CHANGED) or text.startswith(b'{"error":"unique"') and text.endswith(b'","lost":true,"ok":false}')


def check_reply(chain, reply, segment, number):
    """Whether a line of a segment is answered as one of a journal. A header isn't."""
    if number > 1 and not may_be_change(reply):
        raise Damaged(number, f"no change: {reply.decode(errors='replace').strip()}", chain.named(segment))


def send_lines(chain, pipe):
    """The lines of a journal that was read go into a pipe, with the headers."""
    progress, done = Progress("replaying", chain.end), 0
    with contextlib.suppress(BrokenPipeError), pipe:
        for journal in chain.journals:
            journal.file.seek(0)
            for text in itertools.islice(journal.file, journal.count):
                pipe.write(text)
                done += len(text)
                progress.at(done)


def places(chain):
    """Where each of these lines stands: its segment, and its number there."""
    return ((segment, number) for segment, journal in zip(chain.segments, chain.journals) for number in range(1, journal.count + 1))


def replay_check(chain, program, schema):
    """Asks a program the lines of a journal that was read, whose headers are lines too, and finds the first that it refuses. Each has one reply."""
    words = [program, *(["--schema", schema] if schema else [])]
    count, number, asked = sum(it.count for it in chain.journals), 0, places(chain)
    with subprocess.Popen(words, stdin=subprocess.PIPE, stdout=subprocess.PIPE) as ran:
        sending = threading.Thread(target=send_lines, args=(chain, ran.stdin), daemon=True)
        sending.start()
        try:
            for number, reply in enumerate(ran.stdout, 1):
                check_reply(chain, reply, *next(asked, (None, 1)))
        except BaseException:
            ran.kill()
            raise
        finally:
            sending.join()
        if ran.wait():
            raise OSError(f"{program} has ended with status {ran.returncode}")
    if number != count:
        raise OSError(f"{program} has answered {number} of {count} lines")
    print(f"{chain.path}: replayed, and each line is one of a journal")


def stat(path):
    with Chain(path) as chain:
        blocks, counts = blocks_of(chain)
    lines, size = sum(counts.values()), chain.end - chain.first_bytes
    needless = sum(end - start for start, end in blocks.dropped)
    print(f"{path}: {chain_note(chain)}{lines} lines of {size} bytes, {size / max(lines, 1):.1f} each{end_note(chain.last)}{covered_note(chain)}")
    for name, count in counts.most_common():
        print(f"  {count:>10} {name}" + ("" if name in CHANGES or name in SESSIONS else ", which changes nothing"))
    print(f"  sessions: {counts['start']} started, " + ", ".join(f"{blocks.ended[it]} {it}" for it in ("undone", "squashed", "committed")))
    print(f"  open at the end: {len(blocks.open)}, of them held {blocks.held}; at most {blocks.most} at once")
    print(f"  {needless} bytes are of blocks that were undone, {100 * needless // max(size, 1)} %")


def copy_between(source, target, start, end, progress):
    """Copies these bytes."""
    source.seek(start)
    while start < end:
        piece = source.read(min(1 << 20, end - start))
        if not piece:
            raise OSError("the file has become shorter")
        target.write(piece)
        start += len(piece)
        progress.at(start)


def write_without(source, target, dropped, end):
    """Copies the bytes up to an end, but for those that are dropped, and makes them stay."""
    progress, at = Progress("writing", end), 0
    for start, stop in dropped:
        copy_between(source, target, at, start, progress)
        at = stop
    copy_between(source, target, at, end, progress)
    target.flush()
    os.fsync(target.fileno())


def sync_folder(folder):
    """Makes a rename in a folder stay."""
    handle = os.open(folder, os.O_RDONLY | os.O_DIRECTORY)
    try:
        os.fsync(handle)
    finally:
        os.close(handle)


def lock(file):
    fcntl.flock(file, fcntl.LOCK_EX | fcntl.LOCK_NB)


def claimed(path):
    """The file of this name, opened and locked. Where another has taken its place between the open and the lock, that one is opened."""
    while True:
        with contextlib.ExitStack() as opened:
            file = opened.enter_context(open(path, "rb"))
            if not modes.S_ISREG(os.fstat(file.fileno()).st_mode):
                raise OSError(f"{path} is no regular file")
            lock(file)
            if os.path.samestat(os.fstat(file.fileno()), os.stat(path)):
                opened.pop_all()
                return file


def compact(path, new):
    """The new file has the old one's mode; it takes the old one's place, or the name that is asked for, once it is whole."""
    if os.path.exists(bases.base_path(path)) or any(it > 1 for it in bases.numbers_of(path)):
        raise ValueError(f"{path}: it has a base or later segments: mi_service --rebase makes it shorter")
    # (of a link the file that it leads to, whose place is on another disk perhaps)
    new = os.path.realpath(path if new is None else new)
    folder = os.path.dirname(new)
    with contextlib.ExitStack() as locked:
        file = locked.enter_context(claimed(path))
        is_there = os.path.exists(new)
        if is_there and not os.path.samefile(new, path):
            locked.enter_context(claimed(new))
        journal = Journal(file)
        blocks, _ = blocks_of(journal)
        with tempfile.NamedTemporaryFile(dir=folder, prefix=os.path.basename(new) + ".", delete=False) as target:
            try:
                lock(target)
                os.fchmod(target.fileno(), os.fstat(file.fileno()).st_mode & 0o7777)
                write_without(file, target, blocks.dropped, journal.end)
                if is_there:
                    os.rename(target.name, new)
                else:
                    # (unlike a rename this fails where a service has begun a journal there meanwhile)
                    os.link(target.name, new)
                    os.unlink(target.name)
            except BaseException:
                os.unlink(target.name)
                raise
            sync_folder(folder)
    print(f"{new}: {os.path.getsize(new)} bytes, of {journal.size}{end_note(journal)}")


def copy(path, new):
    """A journal's base, and of each of its segments the text up to the last newline, go to new files, which have their modes; the old ones are
    neither locked nor changed. A base that was replaced meanwhile has other segments, so some of these are missing: then nothing is there."""
    with contextlib.ExitStack() as made, Chain(path) as chain:
        files = [(bases.segment_path(new, it.number), journal.file, journal.end) for it, journal in zip(chain.segments, chain.journals)]
        if chain.base:
            base = chain.files.enter_context(open(bases.base_path(path), "rb"))
            files.insert(0, (bases.base_path(new), base, os.fstat(base.fileno()).st_size))
        for name, file, end in files:
            copy_file(file, name, end)
            made.callback(os.unlink, name)
        if chain.base != base_of(path):
            raise OSError("another base has taken the place of the one that was copied: copy again")
        made.pop_all()
    sync_folder(os.path.dirname(os.path.realpath(new)))
    print(f"{new}: {sum(end for _, _, end in files)} bytes")


def copy_file(file, new, end):
    """The bytes of a file up to an end go to a new one, which has its mode."""
    with open(new, "xb", opener=lambda name, how: os.open(name, how, 0o600)) as target:
        try:
            os.fchmod(target.fileno(), os.fstat(file.fileno()).st_mode & 0o7777)
            write_without(file, target, [], end)
        except BaseException:
            os.unlink(new)
            raise


def words():
    parser = argparse.ArgumentParser(prog="journal.py", description=__doc__, formatter_class=argparse.RawDescriptionHelpFormatter)
    steps = parser.add_subparsers(dest="step", required=True)
    checking = steps.add_parser("check", help="whether each line is whole and a change's")
    checking.add_argument("file")
    checking.add_argument("--replay", metavar="PROGRAM", help="asks this mi_server the lines, each of which is to be done; or starts this mi_service on a "
                          "copy, as a journal with a base wants it")
    checking.add_argument("--schema", metavar="FILE", help="the schema that it is asked with, whose hash the header is to have")
    steps.add_parser("stat", help="lines by command, sessions, sizes").add_argument("file")
    compacting = steps.add_parser("compact", help="a shorter journal of the same database")
    compacting.add_argument("file")
    compacting.add_argument("--to", metavar="NEW", help="its name, where the old one is to stay")
    copying = steps.add_parser("copy", help="its text up to the last newline, also of one that is in use")
    copying.add_argument("file")
    copying.add_argument("new", help="a name that no file has yet")
    return parser


def nobody_reads_on():
    """The status then, as of `| head`: that of a program which the signal ends. Nothing is said, neither at Python's own end."""
    with contextlib.suppress(OSError, ValueError):
        os.dup2(os.open(os.devnull, os.O_WRONLY), sys.stdout.fileno())
    return 128 + signal.SIGPIPE


def allow_files():
    """Lets this process open as many files as it may: each segment is one."""
    most = resource.getrlimit(resource.RLIMIT_NOFILE)[1]
    resource.setrlimit(resource.RLIMIT_NOFILE, (most, most))


def main(given):
    parser = words()
    args = parser.parse_args(given)
    allow_files()
    if args.step == "check" and args.schema and not args.replay:
        parser.error("--schema goes with --replay: without it no schema is looked at")
    try:
        if args.step == "check":
            check(args.file, args.replay, args.schema)
        elif args.step == "stat":
            stat(args.file)
        elif args.step == "copy":
            copy(args.file, args.new)
        else:
            compact(args.file, args.to)
        sys.stdout.flush()
    except Damaged as damaged:
        print(f"{damaged.path or args.file}: {damaged}", file=sys.stderr)
        return 3
    except bases.BadChain as bad:
        print(f"{args.file}: {bad}", file=sys.stderr)
        return 3
    except journals.Damaged as damaged:
        print(damaged, file=sys.stderr)
        return 3
    except BrokenPipeError:
        return nobody_reads_on()
    except (OtherSchema, ValueError) as error:
        print(error, file=sys.stderr)
        return 2
    except BlockingIOError:
        print(f"{args.file}: in use by another program", file=sys.stderr)
        return 4
    except OSError as error:
        print(f"{args.file}: {error}", file=sys.stderr)
        return 4
    return 0


if __name__ == "__main__":
    # (an unfinished file goes then, as at Ctrl-C)
    signal.signal(signal.SIGTERM, lambda *_: sys.exit(128 + signal.SIGTERM))
    sys.exit(main(sys.argv[1:]))
