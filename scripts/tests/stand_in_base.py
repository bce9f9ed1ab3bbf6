"""The base and the segments of a journal, for the service that stands in: what stands before the newest segment is asked, and a rebase is made."""
import contextlib
import os

import bases
from reference import LAST, LONGEST_TEXT


class Refused(Exception):
    """A journal that isn't taken: what is said of it."""


def restored(base, reference, plant):
    """A reference gets the tables of a base. Raises Refused where they break a rule of the schema."""
    if [it.name for it in base.tables] != [it.schema.name for it in reference.tables]:
        raise Refused("base")
    for image, table in zip(base.tables, reference.tables):
        table.rows, table.next, table.arrivals = dict(image.rows), image.next, image.arrivals
        table.lists = [list(image.rows), *map(list, image.lists)]
        if plant != "trusting" and not is_lawful(table):
            raise Refused("base")
    reference.revision = base.revision


def is_lawful(table):
    texts = [it for row in table.rows.values() for it in row if isinstance(it, str)]
    if len(table.rows) > table.schema.max_rows or table.next > LAST or not len(table.rows) <= table.arrivals <= LAST:
        return False
    if len(table.lists) != len(table.schema.indexes) or any(len(it.encode()) > LONGEST_TEXT for it in texts):
        return False
    return all(table.conflict(row, but=id) is None for id, row in table.rows.items())


def read_base(path, reference, plant):
    """The base of a journal, or None."""
    try:
        with open(bases.base_path(path), "rb") as file:
            text = file.read()
    except FileNotFoundError:
        return None
    if plant == "trusting" and not text.endswith(b"}\n"):
        text = text[:text.rfind(b"\n") + 1]
        text += bases.compact({"sha256": bases.sum_of(text)}) + b"\n"
    try:
        return bases.read_base(text, [[kind for _, kind in it.schema.columns] for it in reference.tables])
    except bases.BadBase:
        raise Refused("base") from None


def check_there(path):
    """Raises `Refused` where no segment of a journal is there."""
    if newest_of(path) == 1 and not os.path.exists(path):
        raise Refused(f"file: {path}: no journal is there")


def newest_of(path):
    """The number of the newest segment, whatever is missing before it."""
    try:
        return max((it.number for it in bases.segments_of(path)), default=1)
    except bases.BadChain:
        name = os.path.basename(path)
        return max(int(it.rpartition(".")[2]) for it in os.listdir(os.path.dirname(path) or ".") if it[:-6] == f"{name}." and it[-6:].isdigit())


def read_segment(path, number):
    try:
        with open(bases.segment_path(path, number), "rb") as file:
            return file.read()
    except FileNotFoundError:
        raise Refused(f"segment {number}") from None


def place_of(number, line):
    """How a damaged line is named."""
    return f"line {line}" if number == 1 else f"segment {number} line {line}"


class Starts:
    """Where the open sessions began: in which segment, and behind how many of its lines."""

    def __init__(self, revision):
        self.places, self.revision = [], revision

    def note(self, place, reference):
        """The line at a place was asked."""
        if reference.revision > self.revision:
            self.places.append(place)
        else:
            del self.places[len(self.places) - min(len(self.places), self.revision - reference.revision):]
            del self.places[:max(0, len(self.places) - len(reference.old))]
        self.revision = reference.revision


class Standing:
    """What stands before the newest segment was asked: the number of that one, its header, and how many of its lines a base has."""

    def __init__(self, path, reference, header, ask, plant):
        """`header` is that of a first segment; `ask` says whether a line is one of a journal. Raises Refused."""
        self.reference = reference
        self.schema, self.revision = header.split(b'"')[-2].decode(), reference.revision
        base, newest = read_base(path, reference, plant), newest_of(path)
        self.number, self.header, self.skip = 1, header, 0
        if base:
            self.begin(path, base, newest)
            restored(base, reference, plant)
        self.starts = Starts(reference.revision)
        while self.number < newest:
            self.take(read_segment(path, self.number), ask)

    def begin(self, path, base, newest):
        if base.schema != self.schema or base.segment == 0:
            raise Refused("base")
        if base.segment > newest:
            raise Refused(f"segment {base.segment}")
        self.header = read_segment(path, base.segment).partition(b"\n")[0]
        if bases.sum_of(self.header) != base.sum:
            raise Refused("base")
        self.number, self.skip = base.segment, base.line

    def take(self, data, ask):
        """A segment, behind which another one is."""
        lines = data.split(b"\n")
        if lines[0] != self.header or not data.endswith(b"\n") or b"\0" in data:
            raise Refused(f"segment {self.number}")
        self.check_skip(lines[:-1])
        for n, text in enumerate(lines[1 + self.skip:-1], 2 + self.skip):
            if not ask(text):
                raise Refused(place_of(self.number, n))
            self.starts.note((self.number, n - 2), self.reference)
        self.header = bases.segment_header(bases.sum_of(data), self.number + 1, self.schema, self.revision)[:-1]
        self.number, self.skip = self.number + 1, 0

    def check_skip(self, lines):
        """Raises Refused where a base has more lines than there are."""
        if self.skip > len(lines) - 1:
            raise Refused(place_of(self.number, 2 + self.skip))


def image_of(table, plant):
    lists = [list(it) for it in table.lists[1:]]
    if plant == "unordered":
        lists = [sorted(it) for it in lists]
    counted = table.next if plant != "uncounted" else max(table.rows, default=-1) + 1
    rows = {id: table.rows[id] for id in sorted(table.rows)}
    return bases.Image(table.schema.name, counted, table.arrivals, rows, lists)


def written(path, data, how, is_synced=True):
    handle = os.open(path, os.O_RDWR | os.O_CREAT | how, 0o600)
    os.pwrite(handle, data, 0)
    if is_synced:
        os.fdatasync(handle)
    os.close(handle)


def keep_names(path):
    folder = os.open(os.path.dirname(path) or ".", os.O_RDONLY)
    os.fsync(folder)
    os.close(folder)


def base_of(standing, reference, header, plant):
    """The base in front of the oldest open session, or where the next segment begins, which has this header."""
    tables, number, line, own = reference.tables, standing.number + 1, 0, header[:-1]
    if reference.old:
        (number, line), own = standing.starts.places[0], standing.header
        if number != standing.number:
            raise Refused("sessions")
        if plant != "ripe":
            tables = reference.old[0]
    revision = reference.revision - len(reference.old)
    return bases.Base(line, revision, standing.schema, number, bases.sum_of(own), [image_of(it, plant) for it in tables])


def rebase(path, standing, reference, text, plant):
    """Makes the base anew, and begins the segment behind the newest, which has this text."""
    header = bases.segment_header(bases.sum_of(text), standing.number + 1, standing.schema, standing.revision)
    base = base_of(standing, reference, header, plant)
    written(f"{bases.base_path(path)}.new", bases.text_of(base), os.O_TRUNC, plant != "loose")
    for begins in (True, False) if base.segment > standing.number else (False, True):
        if begins:
            written(bases.segment_path(path, standing.number + 1), header, os.O_EXCL)
            keep_names(path)
        else:
            put_in_place(path, base, plant)
    for it in bases.segments_of(path):
        if it.number < base.segment:
            os.unlink(it.path)
    keep_names(path)


def discard_new(path):
    """Takes away a base that isn't whole."""
    with contextlib.suppress(OSError):
        os.unlink(f"{bases.base_path(path)}.new")


def put_in_place(path, base, plant):
    """The base that was written takes its place."""
    for it in bases.segments_of(path) if plant == "hasty" else []:
        if it.number < base.segment:
            os.unlink(it.path)
    os.rename(f"{bases.base_path(path)}.new", bases.base_path(path))
    keep_names(path)
