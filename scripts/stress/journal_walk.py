"""What several connections sent and were answered, told by the journal that was kept meanwhile.

The journal has the order of the lines that changed anything. So `Walk` asks `reference.py` its lines in that order, each as the connection
that sent it, and compares the replies. A line that isn't in the journal changed nothing: its reply must be the reference's at some place
between its connection's lines before and behind it, and there the reference must stay as it is.

Each line that may be kept ends with a mark, blanks that say its connection and which of its lines it is. An undo without a mark is the
service's own: the connection that holds sessions has gone away."""
import copy

from reference import CHANGES, LONGEST_LINE, STEPS, Reference, Refusal, form, read

BITS = 16, 12
"""Of a mark: the number of the connection, and that of the line."""
UNDO = b'{"cmd":"undo"}'
BUSY = b'{"error":"busy","ok":false}\n'
NO_ROOM = b'{"error":"journal","ok":false}\n'
SHORT_UNDO = 64
"""Bytes of the longest line of an undo for which room is kept, with its newline."""


class Differs(Exception):
    """What was kept or answered isn't what it must be."""


def mark(connection, line):
    """The blanks behind a line."""
    whole = connection << BITS[1] | line
    return bytes(b" \t"[whole >> bit & 1] for bit in range(sum(BITS)))


def marked(text):
    """The connection and the line that a mark says, or None. Carriage returns may stand behind it."""
    blanks = text.rstrip(b"\r")[-sum(BITS):]
    if len(blanks) < sum(BITS) or blanks.strip(b" \t"):
        return None
    whole = sum((it == 9) << bit for bit, it in enumerate(blanks))
    return whole >> BITS[1], whole & (1 << BITS[1]) - 1


def may_change(text):
    """Whether a line asks for a change or a session step."""
    try:
        return len(text) <= LONGEST_LINE and form(read(text))[0] in CHANGES | STEPS
    except Refusal:
        return False


def waits_for_room(text, depth):
    """Whether a line is refused where its journal has no room, when so many sessions are open."""
    is_undo = depth > 0 and len(text) < SHORT_UNDO and may_change(text) and form(read(text))[0] in ("undo", "undo_all")
    return may_change(text) and not is_undo


def fork(reference):
    """A reference of its own; a table is only changed by calls on it."""
    made = copy.copy(reference)
    made.old, made.tables = list(reference.old), []
    for table in reference.tables:
        twin = copy.copy(table)
        twin.rows, twin.lists = dict(table.rows), [list(it) for it in table.lists]
        made.tables.append(twin)
    return made


def state(reference):
    tables = [(it.rows, it.lists, it.next, it.arrivals) for it in reference.tables]
    return tables, len(reference.old), reference.revision, reference.held, reference.holder if reference.held else None


class Said:
    """The lines that a connection sent, without their newlines, and the replies that it got, with them."""

    def __init__(self, number, born=0):
        """`born` is how long the journal was when it came: its lines were asked behind that."""
        self.number, self.born, self.lines, self.replies = number, born, [], []
        self.has_left = False
        self.at, self.kept = 0, set()

    def waits(self):
        """Whether its next line isn't in the journal, and was answered."""
        return self.at < len(self.replies) and self.at not in self.kept


class Walk:
    """A journal that is walked along, as far as it is there; `size` is how long that is in bytes."""

    def __init__(self, schemas, first_revision=0, size=0):
        self.reference, self.size = Reference(schemas, first_revision), size
        self.said, self.waiting, self.unborn = {}, {}, []

    def on(self, lines, connections):
        """Goes on with whole lines of the journal, without their newlines, and with the connections of their time, all of whose replies
        are known. Raises Differs."""
        self.said = {it.number: it for it in connections}
        for it in connections:
            if len(it.replies) > len(it.lines):
                raise Differs(f"connection {it.number} asked {len(it.lines)} lines and got {len(it.replies)} replies, the last {it.replies[-1]!r}")
        self.unborn = sorted(connections, key=lambda it: -it.born)
        places = [self.place(it) for it in lines]
        for text, it in zip(lines, places):
            self.look()
            self.kept(text, self.said[it[0]], it[1]) if it else self.left(text)
            self.size += len(text) + 1
        self.unborn, self.waiting = [], {**self.waiting, **{it.number: it for it in self.unborn}}
        self.look()
        for it in self.said.values():
            if it.at < len(it.replies):
                self.lacks(it)

    def place(self, text):
        """Which line of which connection it is, or None where it is the service's own."""
        it = marked(text)
        if it is None:
            return self.cut(text)
        said = self.said.get(it[0])
        sent = said.lines[it[1]] if said and it[1] < len(said.lines) else None
        if sent is None or text != sent and not (it[1] == len(said.lines) - 1 and self.is_last(text, sent, said)):
            raise Differs(f"the journal has a line that wasn't sent: {text!r}")
        if it[1] in said.kept:
            raise Differs(f"the journal has a line twice: {text!r}")
        said.kept.add(it[1])
        return it

    @staticmethod
    def is_last(text, sent, said):
        """Whether the last line of a connection, which ends in a carriage return, is kept so. What no newline ended and a carriage return did is
        kept with one more of them: a line's own, and that before its newline. And who leaves may break off in front of it."""
        return sent.endswith(b"\r") and (text == sent + b"\r" or said.has_left and sent == text + b"\r")

    def cut(self, text):
        """Of which connection it is the last line, which ended among the blanks of its mark: what no newline ended is a line too. None where
        it is of none."""
        for said in self.said.values():
            n = len(said.lines) - 1
            if text != UNDO and said.has_left and len(said.replies) <= n and n not in said.kept:
                if said.lines[n].startswith(text) and not said.lines[n][len(text):].strip(b" \t"):
                    said.kept.add(n)
                    return said.number, n
        return None

    def kept(self, text, said, n):
        """A line of the journal that a connection sent."""
        if n < said.at:
            raise Differs(f"the journal has line {n} of connection {said.number} behind line {said.at - 1}: {text!r}")
        if said.waits() and said.at < n:
            self.lacks(said)
        reply = self.reference.answer_ended(said.number, text)
        if n < len(said.replies) and said.replies[n] != reply:
            raise Differs(f"line {n} of connection {said.number}, {text!r}: wanted {reply!r}, got {said.replies[n]!r}")
        said.at = n + 1
        if said.waits():
            self.waiting[said.number] = said

    def left(self, text):
        """A line of the journal that the service made."""
        holder = self.reference.holder if self.reference.held else None
        said = self.said.get(holder)
        if text != UNDO or holder is None:
            raise Differs(f"the journal has a line that nobody sent, where {holder or 'nobody'} holds sessions: {text!r}")
        if said and not said.has_left:
            raise Differs(f"the journal has an undo for connection {holder}, which is still there")
        if said and said.waits():
            self.lacks(said)
        self.reference.answer_ended(holder, text)

    def lacks(self, said):
        """A line that was answered has no place."""
        text, reply = said.lines[said.at], said.replies[said.at]
        if said.at in said.kept:
            raise Differs(f"line {said.at} of connection {said.number} has lost its place: {text!r}")
        raise Differs(f"line {said.at} of connection {said.number}, {text!r}, was answered {reply!r}, but the journal lacks it or it fits nowhere")

    def look(self):
        """Each line that isn't in the journal finds its place as soon as it can."""
        while self.unborn and self.unborn[-1].born <= self.size:
            said = self.unborn.pop()
            self.waiting[said.number] = said
        for said in list(self.waiting.values()):
            while said.waits() and self.fits(said.number, said.lines[said.at], said.replies[said.at]):
                said.at += 1
            if not said.waits():
                del self.waiting[said.number]

    def fits(self, connection, text, reply):
        """Whether a line may be answered so here and change nothing."""
        is_busy = self.reference.held and self.reference.holder != connection
        if reply == BUSY and not is_busy:
            return False
        if is_busy or not may_change(text):
            return self.reference.answer_ended(connection, text) == reply
        trial = fork(self.reference)
        return trial.answer_ended(connection, text) == reply and state(trial) == state(self.reference)


class FullWalk(Walk):
    """A journal on a disk that is full at times: then lines that wait for room are refused, and nothing of them is done."""

    def fits(self, connection, text, reply):
        if reply == NO_ROOM:
            return waits_for_room(text, len(self.reference.old))
        return super().fits(connection, text, reply)
