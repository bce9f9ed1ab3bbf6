"""A ledger that keeps sessions open all the time, and is rebased while they are. `stress crash --part rebase-ledger`: a block is a session that is
pushed; the oldest is committed once there are more than twenty, and some of the newest are undone, as a ledger's fork is."""
import os
import random
import tempfile
import time

import bases
from reference import CHANGES, Reference
from stress import look_ups, service
from stress.based import Based
from stress.callers import ID, TABLES, Speech
from stress.journal_walk import Differs

ROUNDS, SHORT_ROUNDS = 50, 3
OPEN, MOST_CHANGES, MOST_UNDONE = 20, 6, 3
HELD, UNDONE = 0.4, 0.2
"""How often a service is killed within a block, and how often blocks are undone."""
CLIENT = 1


class Ledger(Based):
    """A service's journal, and the reference that is asked the same lines."""

    def __init__(self, path, folder, seed):
        super().__init__(path, folder, seed)
        self.reference, self.pick, self.ids = Reference(TABLES), random.Random(seed), []
        self.speech, self.lines = Speech(seed, self.ids), 0

    def asks(self, stream, said):
        text = self.speech.text(said)
        got, want = service.asked(stream, text + b"\n"), self.reference.answer_ended(CLIENT, text)
        if got != want:
            raise Differs(f"{text!r}: wanted {want!r}, got {got!r}")
        self.ids.extend(map(int, ID.findall(got[:40])))
        self.lines += 1

    def changes(self, stream):
        """A block that isn't pushed."""
        self.asks(stream, {"cmd": "start"})
        left = self.pick.randint(1, MOST_CHANGES)
        while left:
            said = self.speech.command(TABLES)
            if said["cmd"] in CHANGES:
                self.asks(stream, said)
                left -= 1

    def block(self, stream):
        """A block more. The oldest is committed where there are too many; at times the newest are undone."""
        self.changes(stream)
        self.asks(stream, {"cmd": "push"})
        reference = self.reference
        if len(reference.old) > OPEN:
            self.asks(stream, {"cmd": "commit", "revision": reference.revision - OPEN})
        elif self.pick.random() < UNDONE:
            for _ in range(self.pick.randint(1, MOST_UNDONE)):
                self.asks(stream, {"cmd": "undo"})

    def lives(self):
        """One life: all look-ups, then blocks until none is open that was open at its begin, and a kill, at times within a block."""
        with self.started() as running:
            self.looked += look_ups.Answers(self.reference).compare(running)
            with running.connect() as stream:
                began, reference = self.reference.revision, self.reference
                while len(reference.old) < OPEN or reference.revision - len(reference.old) < began:
                    self.block(stream)
                if self.pick.random() < HELD:
                    self.changes(stream)
                running.kill()

    def check_base(self):
        """The base has the tables in front of the oldest open block, and that one's revision."""
        base, reference = self.base(), self.reference
        tables, revision = reference.old[0] if reference.old else reference.tables, reference.revision - len(reference.old)
        if base.revision != revision:
            raise Differs(f"the base says revision {base.revision}; {revision} was wanted")
        for image, table in zip(base.tables, tables, strict=True):
            if not bases.shows_same(image, table):
                raise Differs(f"the base's table {image.name} isn't that in front of the oldest open block")

    def check_again(self):
        """Right behind a rebase with open sessions another is refused, and the files stay."""
        before, (status, said) = self.files(), self.rebased()
        if status != 3 or not said.startswith("journal: sessions"):
            raise Differs(f"a rebase right behind another ended with status {status}: {said}")
        if self.files() != before:
            raise Differs("a refused rebase has changed files")

    def ends_held(self):
        """What a start does to the block that was open at the kill."""
        for _ in range(self.reference.held):
            self.reference.undo()
        self.reference.let_go(0)


def rebase_ledger(path, options, folder):
    """Rounds of one ledger, with a rebase behind each."""
    began, kept = time.monotonic(), Ledger(path, tempfile.mkdtemp(dir=folder), f"{options.seed}/ledger")
    count = options.rounds or (SHORT_ROUNDS if options.short else ROUNDS)
    for n in range(count):
        kept.lives()
        kept.rebases()
        kept.check_base()
        kept.check_again()
        kept.ends_held()
        names = [os.path.basename(it) for it in kept.files()]
        if len(names) != 3:
            raise Differs(f"behind the rebase of round {n} there are {', '.join(names)}")
    took = time.monotonic() - began
    return f"{count} rebases of a ledger with {OPEN} blocks open, {kept.lines} lines, {kept.looked} look-ups, none with another reply; {took:.0f} s"
