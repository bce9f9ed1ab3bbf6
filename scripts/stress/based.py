"""A journal with a base and segments over several lives of a service. `stress crash --part rebase` rebases it behind each of them; other modules
kill, stop and damage it."""
import copy
import os
import random
import shutil
import subprocess
import tempfile
import time

import bases
from stress import look_ups, service
from stress.journal_walk import Differs, Said, fork, state
from stress.kept import Kept, line

ROUNDS, SHORT_ROUNDS = 50, 4
LOAD, REPLIES = 0.2, 200
END_ALL = '{"cmd":"commit","revision":9223372036854775807}'


class Based(Kept):
    """A journal whose newest segment is appended to. What stands in older ones is known, or the base has it."""

    def __init__(self, *how):
        super().__init__(*how)
        self.number, self.looked, self.answers = 1, 0, None

    def newest(self):
        found = bases.segments_of(self.journal)
        if not found:
            return self.journal
        if found[-1].number != self.number:
            self.begin(found[-1])
        return found[-1].path

    def begin(self, segment):
        """A rebase has begun this segment: its base has all tables, or, where the rebase was killed before, there is nothing in it yet."""
        with open(segment.path, "rb") as file:
            first = file.readline()
        self.number, self.known, self.walk.size = segment.number, first, len(first)
        base = self.base()
        if base is not None and base.segment == segment.number:
            self.check(base, first)

    def base(self):
        try:
            with open(bases.base_path(self.journal), "rb") as file:
                return bases.read_base(file.read())
        except FileNotFoundError:
            return None

    def check(self, base, first):
        """A base has the tables of the reference, and stands right behind its segment's header."""
        reference = self.walk.reference
        if base.line or base.sum != bases.sum_of(first[:-1]) or base.revision != reference.revision or reference.old:
            raise Differs(f"the base says line {base.line}, revision {base.revision}, sum {base.sum}; revision {reference.revision} was wanted")
        for image, table in zip(base.tables, reference.tables, strict=True):
            if not bases.shows_same(image, table):
                raise Differs(f"the base's table {image.name} isn't the reference's")

    def says(self, *texts):
        """A connection asks these lines of a start, which is killed behind them."""
        with self.started() as running:
            said = [self.look(running), Said(self.next)]
            self.next += 1
            said[1].lines = [line(it, said[1].number, n)[:-1] for n, it in enumerate(texts)]
            with running.connect() as stream:
                got = service.asked(stream, b"\n".join(said[1].lines) + b"\n")
            said[1].replies, said[1].has_left = got.splitlines(keepends=True), True
            running.settle()
            running.kill()
        self.follow(said)

    def end_sessions(self):
        """A start, which undoes what was held; then the sessions that nobody holds are committed."""
        self.says(END_ALL)

    def wanted(self):
        """What the reference answers to each look-up. It is kept for as long as it holds."""
        if self.answers is None or self.answers.of != state(self.walk.reference):
            self.answers = look_ups.Answers(self.walk.reference)
        return self.answers

    def goes_on(self, is_asked_all=True):
        """A start has the tables: each index is the reference's, and so is the answer to each look-up, if all are asked."""
        with self.started() as running:
            self.follow([self.look(running)])
            if is_asked_all:
                self.looked += self.wanted().compare(running)
            running.kill()

    def rebased(self, env=None, largest_file=None):
        """A rebase's status, and what it said."""
        words = [self.path, "--schema", self.schema, "--journal", self.journal, "--rebase"]
        how = {"env": {**os.environ, **service.SANITIZER, **(env or {})}, "preexec_fn": service.prepared(largest_file)}
        ran = subprocess.run(words, capture_output=True, stdin=subprocess.DEVNULL, timeout=service.WAIT, **how)
        return ran.returncode, ran.stderr.decode(errors="replace").strip()

    def rebases(self):
        """A rebase that does what it is to do."""
        status, said = self.rebased()
        if status or said:
            raise Differs(f"a rebase ended with status {status}: {said}")

    def files(self):
        """What the journal's files have, by their names."""
        found = {}
        for name in sorted(os.listdir(self.folder)):
            if name.startswith(os.path.basename(self.journal)):
                with open(f"{self.folder}/{name}", "rb") as file:
                    found[name] = file.read()
        return found

    def twin(self, folder, files=None):
        """The same journal in another folder, or what a stop has left of it, and a reference of its own."""
        self.wanted()
        made = copy.copy(self)
        for name, data in (self.files() if files is None else files).items():
            with open(f"{folder}/{name}", "wb") as file:
                file.write(data)
        shutil.copy2(self.schema, folder)
        made.folder, made.journal, made.schema = folder, f"{folder}/{os.path.basename(self.journal)}", f"{folder}/{os.path.basename(self.schema)}"
        made.walk = copy.copy(self.walk)
        made.walk.reference = fork(self.walk.reference)
        return made


def loaded_round(kept, pick, n=0):
    """One life under load, which ends by a kill; then no session is open."""
    ended, said = kept.round(pick.uniform(0, LOAD), pick.randint(0, REPLIES))
    if ended is not None:
        raise Differs(f"in round {n} the service ended by itself, with status {ended}: {said}")
    kept.end_sessions()


def rebase(path, options, folder):
    """Rounds of one journal, with a rebase behind each."""
    began, pick, kept = time.monotonic(), random.Random(options.seed), Based(path, tempfile.mkdtemp(dir=folder), f"{options.seed}/rebase")
    count = options.rounds or (SHORT_ROUNDS if options.short else ROUNDS)
    for n in range(count):
        loaded_round(kept, pick, n)
        kept.rebases()
        kept.goes_on()
        names = [os.path.basename(it) for it in kept.files()]
        if len(names) != 2:
            raise Differs(f"behind the rebase of round {n} there are {', '.join(names)}")
    took = time.monotonic() - began
    what = f"{count} rebases, {kept.sent} lines sent, {kept.answered} acknowledged, {kept.looked} look-ups"
    return f"{what}; none was lost, none was added; {took:.0f} s"
