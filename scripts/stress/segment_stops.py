"""A service that goes on in its journal's next segment every few thousand bytes, and comes to a stop: killed under load, killed in front of each call of a
life that goes through several segments, on a disk that forgets at each of its changes, or refused a call. Whatever it leaves has all acknowledged lines,
and starts with their tables. Parts of `stress crash`."""
import errno
import os
import random
import shutil
import signal
import tempfile
import time

import bases
from stress import service
from stress.based import Based
from stress.callers import Load
from stress.disk_states import recorded, states_of
from stress.journal_walk import Differs, Said
from stress.kept import library, line
from stress.rebase_stops import LEFT_OUT, NO_COMPILER, refusal
from stress.service import Ended
from stress.service_faults import ERRORS, counts_in

ROUNDS, SHORT_ROUNDS = 40, 4
KILLS, SHORT_KILLS = 200, 20
STATES, SHORT_STATES = 200, 20
BYTES = 4096
"""Of a segment, the fewest that may be asked for."""
LINES = 250
"""Of one life, which goes through two segments at least."""


class Segmented(Based):
    """A journal whose service goes on in further segments. What is known are the lines of all."""

    LEAST = BYTES
    """How many bytes each segment but the newest has at least."""

    def started(self, **how):
        return super().started(extra=("--segment-bytes", str(BYTES)), **how)

    def read(self):
        """What each segment has now, while a service may go on."""
        found = []
        for it in bases.segments_of(self.journal):
            with open(it.path, "rb") as file:
                found.append(file.read())
        return found

    def texts(self):
        """What each segment has. Each but the last one is whole, and has as many bytes as are wanted; the next one has its sum."""
        found = self.read()
        for number, (before, data) in enumerate(zip(found, found[1:]), 2):
            header = bases.header_of(data.partition(b"\n")[0])
            if not before.endswith(b"\n") or len(before) < self.LEAST:
                raise Differs(f"the segment before segment {number} has {len(before)} bytes and ends with {before[-20:]!r}")
            if header is None or header["previous"] != bases.sum_of(before) or header["segment"] != number:
                raise Differs(f"segment {number} has not the header that follows, but {data[:200]!r}")
        return found

    def newest(self):
        return bases.segments_of(self.journal)[-1].path

    def lines(self):
        """The header of the first segment, and the whole lines of all."""
        texts = self.texts()
        whole = [it[:it.rfind(b"\n") + 1] for it in texts]
        self.torn = len(texts[-1][len(whole[-1]):].rstrip(b"\0")) if texts else 0
        return b"".join(it if n == 0 else it.partition(b"\n")[2] for n, it in enumerate(whole))

    def whole(self):
        found = self.lines()
        if not found.startswith(self.known):
            raise Differs("the journal has changed where it was whole before")
        more = found[len(self.known):].split(b"\n")[:-1]
        if not self.known and more:
            self.walk.size = len(more.pop(0)) + 1
        self.known = found
        return more

    def load(self, running, _path, *how):
        return SegmentedLoad(self, running, *how)

    def life(self, env=None):
        """One connection asks lines of a start, each once it has the reply to the one before; then it is killed. What was said, and how it ended by itself."""
        said = Said(self.next, len(self.known))
        self.next += 1
        try:
            with self.started(env=env) as running:
                try:
                    self.talk(running, said)
                except (EOFError, OSError):
                    return said, running.ended()
                running.kill()
        except Ended as ended:
            return said, (ended.status, ended.said)
        return said, None

    def talk(self, running, said):
        with running.connect() as stream:
            for n in range(LINES):
                kind = n % 5
                text = ['{"cmd":"insert","row":{"k":%d,"s":"%s","f":true}}' % (n, "s" * (n % 60)), '{"cmd":"start"}', '{"cmd":"insert","table":"side","row":{"n":4}}',
                        '{"cmd":"undo"}', '{"cmd":"size","table":"side"}'][kind]
                said.lines.append(line(text, said.number, n)[:-1])
                got = service.asked(stream, said.lines[-1] + b"\n")
                said.replies.append(got)
        said.has_left = True

    def behind(self, said, what):
        """A start has the tables of what is there, and of that all that was acknowledged."""
        try:
            said.has_left = True
            self.follow([said])
            self.goes_on()
        except (Differs, Ended) as why:
            raise Differs(f"{what}: {why}") from None


class SegmentedLoad(Load):
    """Callers of a service whose journal has several segments."""

    def __init__(self, kept, running, seed, first_number):
        super().__init__(running, kept.journal, seed, first_number)
        self.kept = kept

    def length(self):
        return sum(len(it[:it.rfind(b"\n") + 1]) - (it.find(b"\n") + 1 if n else 0) for n, it in enumerate(self.kept.read()))


def segments(path, options, folder):
    """Rounds of one journal under load, with kills; now and then it is rebased."""
    began, pick, kept = time.monotonic(), random.Random(options.seed), Segmented(path, tempfile.mkdtemp(dir=folder), f"{options.seed}/segments")
    count = options.rounds or (SHORT_ROUNDS if options.short else ROUNDS)
    for n in range(count):
        ended, said = kept.round(pick.uniform(0, 0.3), pick.randint(0, 400), load=kept.load, sync=["turn", "always", "never"][n % 3])
        if ended is not None:
            raise Differs(f"in round {n} the service ended by itself, with status {ended}: {said}")
        kept.goes_on(is_asked_all=n % 4 == 3)
    without_folder(path, folder, f"{options.seed}/gone")
    many = len(bases.segments_of(kept.journal))
    if many < 2:
        raise Differs(f"{count} rounds have made {many} segment")
    return f"{count} rounds, {many} segments, {kept.sent} lines sent, {kept.answered} acknowledged; none was lost, none was added; {time.monotonic() - began:.0f} s"


def without_folder(path, folder, seed):
    """A service whose journal's folder is gone goes on in the segment that it has."""
    kept, said = Segmented(path, tempfile.mkdtemp(dir=folder), seed), Said(1)
    with kept.started() as running:
        shutil.rmtree(kept.folder)
        kept.talk(running, said)
        running.kill()
    if len(said.replies) != LINES:
        raise Differs(f"without its folder it answered {len(said.replies)} lines")


def fresh(path, folder, seed):
    """A journal of some lines in a folder of its own, and what a life of it calls."""
    kept = Segmented(path, tempfile.mkdtemp(dir=folder), seed)
    said, ended = kept.life()
    if ended:
        raise Differs(f"a life ended by itself: {ended}")
    kept.behind(said, "a life")
    return kept


def calls_of(kept, folder, loaded):
    """The calls that a life makes that goes through segments, each with its number."""
    counts, twin = f"{folder}/counts", kept.twin(tempfile.mkdtemp(dir=folder))
    before = len(twin.texts())
    twin.life({"LD_PRELOAD": loaded, "REFUSE_COUNTS": counts})
    if len(twin.texts()) < before + 2:
        raise Differs(f"a life goes through {len(twin.texts()) - before} segments")
    found = counts_in(counts)
    os.remove(counts)
    shutil.rmtree(twin.folder)
    return [(name, nth) for name, many in sorted(found.items()) if name not in LEFT_OUT for nth in range(1, many + 1)]


def some_of(calls, wanted, pick):
    """So many of the calls: all that are rare, and some of the others."""
    rare = [it for it in calls if sum(1 for other in calls if other[0] == it[0]) <= 40]
    rest = [it for it in calls if it not in rare]
    return (rare + pick.sample(rest, min(len(rest), max(0, wanted - len(rare)))))[:max(wanted, 1)]


def segments_killed(path, options, folder):
    """Kills in front of each call of a life that goes through several segments."""
    loaded, began, count = library("refuse_calls"), time.monotonic(), 0
    if not loaded:
        return NO_COMPILER
    pick, kept = random.Random(f"{options.seed}/segments"), fresh(path, folder, f"{options.seed}/killed")
    for call in some_of(calls_of(kept, folder, loaded), options.rounds or (SHORT_KILLS if options.short else KILLS), pick):
        twin = kept.twin(tempfile.mkdtemp(dir=folder))
        said, ended = twin.life(refusal(loaded, call, KILL=1))
        if ended and ended[0] != -signal.SIGKILL:
            raise Differs(f"killed in front of call {call[1]} of {call[0]}: it ended with {ended}")
        count += bool(ended)
        twin.behind(said, f"killed in front of call {call[1]} of {call[0]}")
        shutil.rmtree(twin.folder)
    return f"{count} kills inside a life of {LINES} lines leave all that was acknowledged; {time.monotonic() - began:.0f} s"


def segments_refused(path, options, folder):
    """A life of which one call is refused, once each. It goes on, or ends with `fault: journal` and the file."""
    loaded, began, count, ended_so = library("refuse_calls"), time.monotonic(), 0, 0
    if not loaded:
        return NO_COMPILER
    pick, kept = random.Random(f"{options.seed}/refused"), fresh(path, folder, f"{options.seed}/refused")
    for call in some_of(calls_of(kept, folder, loaded), options.rounds or (SHORT_KILLS if options.short else KILLS) // 2, pick):
        for error in (ERRORS.get(call[0]) or ["EIO"])[::1 if not options.short else 9]:
            what = f"call {call[1]} of {call[0]} was refused as {error or 'half of a write'}"
            twin = kept.twin(tempfile.mkdtemp(dir=folder))
            said, ended = twin.life(refusal(loaded, call, ERROR=getattr(errno, error) if error else 0))
            if ended and (ended[0] not in (3, 4) or not ended[1].startswith(("fault: ", "journal: ", "schema: "))):
                raise Differs(f"{what}: it ended with {ended}")
            count, ended_so = count + 1, ended_so + bool(ended)
            twin.behind(said, what)
            shutil.rmtree(twin.folder)
    return f"{count} refused calls, {ended_so} of which ended it, leave all that was acknowledged; {time.monotonic() - began:.0f} s"


def segments_forget(path, options, folder):
    """What a disk may have that forgets what wasn't synced, behind a stop at each change of a life that goes through segments. What was acknowledged before
    isn't compared with it: only that a start has the tables of what is there, and that what was there before the life is there still."""
    loaded, began, count = library("record_changes"), time.monotonic(), 0
    if not loaded:
        return NO_COMPILER
    pick, kept = random.Random(f"{options.seed}/forgets"), fresh(path, folder, f"{options.seed}/forgets")
    wanted, said = options.rounds or (SHORT_STATES if options.short else STATES), []
    twin = kept.twin(tempfile.mkdtemp(dir=folder))
    before, changes = twin.files(), recorded(twin, lambda it, env: said.append(it.life(env)[0]), loaded)
    shutil.rmtree(twin.folder)
    states = list(states_of(before, changes, pick))
    for what, files in pick.sample(states, min(wanted, len(states))):
        twin, only = kept.twin(tempfile.mkdtemp(dir=folder), files), Said(said[0].number, said[0].born)
        only.lines = list(said[0].lines)
        twin.behind(only, f"a stop {what}")
        shutil.rmtree(twin.folder)
        count += 1
    return f"{count} disks of {len(states)} that forgot what wasn't synced start with what they have; {time.monotonic() - began:.0f} s"
