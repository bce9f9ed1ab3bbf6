"""Rebases beside a service that has the newest segment, and goes on: under load, killed in front of each of their calls, and while another start reads the
journal. Whatever they leave has all acknowledged lines, and starts with their tables. Parts of `stress crash`."""
import contextlib
import fcntl
import os
import random
import shlex
import shutil
import signal
import tempfile
import threading
import time

import bases
from stress import service
from stress.based import END_ALL
from stress.journal_walk import Differs
from stress.kept import library
from stress.rebase_stops import LEFT_OUT, NO_COMPILER, refusal
from stress.segment_stops import BYTES, Segmented, SegmentedLoad
from stress.service import Ended
from stress.service_faults import counts_in

ROUNDS, SHORT_ROUNDS = 40, 4
KILLS, SHORT_KILLS = 200, 20
STARTS, SHORT_STARTS = 200, 20
KILLED, TWO = 0.5, 0.2
"""How often a rebase beside a loaded service is killed, and how often two begin at once."""
OPENS = ['{"cmd":"start"}', '{"cmd":"insert","table":"side","row":{"n":7}}', '{"cmd":"push"}']
LOCKED, SESSIONS = "journal: locked", "journal: sessions"


class Beside(Segmented):
    """A journal that is rebased while it is served. Segments that a rebase takes away are moved to a folder of their own, and read there still."""

    LEAST = 0

    def __init__(self, path, folder, seed, loaded):
        super().__init__(path, folder, seed)
        self.loaded = loaded

    def away(self):
        os.makedirs(f"{self.folder}/away", exist_ok=True)
        return f"{self.folder}/away"

    def bytes_of(self, number):
        """What a segment has, in its place or away: it may be taken away meanwhile."""
        for folder in (self.folder, self.away()):
            with contextlib.suppress(FileNotFoundError), open(bases.segment_path(f"{folder}/{os.path.basename(self.journal)}", number), "rb") as file:
                return file.read()
        raise Differs(f"segment {number} is lost")

    def read(self):
        return [self.bytes_of(it) for it in range(1, max(bases.numbers_of(self.journal), default=0) + 1)]

    def twin(self, folder, files=None):
        made = super().twin(folder, files)
        shutil.copytree(self.away(), made.away(), dirs_exist_ok=True)
        return made

    def keeping(self, more=()):
        """The environment of a rebase."""
        return {"LD_PRELOAD": self.loaded, "REFUSE_KEEP": self.away(), **dict(more)}

    @contextlib.contextmanager
    def served(self):
        """The newest segment is another process's, as while it is served."""
        with open(self.newest(), "rb") as file:
            fcntl.flock(file, fcntl.LOCK_EX | fcntl.LOCK_NB)
            yield

    def beside(self, more=()):
        """A rebase beside who has the newest segment, which stays as it is. Whether it was killed."""
        before = self.read()
        with self.served():
            status, said = self.rebased(self.keeping(more))
        if status not in (0, -signal.SIGKILL) or said:
            raise Differs(f"a rebase beside a service ended with status {status}: {said}")
        if self.read() != before:
            raise Differs("a rebase beside a service has changed a segment")
        return status != 0

    def rebases(self):
        if self.beside():
            raise Differs("a rebase was killed")

    def load(self, running, _path, *how):
        return BesideLoad(self, running, *how)


class BesideLoad(SegmentedLoad):
    """Callers of a service beside which rebases go on until it has ended."""

    def __init__(self, kept, running, seed, first_number):
        super().__init__(kept, running, seed, first_number)
        self.rebases = Rebases(kept, running, seed)

    def __enter__(self):
        self.rebases.start()
        return super().__enter__()

    def __exit__(self, *how):
        self.rebases.end()
        super().__exit__(*how)

    def drain(self):
        self.rebases.end()
        if self.rebases.why:
            raise self.rebases.why
        super().drain()


class Rebases(threading.Thread):
    """Rebases one behind another, some of which are killed, and at times two at once."""

    def __init__(self, kept, running, seed):
        super().__init__()
        self.kept, self.running, self.pick, self.has_ended, self.why = kept, running, random.Random(f"{seed}/rebases"), False, None

    def end(self):
        self.has_ended = True
        if self.is_alive():
            self.join()

    def run(self):
        try:
            while not self.has_ended:
                self.once(2 if self.pick.random() < TWO else 1)
                time.sleep(self.pick.uniform(0, 0.02))
        except (Differs, OSError) as why:
            self.why = why

    def once(self, many):
        """One rebase, or two at once: then one may find the other at it."""
        found = []
        others = [threading.Thread(target=lambda env=self.env(): found.append(self.kept.rebased(env))) for _ in range(many)]
        for it in others:
            it.start()
        for it in others:
            it.join()
        for status, said in found:
            self.judge(status, said, many)

    def env(self):
        if self.pick.random() >= KILLED or not self.kept.calls:
            return self.kept.keeping()
        return self.kept.keeping(refusal(self.kept.loaded, self.pick.choice(self.kept.calls), KILL=1))

    def judge(self, status, said, many):
        # (once the service has been killed it is a rebase as ever, which refuses older open sessions)
        is_served = self.running.process.poll() is None
        allowed = ["", *([LOCKED] if many > 1 else []), *([] if is_served else [SESSIONS])]
        if status not in (0, 3, -signal.SIGKILL) or not any(said == it or it and said.startswith(f"{it}: ") for it in allowed):
            raise Differs(f"a rebase beside a service ended with status {status}: {said}")
        self.kept.counts[{0: "ended", 3: "refused"}.get(status, "killed")] += 1


def calls_in(counts):
    """The calls that a file of counts has, each with its number."""
    found = counts_in(counts)
    os.remove(counts)
    return [(name, nth) for name, many in sorted(found.items()) if name not in LEFT_OUT for nth in range(1, many + 1)]


def calls_of(kept, folder):
    """The calls that a rebase beside a service makes."""
    counts, twin = f"{folder}/counts", kept.twin(tempfile.mkdtemp(dir=folder))
    twin.beside({"REFUSE_COUNTS": counts})
    shutil.rmtree(twin.folder)
    return calls_in(counts)


def calls_of_start(kept, folder):
    """The calls that a start makes."""
    counts, twin = f"{folder}/counts", kept.twin(tempfile.mkdtemp(dir=folder))
    with twin.started(env={"LD_PRELOAD": kept.loaded, "REFUSE_COUNTS": counts}) as running:
        running.kill()
    shutil.rmtree(twin.folder)
    return calls_in(counts)


def lived(kept, opens):
    """A life that goes through some segments, behind a block that is left open, if any."""
    if opens:
        kept.says(*OPENS)
    said, ended = kept.life()
    if ended:
        raise Differs(f"a life ended by itself: {ended}")
    kept.behind(said, "a life")


def same_behind(kept, what):
    """What a stop has left starts with the same tables, is rebased beside a service, and starts with them again."""
    try:
        kept.goes_on()
        kept.rebases()
        kept.goes_on(is_asked_all=False)
    except (Differs, Ended) as why:
        raise Differs(f"{what}: {why}") from None
    shutil.rmtree(kept.folder)


def beside(path, options, folder):
    """Rounds of one journal under load, with rebases beside, and kills of both."""
    loaded, began = library("refuse_calls"), time.monotonic()
    if not loaded:
        return NO_COMPILER
    pick, kept = random.Random(f"{options.seed}/beside"), Beside(path, tempfile.mkdtemp(dir=folder), f"{options.seed}/beside", loaded)
    kept.calls, kept.counts = [], {"ended": 0, "killed": 0, "refused": 0}
    count = options.rounds or (SHORT_ROUNDS if options.short else ROUNDS)
    for n in range(count):
        ended, said = kept.round(pick.uniform(0.2, 1), pick.randint(0, 2000), load=kept.load, sync=["turn", "always", "never"][n % 3])
        if ended is not None:
            raise Differs(f"in round {n} the service ended by itself, with status {ended}: {said}")
        kept.goes_on(is_asked_all=n % 4 == 3)
        kept.calls = kept.calls or calls_of(kept, folder)
    if not kept.counts["ended"] or os.path.exists(kept.journal):
        raise Differs(f"no rebase has taken the first of {len(kept.read())} segments away: {kept.counts}")
    rebases = ", ".join(f"{many} {it}" for it, many in kept.counts.items())
    what = f"{count} rounds, {len(kept.read())} segments, rebases beside: {rebases}; {kept.sent} lines sent, {kept.answered} acknowledged"
    return f"{what}; none was lost, none was added; {time.monotonic() - began:.0f} s"


def beside_killed(path, options, folder):
    """Kills in front of each call of rebases beside a service, half of them with a block open that began in a closed segment."""
    loaded, began, count, many = library("refuse_calls"), time.monotonic(), 0, 0
    if not loaded:
        return NO_COMPILER
    kept = Beside(path, tempfile.mkdtemp(dir=folder), f"{options.seed}/killed", loaded)
    wanted = options.rounds or (SHORT_KILLS if options.short else KILLS)
    while count < wanted:
        lived(kept, opens=many % 2 == 0)
        for call in calls_of(kept, folder):
            twin = kept.twin(tempfile.mkdtemp(dir=folder))
            count += twin.beside(refusal(loaded, call, KILL=1))
            same_behind(twin, f"a rebase beside a service was killed in front of call {call[1]} of {call[0]}")
        kept.rebases()
        kept.goes_on()
        if many % 2:
            kept.says(END_ALL)
        many += 1
    return f"{count} kills inside {many} rebases beside a service leave the same tables; {time.monotonic() - began:.0f} s"


def overtaken(kept, call, said):
    """A start, within which a rebase goes on to its end in front of a call. Whether it was refused, as one that comes while another has the journal."""
    words = shlex.join([kept.path, "--schema", kept.schema, "--journal", kept.journal, "--rebase"])
    env = " ".join(f"{name}={shlex.quote(it)}" for name, it in {**service.SANITIZER, **kept.keeping()}.items())
    run = f"{env} {words} > {said} 2>&1; echo $? >> {said}"
    try:
        with kept.started(env=refusal(kept.loaded, call, RUN=run)) as running:
            kept.follow([kept.look(running)])
            running.kill()
    except Ended as ended:
        if ended.status != 3 or not ended.said.startswith(f"{LOCKED}: "):
            raise
        return True
    return False


def beside_starts(path, options, folder):
    """Starts within which a rebase goes on from its begin to its end: in front of each of their calls."""
    loaded, began, count, refused, many = library("refuse_calls"), time.monotonic(), 0, 0, 0
    if not loaded:
        return NO_COMPILER
    kept = Beside(path, tempfile.mkdtemp(dir=folder), f"{options.seed}/starts", loaded)
    wanted = options.rounds or (SHORT_STARTS if options.short else STARTS)
    while count < wanted:
        lived(kept, opens=many % 2)
        for call in calls_of_start(kept, folder):
            what, twin = f"a rebase in front of call {call[1]} of {call[0]} of a start", kept.twin(tempfile.mkdtemp(dir=folder))
            try:
                was_refused = overtaken(twin, call, f"{folder}/said")
                with open(f"{folder}/said", encoding="utf-8") as file:
                    status = file.read().split("\n")[-2]
                if status not in ("0", "3"):
                    raise Differs(f"the rebase ended with status {status}")
            except (Differs, Ended) as why:
                raise Differs(f"{what}: {why}") from None
            refused, count = refused + was_refused, count + 1
            same_behind(twin, what)
        kept.rebases()
        kept.goes_on()
        many += 1
    return f"{count} starts within which a rebase went on have the same tables; {refused} were told that another has it; {time.monotonic() - began:.0f} s"
