"""A journal over several lives of a service: what is in it, what was sent and answered, and that a service which is started again has the
tables of `reference.py` that was asked the journal. `crash.py` and others end the service in their ways."""
import os
import shutil
import signal
import subprocess
import time

import program
from stress import service
from stress.callers import TABLES, Load, counted
from stress.journal_walk import Differs, Said, Walk, fork, mark, may_change
from stress.service import Ended, Service


LONGEST = 10
"""Seconds of load before a kill, at most, where a slow machine needs them for the replies that are wanted."""


def line(text, number=None, n=0):
    return text.encode() + (b"" if number is None else mark(number, n)) + b"\n"


def looks(number):
    """Lines that show all tables: each index in its order, and which ids come next; the sessions are marked as one connection's."""
    found = ['{"cmd":"revision"}']
    for table in TABLES:
        for index in table.indexes:
            if index.kind != "hashed":
                name = "list" if index.kind == "sequenced" else "range"
                found.append(f'{{"cmd":"{name}","table":"{table.name}","index":"{index.name}"}}')
    rows = ['"kept","row":{"k":1,"s":"~","f":true}', '"side","row":{"n":9}']
    for row in rows:
        erase = '{"cmd":"erase_key","table":%s,"index":"id","key":[%%d]}' % row.partition(",")[0]
        found += ['{"cmd":"start"}', *(erase % id for id in range(2)), f'{{"cmd":"insert","table":{row}}}', '{"cmd":"undo"}']
    return [line(it) if '"range"' in it or '"list"' in it else line(it, number, n) for n, it in enumerate(found)]


class Kept:
    """A journal over several lives of a service, and the reference that goes along."""

    def __init__(self, path, folder, seed, tables=TABLES, walk=Walk):
        self.path, self.folder, self.journal, self.seed = path, folder, f"{folder}/journal", seed
        self.schema = service.written_schema(folder, tables)
        self.walk, self.known, self.next, self.torn = walk(tables), b"", 1, 0
        self.sent = self.answered = 0

    def started(self, **how):
        return Service(self.path, self.schema, self.journal, **how)

    def newest(self):
        """The file that the journal's lines are appended to."""
        return self.journal

    def whole(self):
        """The whole lines of the journal behind those that are known, without the header; what was known must still be there."""
        with open(self.newest(), "rb") as file:
            found = file.read()
        if not found.startswith(self.known):
            raise Differs("the journal has changed where it was whole before")
        end = found.rfind(b"\n") + 1
        more, self.torn = found[len(self.known):end], len(found[end:].rstrip(b"\0"))
        lines = more.split(b"\n")[:-1]
        if not self.known and lines:
            self.walk.size = len(lines.pop(0)) + 1
        self.known = found[:end]
        return lines

    def follow(self, said):
        """Walks along what the journal has since; answers how many lines that were."""
        lines = self.whole()
        self.walk.on(lines, said)
        sent, answered = counted(said)
        self.sent, self.answered = self.sent + sent, self.answered + answered
        return len(lines)

    def look(self, running, changes=True):
        """A started service has the journal's tables, and nobody holds sessions. Its sessions for looking are a connection's; without `changes`
        it begins none."""
        self.follow([])
        if self.walk.reference.held:
            raise Differs("sessions are held in the journal of a service that was started again")
        said = Said(self.next)
        self.next += 1
        said.lines = [it[:-1] for it in looks(said.number) if changes or not may_change(it[:-1])]
        want = fork(self.walk.reference).feed(said.number, b"\n".join(said.lines) + b"\n")
        try:
            with running.connect() as stream:
                got = service.asked(stream, b"\n".join(said.lines) + b"\n")
        except (EOFError, ConnectionError):
            raise Ended(*running.ended()) from None
        if got != want:
            pairs = zip(said.lines, want.split(b"\n"), got.split(b"\n"))
            raise Differs("after the start, {!r}: wanted {!r}, got {!r}".format(*next(it for it in pairs if it[1] != it[2])))
        said.replies, said.has_left = got.splitlines(keepends=True), True
        return said

    def round(self, seconds, replies=0, how=signal.SIGKILL, load=Load, **start):
        """One life: it is started, looked at, loaded for so long and for so many replies, and ended. Its status where it ended by itself, and
        what it said."""
        with self.started(**start) as running:
            looked = self.look(running)
            with load(running, self.newest(), f"{self.seed}/{self.next}", self.next) as loaded:
                ended = loaded.go_on(seconds, replies, LONGEST)
                self.next = loaded.next
                running.kill(how)
                loaded.drain()
            self.follow([looked, *loaded.all])
            return ended, running.ended()[1]

    def die_early(self, seconds, **start):
        """It is killed while it starts."""
        how = {"stdin": subprocess.DEVNULL, "stdout": subprocess.DEVNULL, "stderr": subprocess.DEVNULL}
        words = [self.path, "--schema", self.schema, "--listen", "0", "--journal", self.journal]
        with subprocess.Popen(words, preexec_fn=program.end_with_parent, **how, env={**os.environ, **service.SANITIZER, **start.get("env", {})}) as ran:
            time.sleep(seconds)
            ran.kill()


def library(name="forget_unsynced"):
    """A library to load before a service, compiled where its source is newer: the disk that forgets, unless another is named. None where there
    is no compiler."""
    compiler = shutil.which(os.environ.get("CC", "cc"))
    source, made = f"{program.TOP}/scripts/stress/{name}.c", f"{program.TOP}/out/{name}.so"
    if compiler and (not os.path.exists(made) or os.path.getmtime(made) < os.path.getmtime(source)):
        # (another run may be at it too)
        new = f"{made}.{os.getpid()}"
        os.makedirs(os.path.dirname(made), exist_ok=True)
        subprocess.run([compiler, "-O2", "-Wall", "-shared", "-fPIC", "-o", new, source, "-ldl"], check=True)
        os.replace(new, made)
    return made if compiler else None


def forgetting(folder, seed, **more):
    """The environment of a service whose disk forgets."""
    env = {"LD_PRELOAD": library(), "FORGET_FILE": f"{folder}/journal", "FORGET_SEED": str(seed)}
    return {**env, **{f"FORGET_{name}": str(value) for name, value in more.items()}}
