"""Each request for memory of the service and each of its calls of the system refused in turn, once, while two clients change tables.

    stress service-faults [--program FILE] [--lines N] [--seed N] [--every N] [--call NAME] [--jobs N]

Two clients ask N random lines, a line at a time, of a service with a journal; sessions are held, undone and pushed. A first run counts the
calls by name. Then each call of each name is refused once, in a run of its own, with each error that the name may have (a write may also take
half of its bytes). What must hold of each run: each reply is the reference's, or `memory`, or `journal`, and then the line changed nothing; the
service goes on, or ends with a status and line that docs/OPERATING.md has; a client whose connection breaks has its sessions undone; each
acknowledged line is in the journal, in its order, and nothing is there that wasn't sent; and the service that is started again, with nothing
refused, has the tables of `reference.py` that was asked the journal, with no session held (`journal_walk.py`). `memory` is answered only where a
request for memory was refused, and `journal` where a write to the journal was. A run may make fewer calls than the first, and not reach the one that is to be refused: then it is run once more, and if that one
doesn't either, it is counted as not reached, and as no run.

`refuse_calls.c` says what counts as a call; it needs a C compiler, and the proved program. --every N refuses each N-th call alone, --call those
of one name; where there is no such call the status is 2. The last line is 'N runs, .. D differences'."""
import argparse
import collections
import contextlib
import errno
import os
import random
import re
import shutil
import socket
import struct
import subprocess
import sys
import tempfile
import time
from concurrent.futures import ThreadPoolExecutor

import program
from journal import end_of
from stress import service
from stress.callers import ID, TABLES, Speech
from stress.journal_walk import Differs, FullWalk, Said, Walk
from stress.kept import Kept, library
from stress.service import Ended

WAIT = 20
"""Seconds that a reply may take."""
GRACE = 1
"""Seconds that a service may take to end once it has broken off a connection."""
RECORD = 32
NOT_REACHED = "not reached"
MEMORY = b'{"error":"memory","ok":false}\n'
ENDS = re.compile(r"(4 fault: ((journal|listen): [^:]+(:\d+)?(: .+)?|poll|write|memory))|(3 (journal: (file|locked)|schema: \w+): [^:]+(: .+)?)")
ERRORS = {
    "memory": ["ENOMEM"],
    "read": ["EIO", "EINTR"], "readv": ["EIO", "EINTR"], "pread": ["EIO"], "recv": ["ECONNRESET", "EINTR"],
    "recvfrom": ["ECONNRESET", "EINTR"],
    "write": ["ENOSPC", "EINTR", ""], "writev": ["ENOSPC", "EINTR", ""], "pwrite": ["ENOSPC", ""], "send": ["ECONNRESET", "EINTR", ""],
    "sendto": ["ECONNRESET", "EINTR", ""],
    "fdatasync": ["EIO"], "fsync": ["EIO", "EINVAL"], "ftruncate": ["EIO"], "ftruncate64": ["EIO"], "open": ["EACCES"], "open64": ["EACCES"],
    "openat": ["EACCES"], "accept": ["EMFILE", "ECONNABORTED"], "accept4": ["EMFILE", "ECONNABORTED"], "epoll_wait": ["EINTR", "EBADF"],
    "epoll_ctl": ["ENOSPC"], "epoll_create1": ["EMFILE"], "socket": ["EMFILE"], "bind": ["EADDRINUSE"], "listen": ["EADDRINUSE"],
    "flock": ["EWOULDBLOCK", "EINTR", "ENOLCK"], "setsockopt": ["ENOMEM"], "shutdown": ["ENOTCONN"], "getsockname": ["ENOBUFS"],
}
"""With which errors each call is refused; one that isn't here, with EIO. No error: half of a write. A socket isn't said to be unready (EAGAIN) where
it is ready: the service asks the system once when a socket becomes ready, and the system never says so of one that is."""


class MemoryWalk(Walk):
    """A journal of a service that may refuse a line for want of memory, since a request of it is refused."""

    def fits(self, connection, text, reply):
        return reply == MEMORY or super().fits(connection, text, reply)


class Talk:
    """Two clients that ask in turn, each a line at a time, as long as the service lasts."""

    def __init__(self, running, kept, seed):
        self.running, self.pick, self.ids = running, random.Random(seed), []
        self.all, self.streams, self.speeches, self.kept, self.has_broken = [], {}, {}, kept, False
        for _ in range(2):
            self.come()

    def come(self):
        with open(self.kept.journal, "rb") as file:
            said = Said(self.kept.next, end_of(file.fileno()))
        self.kept.next += 1
        try:
            self.streams[said.number] = self.running.connect()
        except OSError:
            said.has_left = True
            return
        self.streams[said.number].settimeout(WAIT)
        self.all.append(said)
        # (the speech is the same in each run, whichever numbers the connections have)
        self.speeches[said.number] = Speech(f"{self.kept.seed}/{len(self.all)}", self.ids)

    def ask(self):
        """One line of one client, and its reply. Whether there is still somebody to ask."""
        here = [it for it in self.all if not it.has_left]
        if not here:
            self.come()
            here = [it for it in self.all if not it.has_left]
            if not here:
                return False
        said = self.pick.choice(here)
        text = self.speeches[said.number].next(said.number, len(said.lines))
        said.lines.append(text)
        reply = self.replied(self.streams[said.number], text)
        if reply is None:
            said.has_left = self.has_broken = True
            self.streams.pop(said.number).close()
            return self.running.process.poll() is None
        said.replies.append(reply)
        self.ids += [int(it) for it in ID.findall(reply)[:3]]
        return True

    def replied(self, stream, text):
        try:
            stream.sendall(text + b"\n")
            got = b""
            while not got.endswith(b"\n"):
                more = stream.recv(1 << 16)
                if not more:
                    return None
                got += more
            return got
        except socket.timeout:
            raise Differs(f"no reply to {text[:200]!r} within {WAIT} s") from None
        except OSError:
            return None

    def leave(self):
        for said in self.all:
            if said.number in self.streams:
                self.streams.pop(said.number).close()
            said.has_left = True


def counts_in(name):
    """How often each call was made."""
    with open(name, "rb") as file:
        whole = file.read()
    found = (struct.unpack_from("24sQ", whole, at) for at in range(0, len(whole), RECORD))
    return {name.rstrip(b"\0").decode(): calls for name, calls in found if calls}


def life(path, options, folder, env):
    """A service whose clients ask the lines; then one that is started again. Answers how the first ended."""
    kept = Kept(path, folder, f"{options.seed}/faults")
    if env.get("REFUSE_CALL") == "memory":
        kept.walk = MemoryWalk(TABLES)
    if env.get("REFUSE_CALL") == "pwrite":
        kept.walk = FullWalk(TABLES)
    ended, all_said = "went on", []
    try:
        with kept.started(env=env) as running:
            talk = Talk(running, kept, options.seed)
            for _ in range(options.lines):
                if not talk.ask():
                    break
            if talk.has_broken:
                with contextlib.suppress(subprocess.TimeoutExpired):
                    running.process.wait(GRACE)
            if running.process.poll() is None:
                running.kill()
            else:
                ended = "{} {}".format(*running.ended())
            talk.leave()
            all_said = talk.all
    except Ended as error:
        ended = f"{error.status} {error.said}"
    if ended != "went on" and not ENDS.fullmatch(ended):
        raise Differs(f"it ended with {ended!r}")
    if os.path.exists(kept.journal):
        kept.follow(all_said)
    elif any(it.replies for it in all_said):
        raise Differs("there is no journal")
    with kept.started() as running:
        kept.look(running)
    return ended, sum(it.replies.count(MEMORY) for it in all_said), sum(len(it.replies) for it in all_said)


def refused(path, options, loaded, name, nth, error):
    """One call refused. How it ended, or that the call wasn't reached; how many lines were answered `memory`, and how it differs, if it does."""
    folder = tempfile.mkdtemp(prefix="service-faults-")
    env = {"REFUSE_CALL": name, "REFUSE_NTH": str(nth), "REFUSE_ERROR": str(getattr(errno, error) if error else 0)}
    env.update(LD_PRELOAD=loaded, REFUSE_COUNTS=f"{folder}/counts")
    try:
        ended, memory, _ = life(path, options, folder, env)
        if counts_in(env["REFUSE_COUNTS"]).get(name, 0) >= nth:
            return ended, memory, None
        if memory or ended != "went on":
            raise Differs(f"nothing was refused: {memory} lines are answered memory, and it {ended}")
        return NOT_REACHED, 0, None
    except (Differs, Ended, OSError, EOFError, subprocess.TimeoutExpired) as differs:
        return "differs", 0, f"{name} {nth} with {error or 'half'}: {differs}"
    finally:
        shutil.rmtree(folder, ignore_errors=True)


def reached(path, options, loaded, *call):
    """The same, once more where the call wasn't reached."""
    found = refused(path, options, loaded, *call)
    return refused(path, options, loaded, *call) if found[0] == NOT_REACHED else found


def counted(path, options, loaded):
    """How often a run makes each call, with nothing refused."""
    with tempfile.TemporaryDirectory(prefix="service-faults-") as folder:
        counts = f"{folder}/counts"
        ended, _, replies = life(path, options, folder, {"LD_PRELOAD": loaded, "REFUSE_COUNTS": counts})
        if ended != "went on":
            sys.exit(f"with nothing refused it ended with {ended!r}")
        found = counts_in(counts)
    print(f"{replies} replies; calls: " + ", ".join(f"{name} {calls}" for name, calls in sorted(found.items())), flush=True)
    return found


def options_of(given):
    parser = argparse.ArgumentParser()
    parser.add_argument("--program", metavar="FILE")
    parser.add_argument("--lines", type=int, default=60)
    parser.add_argument("--seed", type=int, default=1)
    parser.add_argument("--every", type=int, default=1)
    parser.add_argument("--call", metavar="NAME")
    parser.add_argument("--jobs", type=int, default=len(os.sched_getaffinity(0)))
    return parser.parse_args(given)


def main(given=None):
    options = options_of(given)
    path, loaded, began = service.needed(options.program), library("refuse_calls") or sys.exit("it needs a C compiler"), time.monotonic()
    calls = {name: n for name, n in counted(path, options, loaded).items() if options.call in (None, name)}
    if not calls:
        print(f"the service makes no call of this name: {options.call}", file=sys.stderr)
        return 2
    todo = [(name, nth, it) for name in sorted(calls) for it in ERRORS.get(name, ["EIO"]) for nth in range(1, calls[name] + 1, options.every)]
    seen, memory, differ = collections.Counter(), 0, 0
    with ThreadPoolExecutor(options.jobs) as pool:
        for one, (ended, lines, differs) in zip(todo, pool.map(lambda it: reached(path, options, loaded, *it), todo)):
            seen[one[0], one[2] or "half", ended] += 1
            memory += lines
            if differs:
                differ += 1
                print(differs, flush=True)
    for (name, error, ended), count in sorted(seen.items()):
        print(f"  {name} {error}: {count} {ended}")
    missed = sum(count for (_, _, ended), count in seen.items() if ended == NOT_REACHED)
    runs, took = len(todo) - missed, time.monotonic() - began
    print(f"{runs} runs, {memory} lines answered memory, {missed} calls not reached, {took:.0f} s, {differ} differences")
    return 1 if differ or not runs else 0
