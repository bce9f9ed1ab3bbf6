"""Rebases, and the first starts behind them, that come to a stop: killed in front of each of their calls, on a disk that forgets, on one that is
full, or refused a call. Whatever they leave starts with the same tables, and is rebased then. Parts of `stress crash`."""
import errno
import os
import random
import shutil
import signal
import tempfile
import time

import bases
from stress.based import Based, loaded_round
from stress.disk_states import recorded, states_of
from stress.full_disks import SmallDisk
from stress.journal_walk import Differs
from stress.kept import library
from stress.service import Ended
from stress.service_faults import ERRORS, counts_in

KILLS, SHORT_KILLS = 200, 30
STATES, SHORT_STATES = 200, 20
SIZES, SHORT_SIZES = 20, 4
LEFT_OUT = {
    "memory", "read", "pread", "stat", "stat64", "fstat", "fstat64", "lseek", "lseek64", "socket", "bind", "listen", "setsockopt", "getsockname",
    "accept", "accept4", "recv", "recvfrom", "send", "sendto", "shutdown", "poll", "epoll_create1", "epoll_ctl", "epoll_wait",
}
"""Calls in front of which a stop leaves nothing else than in front of the next one: they change no file."""
NO_COMPILER = "left out: it needs a C compiler"


def rebasing(kept, env):
    """A rebase. Whether it was killed."""
    status, said = kept.rebased(env)
    if status not in (0, -signal.SIGKILL):
        raise Differs(f"it ended with status {status}: {said}")
    return status != 0


def starting(kept, env):
    """A start, which is killed once it listens. Whether it was killed before."""
    try:
        with kept.started(env=env) as running:
            running.kill()
    except Ended as ended:
        if ended.status != -signal.SIGKILL:
            raise
        return True
    return False


def calls_of(kept, folder, loaded, does):
    """The calls that a rebase or a start makes, each with its number."""
    counts = f"{folder}/counts"
    with tempfile.TemporaryDirectory(dir=folder) as home:
        does(kept.twin(home), {"LD_PRELOAD": loaded, "REFUSE_COUNTS": counts})
    found = counts_in(counts)
    os.remove(counts)
    return [(name, nth) for name, many in sorted(found.items()) if name not in LEFT_OUT for nth in range(1, many + 1)]


def refusal(loaded, call, **how):
    """The environment in which a call is refused, or a program killed in front of it."""
    return {"LD_PRELOAD": loaded, "REFUSE_CALL": call[0], "REFUSE_NTH": str(call[1]), **{f"REFUSE_{name}": str(it) for name, it in how.items()}}


def same_behind(kept, what):
    """What a stop has left starts with the same tables, is rebased, and starts with them again."""
    try:
        kept.goes_on()
        kept.rebases()
        kept.goes_on(is_asked_all=False)
    except (Differs, Ended) as why:
        raise Differs(f"{what}: {why}") from None
    shutil.rmtree(kept.folder)


def killed(kept, folder, loaded, does, call, behind=()):
    """A rebase or a start that is killed in front of a call, on a copy, and perhaps a start that is killed behind that. How many were killed."""
    twin, count = kept.twin(tempfile.mkdtemp(dir=folder)), 0
    for it, at in ((does, call), *behind):
        count += it(twin, refusal(loaded, at, KILL=1))
    same_behind(twin, f"killed in front of {', then '.join(f'call {nth} of {name} of {it.__name__}' for it, (name, nth) in ((does, call), *behind))}")
    return count


def rebase_killed(path, options, folder):
    """Kills in front of each call of rebases, of the first starts behind them, and of the first starts behind killed ones."""
    loaded, began, kills = library("refuse_calls"), time.monotonic(), {rebasing: 0, starting: 0}
    if not loaded:
        return NO_COMPILER
    pick, kept = random.Random(f"{options.seed}/killed"), Based(path, tempfile.mkdtemp(dir=folder), f"{options.seed}/killed")
    wanted = options.rounds or (SHORT_KILLS if options.short else KILLS)
    while sum(kills.values()) < wanted:
        loaded_round(kept, pick)
        calls = calls_of(kept, folder, loaded, rebasing)
        starts = calls_of(kept, folder, loaded, starting)
        for n, call in enumerate(calls):
            more = [(starting, pick.choice(starts))] if n % 3 == 2 else []
            count = killed(kept, folder, loaded, rebasing, call, more)
            kills[rebasing], kills[starting] = kills[rebasing] + (count > 0), kills[starting] + max(0, count - 1)
        kept.rebases()
        for call in calls_of(kept, folder, loaded, starting):
            kills[starting] += killed(kept, folder, loaded, starting, call)
        kept.goes_on()
    what = f"{kills[rebasing]} kills inside a rebase and {kills[starting]} inside the first start behind it"
    return f"{what} leave the same tables; {time.monotonic() - began:.0f} s"


def rebase_forgets(path, options, folder):
    """What a disk may have that forgets what isn't synced, behind a stop in front of each change of a rebase and of the first start behind it."""
    loaded, began, count = library("record_changes"), time.monotonic(), 0
    if not loaded:
        return NO_COMPILER
    pick, kept = random.Random(f"{options.seed}/forgets"), Based(path, tempfile.mkdtemp(dir=folder), f"{options.seed}/forgets")
    wanted = options.rounds or (SHORT_STATES if options.short else STATES)
    while count < wanted:
        loaded_round(kept, pick)
        for does in (rebasing, starting):
            twin = kept.twin(tempfile.mkdtemp(dir=folder))
            before, changes = twin.files(), recorded(twin, does, loaded)
            shutil.rmtree(twin.folder)
            for what, files in states_of(before, changes, pick):
                same_behind(kept.twin(tempfile.mkdtemp(dir=folder), files), f"a stop of {does.__name__} {what}")
                count += 1
            if does is rebasing:
                kept.rebases()
        kept.goes_on()
    return f"{count} disks that forgot what wasn't synced have the same tables; {time.monotonic() - began:.0f} s"


def refused_write(kept, status, said, what):
    """A rebase that can't write says so."""
    if status != 4 or said != f"fault: journal: {kept.journal}" and not said.startswith(f"fault: journal: {kept.journal}: "):
        raise Differs(f"{what}: status 4 and `fault: journal` were wanted, it ended with {status}: {said}")
    if os.path.exists(f"{bases.base_path(kept.journal)}.new"):
        raise Differs(f"{what}: the unfinished base is left, and has room that changes need")


def under_limits(kept, folder, options, pick):
    """Rebases whose files may have so many bytes, up to what they need. How many failed."""
    twin = kept.twin(tempfile.mkdtemp(dir=folder))
    twin.rebases()
    needed = max(len(data) for data in twin.files().values())
    sizes = {0, 1, needed - 1, needed, *(pick.randrange(needed) for _ in range(SHORT_SIZES if options.short else SIZES))}
    for size in sorted(sizes):
        twin = kept.twin(tempfile.mkdtemp(dir=folder))
        status, said = twin.rebased(largest_file=size)
        if size < needed:
            refused_write(twin, status, said, f"a file may have {size} bytes, and {needed} are needed")
        elif status:
            raise Differs(f"a file may have {size} bytes, and no more are needed: a rebase ended with status {status}: {said}")
        same_behind(twin, f"a file may have {size} bytes")
    return len(sizes) - 1


def on_small_disks(kept, folder):
    """Rebases on a file system with so many pages free, until one has room. How many had none, or why there were none."""
    for pages in range(64):
        home = tempfile.mkdtemp(dir=folder)
        try:
            disk = SmallDisk(home)
        except OSError as why:
            return f"no small disks ({why})"
        try:
            # (a rebase that cut off the room behind the text would have that)
            twin = kept.twin(home, {name: data.rstrip(b"\0") for name, data in kept.files().items()})
            disk.full()
            disk.takes(pages * disk.PAGE)
            status, said = twin.rebased()
            if status:
                refused_write(twin, status, said, f"{pages} pages are free")
            os.truncate(disk.others, 0)
            twin.goes_on()
            twin.rebases()
            twin.goes_on(is_asked_all=False)
        except (Differs, Ended) as why:
            raise Differs(f"{pages} pages are free: {why}") from None
        finally:
            disk.close()
        if not status:
            return f"{pages} small disks"
    raise Differs("no rebase fits into 64 pages")


def refused_calls(kept, folder, options, loaded):
    """Rebases of which one call is refused, once each. How many ended by it."""
    count = 0
    for n, call in enumerate(calls_of(kept, folder, loaded, rebasing)):
        for error in ERRORS.get(call[0], ["EIO"])[::1 if not options.short or n % 4 == 0 else 9]:
            twin = kept.twin(tempfile.mkdtemp(dir=folder))
            status, said = twin.rebased(refusal(loaded, call, ERROR=getattr(errno, error) if error else 0))
            what = f"call {call[1]} of {call[0]} was refused as {error or 'half of a write'}"
            if status not in (0, 3, 4) or status and not said.startswith(("schema: ", "journal: ", "fault: ")):
                raise Differs(f"{what}: it ended with {status}: {said}")
            count += status != 0
            same_behind(twin, what)
    return count


def rebase_full(path, options, folder):
    """A rebase has no room, or is refused a call."""
    began, pick, loaded = time.monotonic(), random.Random(f"{options.seed}/full"), library("refuse_calls")
    kept = Based(path, tempfile.mkdtemp(dir=folder), f"{options.seed}/full")
    for _ in range(2):
        loaded_round(kept, pick)
        kept.rebases()
    loaded_round(kept, pick)
    limits, disks = under_limits(kept, folder, options, pick), on_small_disks(kept, folder)
    calls = f"{refused_calls(kept, folder, options, loaded)} refused calls" if loaded else "no refused calls (they need a C compiler)"
    return f"{limits} limits of files, {disks} and {calls} ended a rebase, and left the same tables; {time.monotonic() - began:.0f} s"
