"""A service that is used for long: clients come and go, as in `crowd.py`, beside a few that stay and whose waits are measured. `soak.py` runs it."""
import contextlib
import multiprocessing
import statistics
import time

from stress.callers import Caller, Silent
from stress.kept import Kept
from stress.crowd import Crowd
from stress.journal_walk import Differs
from stress.service import WAIT, asked

STAYING = 3
SLICE = 0.1
"""Seconds, a part of which the load is at work."""
BEGUN = 600
"""Seconds behind which a long run has its memory."""
LINE = b'{"cmd":"rank","index":"id","id":0}\n'
COLUMNS = ("second", "connections", "lines", "MB", "median µs", "90 %", "99 %", "99.9 %", "most")


def stay(stream, pipe):
    """Asks a line, waits for its reply and notes how long that took, again and again; gives the waits where it is asked for them, and ends
    where that is None."""
    waits = []
    with stream:
        while True:
            began = time.perf_counter()
            asked(stream, LINE)
            waits.append(time.perf_counter() - began)
            if pipe.poll(0.005):
                if pipe.recv() is None:
                    return
                pipe.send(waits)
                waits = []


class Staying:
    """A client that stays, in a process of its own, so that nothing here makes it wait."""

    def __init__(self, running):
        self.pipe, other = multiprocessing.Pipe()
        self.process = multiprocessing.get_context("fork").Process(target=stay, args=(running.connect(), other), daemon=True)
        self.process.start()
        other.close()

    def taken(self):
        """The waits since they were last taken."""
        try:
            self.pipe.send(True)
            return self.pipe.recv()
        except (EOFError, OSError):
            raise Differs("a client that stays was not answered") from None

    def stop(self):
        with contextlib.suppress(OSError):
            self.pipe.send(None)
        self.process.join(5)
        self.process.kill()


class Changing(Crowd):
    """Clients that come and go without end; those that have gone are only counted."""

    def __init__(self, running, journal, seed, places):
        super().__init__(running, journal, seed, 1, 0)
        self.count, self.gone, self.lines = places, 0, 0

    def made(self, stream, said, speech):
        pick = self.pick
        if pick.random() < 0.5:
            return Silent(stream, said, speech, pick.choice(["shut", "close", "reset"]), time.monotonic() + pick.uniform(0, 2))
        return Caller(stream, said, speech, pick.randint(1, 200), pick.choice([1, 4, 30]), pick.choice(["shut", "close", "reset"]))

    def come(self):
        super().come()
        # (a mark has room for so many numbers; nobody walks along here)
        self.next = self.next % 60_000 + 1

    def go(self, caller):
        super().go(caller)
        self.gone += 1
        self.lines += len(caller.said.replies)
        self.all.clear()


def share(waits, part):
    return 1e6 * waits[min(len(waits) - 1, int(part * len(waits)))]


def row(values):
    return " ".join(f"{it:>11}" if isinstance(it, str) else f"{it:11,.2f}" if at == 3 else f"{it:11,.0f}" for at, it in enumerate(values))


def gone_on(load, seconds, part):
    """The load goes on for so long, a part of each tenth of a second; its status where the service ended by itself."""
    if part == 1:
        return load.go_on(seconds)
    end = time.monotonic() + seconds
    while time.monotonic() < end:
        ended = load.go_on(SLICE * part)
        if ended is not None:
            return ended
        time.sleep(SLICE * (1 - part))
    return None


def used_for(load, staying, seconds, every, part):
    """Looks on for so long, and prints a row for each interval; answers the rows."""
    began, rows = time.monotonic(), []
    print(row(COLUMNS), flush=True)
    while time.monotonic() - began < seconds:
        lines, gone = load.lines, load.gone
        ended = gone_on(load, min(every, seconds - (time.monotonic() - began)), part)
        load.look_on()
        if ended is not None:
            raise Differs(f"behind {time.monotonic() - began:.0f} s it ended by itself, with status {ended}")
        waits = sorted(it for one in staying for it in one.taken())
        shares = [share(waits, it) for it in (0.5, 0.9, 0.99, 0.999, 1)]
        found = [time.monotonic() - began, load.gone - gone, load.lines - lines, load.running.memory() / 1000, *shares]
        rows.append(found)
        print(row(found), flush=True)
    return rows


def grown(rows):
    """How the memory grew, in words. It moves with what clients leave unread, so a long run is judged by medians: that of its last ten minutes
    must not be over that of the ten behind its first ten by more than a twentieth."""
    early, late = (max(it[3] for it in half) for half in (rows[: len(rows) // 2 + 1], rows[len(rows) // 2:]))
    if late > 1.5 * early + 10:
        raise Differs(f"the server's memory rose from {early:.0f} to {late:.0f} MB")
    end = rows[-1][0]
    if end < 3 * BEGUN:
        return f"memory {early:.1f} MB in the first half, {late:.1f} MB in the second"
    begun = statistics.median(it[3] for it in rows if BEGUN <= it[0] < 2 * BEGUN)
    ended = statistics.median(it[3] for it in rows if it[0] > end - BEGUN)
    most = max(it[3] for it in rows)
    said = f"{begun:.2f} MB in the second ten minutes to {ended:.2f} MB in the last ten (medians; at most {most:.2f} MB)"
    if ended > 1.05 * begun:
        raise Differs(f"the server's memory rose from {said}")
    return f"memory from {said}"


def last(path, folder, seconds, seed, every=10.0, part=1.0):
    """Uses a service for so long; answers what it saw, in words, and the rows."""
    kept = Kept(path, folder, seed)
    with kept.started() as running:
        staying = [Staying(running) for _ in range(STAYING)]
        try:
            with Changing(running, kept.journal, seed, 64 - STAYING) as load:
                rows = used_for(load, staying, seconds, every, part)
        finally:
            for it in staying:
                it.stop()
        # (what the others held is undone as they go; the tables that are looked at then are those of the journal)
        before = tables(running)
        running.kill()
    with kept.started() as running:
        after = tables(running)
    if before != after:
        raise Differs(f"started again it has other tables: {before!r}, and then {after!r}")
    return (
        f"{load.gone} connections came and went in {seconds:.0f} s, {load.lines} lines; {grown(rows)}; started again it has the same tables",
        rows,
    )


def tables(running):
    """What the tables show, once nobody holds sessions."""
    end = time.monotonic() + WAIT
    with running.connect() as stream:
        while b'"error":"busy"' in asked(stream, b'{"cmd":"reserve","changes":0,"sessions":0}\n'):
            if time.monotonic() > end:
                raise Differs("sessions are still held, and their clients have gone")
            time.sleep(0.01)
        indexes = [("kept", "r"), ("kept", "o"), ("kept", "id"), ("side", "r")]
        lines = [f'{{"cmd":"range","table":"{table}","index":"{it}"}}\n' for table, it in indexes]
        lines += [f'{{"cmd":"list","table":"{it}","index":"q"}}\n' for it in ("kept", "side")]
        return asked(stream, "".join([*lines, '{"cmd":"revision"}\n']).encode())
