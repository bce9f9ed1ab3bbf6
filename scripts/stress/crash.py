"""Whether a service keeps what it has acknowledged, however it ends.

    stress crash [--part PART] [--rounds N] [--short] [--seed N] [--program FILE] [--server FILE]

PART is one of those below. Without --part all run, one behind another. Each lets clients come and go, with sessions held and lines sent
ahead, ends the service, and compares what was sent, answered and kept by `journal_walk.py`: each acknowledged line is in the journal, in
its order; what is there was sent, or is the undo of a holder that went away; each reply is the reference's; and the service that is
started again has the tables of `reference.py` that was asked the journal, with no session held.

    rounds   the service is killed at random moments, now and then while it starts; one journal goes through ten rounds
    power    the same on a disk that forgets, at the kill, what wasn't synced, and keeps a random front of it (needs a C compiler)
    synced   what `--sync` says is synced so often, and so is the folder of a new journal (needs a C compiler)
    torn     a short journal is cut at each byte, with room behind that, or zeros and later lines, or nothing; one that has not its whole header
             is begun anew
    deep     a client that holds 1,024 sessions goes away, or is there when the service is killed
    full     the journal's disk is full, has room for a little, and is full again, while the service is loaded and killed: it goes on, and refuses
             nothing but changes, as `journal`; no line that is refused so is kept. Where the file may be written no more, or where a write or sync
             fails (needs a C compiler), it ends: status 4, `fault: journal` and the file
    damaged  a line is damaged, or the journal is another schema's or in use: status 3 and the line, and the file stays as it is
    moved    the journal is moved away in front of each call of the system that a start makes: none of its lines is lost (needs a C compiler)
    rebase   the journal is rebased behind each of 50 rounds: the base has the reference's tables, and all look-ups are answered as by it
    rebase-ledger   the same of a ledger with twenty sessions open all the time: the base stands in front of the oldest
    rebase-killed   200 kills: in front of each call of a rebase, of the first start behind it, and of the start behind a killed one
    rebase-forgets  what a disk may have that forgets what wasn't synced, names too, behind a stop at each change that these two make
    rebase-full     a rebase under limits of files, on disks of few pages, and with each of its calls refused
             What these three leave starts with the same tables, is rebased, and starts with them again (two of them need a C compiler)
    segments   rounds with kills of a service that begins a segment every 4,096 bytes: each closed one is whole, and the next has its sum
    segments-killed, -refused, -forgets   a life that goes through several is killed in front of each of its calls, has one refused, or is stopped at each
             change on a disk that forgets (these need a C compiler)
    beside   the same while rebases go on beside it, some of which are killed: the closed segments go, and no line of the others changes
    beside-killed, -starts   a rebase beside a service is killed in front of each of its calls; one goes on in front of each call of a start (these need
             a C compiler)
    bases    a base that is torn at each byte, or breaks a rule; segments that are missing, twice, damaged or another journal's: status 3 and the
             word for that of a start and of a rebase, and all files stay as they are
    tools    `mi_server` (--server) that is asked a journal as its input has the same tables; so has the service behind `journal.py compact`

--short takes some seconds: fewer rounds, and some of the bytes. Where something differs, the status is 1, and the journal is left below
out/crash."""
import os
import random
import shutil
import signal
import socket
import struct
import subprocess
import sys
import tempfile
import time

from stress import base_damage, based, beside_stops, ledgers, parts, rebase_stops, segment_stops
import program
from stress import service
from stress.callers import TABLES, Load
from stress.full_disks import Filling, on_each, takes_looking
from stress.fuzz import ACCOUNTS
from stress.journal_walk import NO_ROOM, Differs, FullWalk, Said, fork
from stress.kept import Kept, forgetting, library, line, looks
from reference import MOST_SESSIONS, Reference
from stress.service import Ended
from stress.service_faults import counts_in

ROUNDS, SHORT_ROUNDS, POWER_ROUNDS = 100, 6, 30
SYNCS = ["turn", "turn", "always", "turn", "never"]
"""Of the rounds, in which a kill forgets nothing that was written."""
A_JOURNAL = 10
"""Rounds that a journal goes through."""
FULL_ROUNDS, SHORT_FULL_ROUNDS = 40, 5
LOAD, REPLIES = 0.3, 300
"""Seconds of load and replies before a kill, each at most: a round ends at a random one of the first, and of the second."""


def kept_through(path, rounds, seed, folder, start, early=True):
    """Rounds over journals of ten each; answers what they saw."""
    pick, began, torn, sent, answered, kept = random.Random(seed), time.monotonic(), 0, 0, 0, None
    lines = 0
    for n in range(rounds):
        if n % A_JOURNAL == 0:
            home = tempfile.mkdtemp(dir=folder)
            kept = Kept(path, home, f"{seed}/{n}")
        more = start(n)
        if early and n % 5 == 4:
            kept.die_early(pick.uniform(0, 0.03), **more)
        before = kept.sent, kept.answered, len(kept.known)
        how = pick.choice([signal.SIGKILL] * 4 + [signal.SIGTERM])
        ended, said = kept.round(pick.uniform(0, LOAD), pick.randint(0, REPLIES), how, **more)
        if ended is not None:
            raise Differs(f"in round {n} the service ended by itself, with status {ended}: {said}")
        sent, answered, lines = sent + kept.sent - before[0], answered + kept.answered - before[1], lines + len(kept.known) - before[2]
        torn += kept.torn > 0
        if n % A_JOURNAL == A_JOURNAL - 1 or n == rounds - 1:
            with kept.started(**more) as running:
                kept.follow([kept.look(running)])
            shutil.rmtree(home)
    took = time.monotonic() - began
    what = f"{rounds} rounds, {sent} lines sent, {answered} acknowledged, {lines} bytes kept, {torn} torn ends"
    return f"{what}; none was lost, none was added; {took:.0f} s"


def rounds(path, options, folder):
    count = options.rounds or (SHORT_ROUNDS if options.short else ROUNDS)
    return kept_through(path, count, options.seed, folder, lambda n: {"sync": SYNCS[n % 5]})


def power(path, options, folder):
    if not library():
        return "left out: it needs a C compiler"
    count = options.rounds or (SHORT_ROUNDS if options.short else POWER_ROUNDS)

    def start(n):
        # (the journal's folder is the last one that was made)
        home = max((it.path for it in os.scandir(folder)), key=os.path.getctime)
        return {"sync": "always" if n % 4 == 3 else "turn", "env": forgetting(home, n + 1, DELAY=500)}

    return kept_through(path, count, f"{options.seed}/power", folder, start, early=False)


def syncs_of(path, folder, loaded, sync, count):
    """How often a service has synced files and folders once it has answered so many changes, which came at once, of a new journal."""
    home = tempfile.mkdtemp(dir=folder)
    kept, counts = Kept(path, home, "synced"), f"{home}/counts"
    with kept.started(sync=sync, env={"LD_PRELOAD": loaded, "REFUSE_COUNTS": counts}) as running, running.connect() as stream:
        replies = service.asked(stream, line('{"cmd":"start"}') * count)
        running.kill()
    found = counts_in(counts)
    if replies.count(b'{"ok":true,') != count:
        raise Differs(f"{count} starts were answered {replies!r}")
    return found.get("fdatasync", 0), found.get("fsync", 0)


def synced(path, options, folder):
    loaded, began = library("refuse_calls"), time.monotonic()
    if not loaded:
        return "left out: it needs a C compiler"
    found = {}
    for sync, least, most in (("always", 20, 22), ("turn", 1, 3), ("never", 0, 0)):
        (before, folders), (behind, _) = (syncs_of(path, folder, loaded, sync, count) for count in (0, 20))
        found[sync] = behind - before
        if not least <= behind - before <= most:
            raise Differs(f"--sync {sync}: 20 changes that came at once were synced {behind - before} times")
        if folders != (sync != "never") or before and sync == "never":
            raise Differs(f"--sync {sync}: a start with a new journal syncs {folders} folders, and {before} times a file")
    return f"20 changes that came at once: {', '.join(f'{n} syncs with {it}' for it, n in found.items())}; {time.monotonic() - began:.0f} s"


def short_journal(path, folder):
    """The bytes of a short journal whose holder was there at the end, without room."""
    kept = Kept(path, folder, "torn")
    with kept.started() as running, running.connect() as stream:
        rows = ['{"k":1,"s":"a","f":true}', '{"k":1,"s":"\u00e4\\n","f":false}', '{"k":0,"s":"c","f":true}']
        said = [f'{{"cmd":"insert","row":{it}}}' for it in rows] + ['{"cmd":"start"}', '{"cmd":"erase","id":0}', '{"cmd":"start"}']
        said += ['{"cmd":"insert","table":"side","row":{"n":4}}', '{"cmd":"relocate","index":"q","id":2,"before":1}']
        service.asked(stream, b"".join(map(line, said)))
        running.kill()
    with open(kept.journal, "rb") as file:
        return file.read().rpartition(b"\n")[0] + b"\n"


def known_after(whole):
    """The reference after a journal's whole lines, asked by one connection that then goes."""
    reference = Reference(TABLES)
    for text in whole.split(b"\n")[1:-1]:
        reference.answer_ended(1, text)
    return reference


def torn(path, options, folder):
    began = time.monotonic()
    bytes_ = short_journal(path, folder)
    header = bytes_.index(b"\n") + 1
    lengths = range(0, len(bytes_) + 1, 17 if options.short else 1)
    for n, length in enumerate(sorted({*lengths, header - 1, header, len(bytes_)})):
        kept, room = Kept(path, folder, "torn"), [b"", bytes(9), bytes(150_000), b'\0\0md":"push"}\n{"cmd":"start"}\n\0'][n % 4]
        with open(kept.journal, "wb") as file:
            file.write(bytes_[:length] + (room if length >= header else b""))
        end = bytes_.rfind(b"\n", 0, length) + 1
        reference = known_after(bytes_[:end])
        held = reference.held
        reference.close(1)
        try:
            with kept.started() as running, running.connect() as stream:
                lines = [it for it in looks(1) if b'"range"' in it or b'"list"' in it]
                add = line('{"cmd":"insert","row":{"k":7,"s":"new","f":true}}', 1)
                got = service.asked(stream, b"".join(lines) + add)
                running.kill()
        except Ended as ended:
            raise Differs(f"cut at byte {length}: {ended}") from None
        with open(kept.journal, "rb") as file:
            found = file.read()
        want, found = reference.feed(1, b"".join(lines) + add), found[:found.rfind(b"\n") + 1]
        if got != want:
            raise Differs(f"cut at byte {length}: wanted {want!r}, got {got!r}")
        kept_now = (bytes_[:end] or bytes_[:header]) + b'{"cmd":"undo"}\n' * held + add
        if found != kept_now:
            raise Differs(f"cut at byte {length}: the journal is to be {kept_now!r}, and is {found!r}")
    return f"a journal of {len(bytes_)} bytes, cut at {'some' if options.short else 'each'} of them; {time.monotonic() - began:.0f} s"


def tells(said, word, file):
    """Whether a line says this, and of which file, and perhaps what the system said."""
    return said == f"{word}: {file}" or said.startswith(f"{word}: {file}: ")


def full_once(kept, wanted, **how):
    """A life that ends because the journal can't be written; then what was acknowledged is there."""
    try:
        ended, said = kept.round(120, **how)
    except Ended as error:
        ended, said = error.status, error.said
    if ended != 4 or not tells(said, "fault: journal", kept.journal):
        raise Differs(f"{wanted}: status 4 and `fault: journal` were wanted, it ended with {ended}: {said}")
    with kept.started() as running:
        kept.look(running)
    return kept.answered


def full_at_once(kept, size):
    """There is no room for the header of a new journal."""
    try:
        with kept.started(largest_file=size):
            pass
        raise Differs(f"it listens, and its journal has room for {size} bytes")
    except Ended as ended:
        # (of its line too no more than that has room)
        if ended.status != 4 or not f"fault: journal: {kept.journal}".startswith(ended.said[:size]):
            raise Differs(f"room for {size} bytes: `fault: journal` was wanted, it ended with {ended.status}: {ended.said}") from None
    with kept.started() as running:
        kept.look(running)


def comes_and_goes(path, options, home, disk):
    """Rounds on a disk that is full and has room by turns. How many lines were refused, and how many weren't."""
    pick, refused, done = random.Random(f"{options.seed}/full"), 0, 0
    kept = Kept(path, home, f"{options.seed}/full", walk=FullWalk)
    with kept.started() as running:
        running.kill()
    disk.full()
    for n in range(options.rounds or (SHORT_FULL_ROUNDS if options.short else FULL_ROUNDS)):
        takes_looking(disk, kept.journal)
        said = []

        def load(*how):
            said.append(Filling(disk, *how))
            return said[0]

        ended, why = kept.round(pick.uniform(0.2, 2 * LOAD), pick.randint(REPLIES, 2 * REPLIES), load=load, largest_file=disk.size)
        if ended is not None:
            raise Differs(f"on a disk that is full at times, in round {n}, the service ended with status {ended}: {why}")
        replies = [it for one in said[0].all for it in one.replies]
        refused, done = refused + replies.count(NO_ROOM), done + len(replies) - replies.count(NO_ROOM)
        disk.full()
        with kept.started(largest_file=disk.size) as running:
            kept.follow([kept.look(running, changes=False)])
            running.kill()
    takes_looking(disk, kept.journal)
    with kept.started() as running:
        kept.follow([kept.look(running)])
    return refused, done


def on_full_disks(path, options, folder):
    """The same on each kind of disk. What they saw."""
    return on_each(folder, lambda home, disk: comes_and_goes(path, options, home, disk))


class Lessening(Load):
    """Callers of a service whose file may suddenly be written no more."""

    def step(self):
        if self.replies > 60:
            service.limit_files(self.running.process.pid, 500)
        super().step()


def full(path, options, folder):
    began, pick, acknowledged, count = time.monotonic(), random.Random(options.seed), 0, 0
    for size in (20, 50):
        full_at_once(Kept(path, tempfile.mkdtemp(dir=folder), "full"), size)
    came = on_full_disks(path, options, folder)
    for n in range(1 if options.short else 6):
        kept = Kept(path, tempfile.mkdtemp(dir=folder), f"{options.seed}/less/{n}", walk=FullWalk)
        acknowledged += full_once(kept, "a file that may be written no more", load=Lessening, largest_file=service.NO_LIMIT)
        count += 1
    for n in range(2 if options.short else 12) if library() else []:
        kept = Kept(path, tempfile.mkdtemp(dir=folder), f"{options.seed}/sync/{n}")
        which = {"SYNC": pick.randint(5, 60)} if n % 2 else {"WRITE": pick.randint(30, 120)}
        acknowledged += full_once(kept, f"failing {which}", env=forgetting(kept.folder, n + 1, **which))
        count += 1
    took = time.monotonic() - began
    failed = "" if library() else " (those of a disk alone are left out: they need a C compiler)"
    return f"{came}; {count} writes or syncs that failed{failed}: status 4 each, {acknowledged} acknowledged lines are there; {took:.0f} s"


def refused(kept, bytes_, wanted, is_there=False):
    """A start with a journal of these bytes, if any, is refused with status 3, and the file stays."""
    if bytes_ is not None and not is_there:
        with open(kept.journal, "wb") as file:
            file.write(bytes_)
    try:
        with kept.started():
            pass
        raise Differs(f"{wanted!r} was wanted, and it listens with the journal {bytes_[:2000]!r}")
    except Ended as ended:
        if ended.status != 3 or not tells(ended.said, wanted, kept.journal):
            raise Differs(f"status 3 and {wanted!r} were wanted, it ended with {ended.status}: {ended.said}") from None
    if bytes_ is None:
        return
    with open(kept.journal, "rb") as file:
        if file.read() != bytes_:
            raise Differs(f"{wanted}: the journal that was refused has changed")


def damaged(path, options, folder):
    began = time.monotonic()
    bytes_ = short_journal(path, folder)
    header, *lines = bytes_.split(b"\n")[:-1]
    kept, count = Kept(path, folder, "damaged"), 0
    bad = [b"{", b"", b'{"cmd":"fly"}', b'{"cmd":"size"}', b'{"cmd":"erase","id":99}', header]
    for n in range(len(lines) + 1):
        for text in bad[n % 3::3] if options.short else bad:
            whole = b"\n".join([header, *lines[:n], text, *lines[n:], b""])
            refused(kept, whole, f"journal: line {n + 2}")
            count += 1
    for text in (b"", b"{", b'{"cmd":"start"}', b'{"Journal":1}'):
        refused(kept, b"\n".join([text, *lines, b""]), "journal: line 1")
    kept.schema = service.written_schema(folder, [ACCOUNTS], name="other.toml")
    refused(kept, bytes_, OTHER)
    kept.schema = service.written_schema(folder, TABLES)
    refused(kept, bytes_.replace(b'{"journal":1,', b'{"journal":2,'), OTHER)
    with open(kept.journal, "wb") as file:
        file.write(bytes_)
    with kept.started():
        with open(kept.journal, "rb") as file:
            refused(kept, file.read(), "journal: locked", is_there=True)
    kept.journal = f"{folder}/none/journal"
    refused(kept, None, "journal: file")
    more = "a journal of another schema, one of another format, one in use and one that can't be made"
    return f"{count} damaged lines, 4 damaged headers, {more} are refused; {time.monotonic() - began:.0f} s"


def started_once(kept, env):
    """Whether a start listens; it is killed then. Else it has ended with status 3."""
    try:
        with kept.started(env=env) as running:
            running.kill()
        return True
    except Ended as ended:
        if ended.status != 3:
            raise Differs(f"a journal that was moved: status 3 was wanted, it ended with {ended.status}: {ended.said}") from None
        return False


def moved_once(path, home, bytes_, loaded, name, nth):
    """A start that finds its journal moved away in front of a call. Its whole lines stay, wherever they are; whether it served."""
    kept, away = Kept(path, home, "moved"), f"{home}/away"
    with open(kept.journal, "wb") as file:
        file.write(bytes_)
    env = {"LD_PRELOAD": loaded, "REFUSE_CALL": name, "REFUSE_NTH": str(nth), "REFUSE_FROM": kept.journal, "REFUSE_TO": away}
    served = started_once(kept, env)
    with open(away if os.path.exists(away) else kept.journal, "rb") as file:
        found = file.read()
    if not found.startswith(bytes_[:bytes_.rfind(b"\n") + 1]):
        raise Differs(f"moved in front of call {nth} of {name}: the journal had {len(bytes_)} bytes, and has {len(found)}")
    if not served and found != bytes_:
        raise Differs(f"moved in front of call {nth} of {name}: the start is refused, and the journal has changed")
    return served


def moved(path, options, folder):
    loaded, began = library("refuse_calls"), time.monotonic()
    if not loaded:
        return "left out: it needs a C compiler"
    bytes_ = short_journal(path, folder) + b'{"cmd":"sta'
    kept = Kept(path, tempfile.mkdtemp(dir=folder), "moved")
    with open(kept.journal, "wb") as file:
        file.write(bytes_)
    counts = f"{folder}/counts"
    started_once(kept, {"LD_PRELOAD": loaded, "REFUSE_COUNTS": counts})
    calls = [(name, nth) for name, many in sorted(counts_in(counts).items()) if name != "memory" for nth in range(1, many + 1)]
    served = sum(moved_once(path, tempfile.mkdtemp(dir=folder), bytes_, loaded, *call) for call in calls)
    took = time.monotonic() - began
    return f"moved away in front of each of {len(calls)} calls of a start: {served} served, the others were refused, no line is lost; {took:.0f} s"


def replayed_by(server, kept, path):
    """What a `mi_server` answers to the lines for looking, behind a journal's lines as its standard input."""
    lines = looks(1)
    with open(path, "rb") as file:
        whole = file.read().rpartition(b"\n")[0] + b"\n"
    ran = subprocess.run([server, "--schema", kept.schema], input=whole + b"".join(lines), capture_output=True, timeout=300)
    if ran.returncode or ran.stderr:
        raise Differs(f"mi_server ended with {ran.returncode}: {ran.stderr!r}")
    return b"".join(ran.stdout.splitlines(keepends=True)[-len(lines):])


def tool(*words):
    """What `journal.py` says."""
    ran = subprocess.run([sys.executable, f"{program.TOP}/scripts/journal.py", *words], capture_output=True, text=True, timeout=300)
    if ran.returncode:
        raise Differs(f"journal.py {words[0]} ended with {ran.returncode}: {ran.stdout}{ran.stderr}")
    return ran.stdout


def tools(path, options, folder):
    """A journal of some rounds is one for `mi_server` and for `journal.py`."""
    began, server, kept = time.monotonic(), options.server or program.program(), Kept(path, folder, f"{options.seed}/tools")
    for _ in range(2 if options.short else 10):
        kept.round(0.3, 300)
    with kept.started() as running:
        kept.follow([kept.look(running)])
    want = fork(kept.walk.reference).feed(1, b"".join(looks(1)))
    tool("check", kept.journal, "--replay", server, "--schema", kept.schema)
    shorter = f"{folder}/shorter"
    tool("compact", kept.journal, "--to", shorter)
    for it in (kept.journal, shorter):
        got = replayed_by(server, kept, it)
        if got != want:
            raise Differs(f"mi_server that was asked {os.path.basename(it)} shows other tables: wanted {want!r}, got {got!r}")
    sizes = len(kept.known), os.path.getsize(shorter)
    shutil.move(shorter, kept.journal)
    with kept.started() as running, running.connect() as stream:
        got = service.asked(stream, b"".join(looks(1)))
    if got != want:
        raise Differs(f"the service shows other tables behind a compacted journal: wanted {want!r}, got {got!r}")
    what = f"a journal of {sizes[0]} bytes, compacted {sizes[1]}"
    return f"mi_server, and the service with the compacted journal, show the tables of {what}; {time.monotonic() - began:.0f} s"


def gone(stream, how):
    """A client's connection ends."""
    if how == "reset":
        stream.setsockopt(socket.SOL_SOCKET, socket.SO_LINGER, struct.pack("ii", 1, 0))
    stream.shutdown(socket.SHUT_WR) if how == "shut" else stream.close()


def deep(path, options, folder):
    """As many sessions as can be are held by a client that goes away, or by one that is there when the service is killed."""
    began, count = time.monotonic(), 0
    starts = 40 if options.short else MOST_SESSIONS
    for how in ("shut", "close", "reset", "killed"):
        kept = Kept(path, tempfile.mkdtemp(dir=folder), f"deep/{how}")
        with kept.started() as running:
            holder = Said(kept.next)
            kept.next += 1
            lines = ['{"cmd":"insert","table":"side","row":{"n":1}}'] + ['{"cmd":"start"}'] * starts + ['{"cmd":"erase","table":"side","id":0}']
            holder.lines = [line(it, holder.number, n)[:-1] for n, it in enumerate(lines)]
            stream = running.connect()
            got = service.asked(stream, b"\n".join(holder.lines) + b"\n")
            holder.replies, holder.has_left = got.splitlines(keepends=True), True
            running.kill() if how == "killed" else gone(stream, how)
            if how != "killed":
                looked = kept_free(kept, running, holder)
                running.kill()
            stream.close()
        with kept.started() as running:
            kept.follow([holder] if how == "killed" else [looked])
            kept.look(running)
        if kept.walk.reference.tables[1].rows != {0: [1]}:
            raise Differs(f"{how}: what was held wasn't undone: {kept.walk.reference.tables[1].rows}")
        count += 1
    return f"{count} holders of {starts} sessions are gone, and what they held is undone; {time.monotonic() - began:.0f} s"


def kept_free(kept, running, holder):
    """Once nobody holds sessions, the tables are those of the journal."""
    end = time.monotonic() + service.WAIT
    with running.connect() as stream:
        while b"busy" in service.asked(stream, b'{"cmd":"undo"}\n'):
            if time.monotonic() > end:
                raise Differs("what a client held that has gone is still held")
    kept.walk.on(kept.whole(), [holder])
    return kept.look(running)


OTHER = "journal: schema"
"""What is said of a journal of another schema or format."""
PARTS = {"rounds": rounds, "power": power, "synced": synced, "torn": torn, "deep": deep, "full": full, "damaged": damaged, "moved": moved,
         "rebase": based.rebase, "rebase-ledger": ledgers.rebase_ledger, "rebase-killed": rebase_stops.rebase_killed, "rebase-forgets": rebase_stops.rebase_forgets,
         "rebase-full": rebase_stops.rebase_full, "segments": segment_stops.segments, "segments-killed": segment_stops.segments_killed,
         "segments-refused": segment_stops.segments_refused, "segments-forgets": segment_stops.segments_forget, "beside": beside_stops.beside, "beside-killed": beside_stops.beside_killed, "beside-starts": beside_stops.beside_starts, "bases": base_damage.damaged, "tools": tools}


def main(given=None):
    parser = parts.parser_of(__doc__, PARTS)
    parser.add_argument("--rounds", type=int)
    parser.add_argument("--server", metavar="FILE")
    return parts.run("crash", PARTS, parser.parse_args(given), (Differs, Ended))
