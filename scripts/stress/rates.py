"""Lines a second of a service, beside those of `mi_server` over standard input, and how long a journal's replay takes.

    stress rates [--part lines|replay] [--lines N] [--rounds N] [--short] [--program FILE] [--server FILE]

Without --part both run, one behind another.

    lines    16 connections send all their lines ahead, against `mi_server` that reads the same lines from a pipe; `gets` are look-ups by id,
             `changes` are modifies, replacements and relocations of 10,000 records. The service is to have at least 0.8 of the lines a
             second, and 0.4 of those of `changes` with a journal and --sync turn. Medians of rounds that take turns
    replay   a journal of a million changes is made so, and replayed at a start, which is to take at most twice as long

A second is one on the clock; beside it stands the server's processor time for a line, which another program on the machine moves less. With
--short there are few lines, and nothing is judged. Else the status is 1 where a share isn't reached."""
import argparse
import os
import random
import selectors
import statistics
import subprocess
import tempfile
import threading
import time

import program
from journal import end_of
from stress import service
from stress.service import Service, seconds_of

STREAMS = 16
RECORDS = 10_000
SHARE, SHARE_WITH_JOURNAL, REPLAY = 0.8, 0.4, 2.0
CHUNK = 1 << 18


def filling(records):
    vip = ["false", "true", "true"]
    rows = (f'"owner":"owner {n}","balance":{n * 7919 % 1000},"vip":{vip[n % 3]}' for n in range(records))
    return "".join(f'{{"cmd":"insert","row":{{{it}}}}}\n' for it in rows).encode()


def gets(pick, records):
    return f'{{"cmd":"get","id":{pick.randrange(records)}}}\n'


def changes(pick, records):
    id, chance = pick.randrange(records), pick.random()
    if chance < 0.6:
        return f'{{"cmd":"modify","id":{id},"add":{{"balance":{pick.randint(-9, 9)}}}}}\n'
    if chance < 0.8:
        return f'{{"cmd":"replace","id":{id},"row":{{"owner":"owner {id}","balance":{pick.randint(0, 999)},"vip":true}}}}\n'
    return f'{{"cmd":"relocate","index":"line","id":{id}}}\n'


KINDS = {"gets": gets, "changes": changes}


def made(kind, lines, records):
    """For each stream its bytes."""
    pick = random.Random(kind)
    return ["".join(KINDS[kind](pick, records) for _ in range(lines // STREAMS)).encode() for _ in range(STREAMS)]


class Stream:
    """Bytes that are sent as the system takes them, and replies that are counted."""

    def __init__(self, stream, bytes_):
        self.stream, self.left, self.lines = stream, memoryview(bytes_), bytes_.count(b"\n")
        stream.setblocking(False)

    def step(self, events, buffer):
        if events & selectors.EVENT_READ:
            got = self.stream.recv_into(buffer)
            if not got:
                raise EOFError("the service closed a connection")
            self.lines -= buffer.count(b"\n", 0, got)
        if events & selectors.EVENT_WRITE:
            try:
                self.left = self.left[self.stream.send(self.left[:CHUNK]):]
            except BlockingIOError:
                pass


def over_sockets(running, texts):
    """Seconds on the clock, and of the server, for these bytes over as many connections."""
    buffer, selector, open_ones = bytearray(CHUNK), selectors.DefaultSelector(), len(texts)
    for it in texts:
        one = Stream(running.connect(), it)
        selector.register(one.stream, selectors.EVENT_READ | selectors.EVENT_WRITE, one)
    began, used = time.monotonic(), running.seconds()
    while open_ones:
        for key, events in selector.select():
            one = key.data
            one.step(events, buffer)
            if not one.left and key.events & selectors.EVENT_WRITE:
                selector.modify(one.stream, selectors.EVENT_READ, one)
            if not one.lines:
                selector.unregister(one.stream)
                one.stream.close()
                open_ones -= 1
    selector.close()
    return time.monotonic() - began, running.seconds() - used


def service_once(path, first, texts, **how):
    with Service(path, **how) as running:
        with running.connect() as stream:
            threading.Thread(target=stream.sendall, args=(first,), daemon=True).start()
            service.asked(stream, b"", first.count(b"\n"))
        return over_sockets(running, texts)


def write_all(pipe, bytes_):
    left = memoryview(bytes_)
    while left:
        left = left[pipe.write(left[:CHUNK]):]


def replies_of(pipe, count):
    while count > 0:
        got = pipe.read(CHUNK)
        if not got:
            raise EOFError("the server ended")
        count -= got.count(b"\n")


def server_once(path, first, texts):
    """The same for a server over standard input."""
    whole = b"".join(texts)
    pipes = {"stdin": subprocess.PIPE, "stdout": subprocess.PIPE, "bufsize": 0}
    with subprocess.Popen([path], preexec_fn=program.end_with_parent, **pipes) as ran:
        try:
            for bytes_ in (first, whole):
                began, used = time.monotonic(), seconds_of(ran.pid)
                threading.Thread(target=write_all, args=(ran.stdin, bytes_), daemon=True).start()
                replies_of(ran.stdout, bytes_.count(b"\n"))
            return time.monotonic() - began, seconds_of(ran.pid) - used
        finally:
            ran.kill()


def lines_part(options, folder):
    """Prints a row for each way; answers whether all shares are reached."""
    records = 200 if options.short else RECORDS
    count = options.lines or (3_200 if options.short else 640_000)
    first, texts = filling(records), {kind: made(kind, count, records) for kind in KINDS}
    found, n = {}, 0
    for _ in range(options.rounds or (1 if options.short else 5)):
        for kind in KINDS:
            n += 1
            found.setdefault((kind, "mi_server"), []).append(server_once(options.server, first, texts[kind]))
            found.setdefault((kind, "service"), []).append(service_once(options.program, first, texts[kind]))
            for sync in ("never", "turn", "always") if kind == "changes" else ():
                ways = {"journal": f"{folder}/{n}-{sync}", "sync": sync}
                if sync == "always" and not options.always:
                    continue
                found.setdefault((kind, f"--sync {sync}"), []).append(service_once(options.program, first, texts[kind], **ways))
                os.unlink(ways["journal"])
    well, asked = True, count // STREAMS * STREAMS
    for (kind, way), times in found.items():
        clock, used = (statistics.median(it) for it in zip(*times))
        rate, base = asked / clock, asked / statistics.median(it[0] for it in found[kind, "mi_server"])
        least = {"service": SHARE, "--sync turn": SHARE_WITH_JOURNAL}.get(way)
        note = f", at least {least} wanted" if least and not options.short else ""
        spread = f"{asked / max(it[0] for it in times):,.0f} to {asked / min(it[0] for it in times):,.0f}"
        each = f"{rate:10,.0f} lines a second ({spread}), {1e6 * used / asked:6.2f} µs of processor a line"
        print(f"lines: {kind:8} {way:13} {each}, {rate / base:.2f}{note}", flush=True)
        well = well and (options.short or least is None or rate >= least * base)
    return well


def replay_part(options, folder):
    records = 200 if options.short else RECORDS
    count = options.lines or (3_200 if options.short else 1_000_000)
    journal, first = f"{folder}/replayed", filling(records)
    took, used = service_once(options.program, first, made("changes", count, records), journal=journal, sync="turn")
    with open(journal, "rb") as file:
        size, lines = end_of(file.fileno()), count // STREAMS * STREAMS + records
    began = time.monotonic()
    with Service(options.program, journal=journal, wait=600) as running:
        again, used_again = time.monotonic() - began, running.seconds()
        memory = running.memory()
    os.unlink(journal)
    asking = f"{lines:,} lines of {size / lines:.1f} bytes took {took:.2f} s over {STREAMS} connections ({used:.2f} s of processor)"
    start = f"{again:.2f} s at the start ({used_again:.2f} s of processor), {lines / again:,.0f} lines a second"
    print(f"replay: {asking} and {start}; {memory / 1000:.0f} MB", flush=True)
    return options.short or again <= REPLAY * took


PARTS = {"lines": lines_part, "replay": replay_part}


def main(given=None):
    parser = argparse.ArgumentParser(description=__doc__, formatter_class=argparse.RawDescriptionHelpFormatter)
    parser.add_argument("--part", choices=list(PARTS))
    parser.add_argument("--lines", type=int)
    parser.add_argument("--rounds", type=int)
    parser.add_argument("--short", action="store_true")
    parser.add_argument("--always", action="store_true", help="--sync always too, which is slow")
    parser.add_argument("--program", metavar="FILE")
    parser.add_argument("--server", metavar="FILE")
    options = parser.parse_args(given)
    options.program = service.needed(options.program)
    options.server = os.path.abspath(options.server or program.program())
    well = True
    os.makedirs(f"{program.TOP}/out", exist_ok=True)
    with tempfile.TemporaryDirectory(dir=f"{program.TOP}/out") as folder:
        for name in [options.part] if options.part else PARTS:
            well = PARTS[name](options, folder) and well
    return 0 if well else 1
