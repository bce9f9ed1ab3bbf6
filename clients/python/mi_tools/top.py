"""The tools top, metrics and status: what a running server holds and does, from its replies and from the system. `mi_server`
tells no count of lines, so the bytes that it reads and writes stand for them, without those of the tool itself over a connection."""
from __future__ import annotations

import argparse
import datetime
import json
import sys
import time
from typing import Any, Callable, Dict, List, NamedTuple, Optional, Tuple

from mi_client import Database, Ended, Refused
from mi_client.listening import path_of
from mi_client.service_lines import status as status_told
from mi_tools import process
from mi_tools.journal_files import Files, files_beside
from mi_tools.opening import add_server, add_source, opened, source_words, status_of, why
from mi_tools.process import Usage
from mi_tools.rowfiles import writing
from mi_tools.show import table
from mi_tools.sockets import UNTOLD, Traffic

Moved = Callable[[], Tuple[Optional[int], Optional[int]]]
"""Bytes that a server has read and written, where the system tells."""
ONCE = "# Bytes of connections are counted while this runs, so --every SECONDS has them."
PAUSE = 0.0005
"""Seconds between two questions while nothing is shown. The server waits for each connection in turn, so one that only looks
on has to go on asking, or it would hold the others up."""


FULL = "; the disk is full: changes are refused"
"""What is said of a journal that lacks room."""


class Sample(NamedTuple):
    when: float
    sizes: List[Tuple[str, int]]
    revision: int
    depth: int
    holder: str
    """Who holds sessions: `nobody`, `this connection` or `another connection`."""
    turns: int
    """How many questions this connection has asked: the server reads from all connections once in between."""
    usage: Usage
    connections: Optional[int] = None
    """How many connections a service has, where it tells."""
    unsent: Optional[int] = None
    """How many bytes of replies they haven't taken."""
    journal: Optional[int] = None
    """How many bytes a service's journal has, where it keeps one."""
    is_full: Optional[bool] = None
    """Whether that lacks room, so that changes are refused."""
    lines: Optional[Dict[int, int]] = None
    """How many lines each of a service's connections has asked, by its number, where it tells."""
    uptime: Optional[int] = None
    """Since how many seconds a service is there."""
    room: Optional[int] = None
    """How many bytes are free on the journal's disk, where the system tells."""
    held_for: Optional[int] = None
    """How many lines who holds sessions has asked behind the one with which that began, where a service tells."""
    synced: Optional[int] = None
    """How many bytes of a service's journal stay since its last sync, where it is synced and tells."""
    memories: Optional[Dict[str, int]] = None
    """How many bytes of memory each table takes, by its name, where a service tells."""
    files: Optional[Files] = None
    """How the files of a service's journal stand, where they can be seen."""
    ahead: Optional[int] = None
    """How many bytes more lines may take before the journal's file grows, where a service tells."""
    segment: Optional[int] = None
    """The number of the journal's newest segment, where a service tells."""


class Watcher:
    """Looks at a server over a connection of its own."""

    def __init__(self, db: Database, number: Optional[int], moved: Optional[Moved] = None) -> None:
        """`number` is the server's process, which tells bytes of pipes alone; `moved` tells those of connections."""
        self.db, self.number, self.moved = db, number, moved
        self.turns = 0
        self.has_status = True
        """Whether the server may be a service, which tells its status."""

    def sample(self) -> Sample:
        asked = int(self.has_status)
        told = status_told(self.db) if self.has_status else None
        self.has_status = told is not None
        sizes = self.sizes() if told is None else [(it["name"], it["size"]) for it in told["tables"]]
        now = self.db.revision()
        self.turns += asked + (len(sizes) + 2 if told is None else 1)
        usage = process.usage(self.number)
        if self.moved:
            read, written = self.moved()
            usage = usage._replace(read=read, written=written)
        if told is None:
            return Sample(time.monotonic(), sizes, now.revision, now.depth, self.holder(now.held), self.turns, usage)
        holder = "this connection" if now.held else "nobody" if told["holder"] is None else "another connection"
        connections = told["connections"]
        unsent = sum(it["unsent"] for it in connections)
        journal = told.get("journal") or {}
        locked = process.locked_file(self.number) if journal else None
        return Sample(time.monotonic(), sizes, now.revision, now.depth, holder, self.turns, usage, len(connections), unsent,
                      journal.get("bytes"), journal.get("full"), lines_of(told), told.get("uptime"), process.room_beside(locked),
                      held_for(told), journal.get("synced"), memories_of(told), files_beside(locked), journal.get("room"), journal.get("segment"))

    def sizes(self) -> List[Tuple[str, int]]:
        names = [it.name for it in self.db.schema.tables] if self.db.schema else ["(first)"]
        return [(it, self.db.size(it if self.db.schema else None)) for it in names]

    def holder(self, held: int) -> str:
        """Asked by a `reserve` of nothing, which changes nothing and is refused as busy where another connection holds sessions."""
        try:
            self.db.reserve(0, 0)
        except Refused as refusal:
            if refusal.word == "busy":
                return "another connection"
        return "this connection" if held else "nobody"

    def wait(self, seconds: float) -> None:
        """Lets time go by without holding up the other connections."""
        end = time.monotonic() + seconds
        while time.monotonic() < end:
            self.db.revision()
            self.turns += 1
            time.sleep(PAUSE)


def amount(number: Optional[float], unit: str = "B") -> str:
    """A number as people read it: 331 B, 12.5 MB."""
    if number is None:
        return "not told"
    for name in ("", "k", "M", "G"):
        if abs(number) < 1000 or name == "G":
            return f"{number:.0f} {name}{unit}" if not name else f"{number:.1f} {name}{unit}"
        number /= 1000
    return ""


def rate(now: Optional[float], before: Optional[float], seconds: float) -> Optional[float]:
    return None if now is None or before is None or seconds <= 0 else (now - before) / seconds


def lines_of(told: Dict[str, Any]) -> Optional[Dict[int, int]]:
    """How many lines each connection has asked, by its number. A former service doesn't tell."""
    found = {it["number"]: it.get("lines") for it in told["connections"]}
    return None if None in found.values() else found


def held_for(told: Dict[str, Any]) -> Optional[int]:
    """How many lines who holds sessions has asked behind the one with which that began. A former service doesn't tell."""
    return next((it["lines"] - it["since"] for it in told["connections"] if it.get("since") is not None), None)


def memories_of(told: Dict[str, Any]) -> Dict[str, int]:
    """How many bytes of memory each table takes, by its name. A former service doesn't tell."""
    return {it["name"]: it["memory"] for it in told["tables"] if it.get("memory") is not None}


def table_columns(memories: Optional[Dict[str, int]], *names: str) -> List[str]:
    """The columns of what is shown of tables: their memory too, where it is told."""
    return ["table", *names, *(["memory"] if memories else [])]


def asking(now: Sample, before: Sample) -> List[str]:
    """What top shows of the lines that a service's connections ask, without those that were asked by one that has gone."""
    if now.lines is None or before.lines is None:
        return []
    more = {number: count - before.lines.get(number, 0) for number, count in now.lines.items()}
    most = max(more, key=lambda it: more[it])
    took = now.when - before.when
    return [f"lines     {amount(rate(sum(more.values()), 0, took), '')}/s, most by connection {most}: {amount(rate(more[most], 0, took), '')}/s"]


def up(seconds: int) -> str:
    """How long a service or a file is there: 2 days, 3:04:05."""
    return str(datetime.timedelta(seconds=seconds))


def screen(now: Sample, before: Sample) -> str:
    """What top shows."""
    took = now.when - before.when
    busy = rate(now.usage.seconds, before.usage.seconds, took)
    memories = now.memories or {}
    rows = [
        {"table": name, "rows": size, "rows/s": round(rate(size, was, took) or 0), "memory": amount(memories.get(name))}
        for (name, size), (_, was) in zip(now.sizes, before.sizes)
    ]
    per_row = now.usage.memory / total if now.usage.memory and (total := sum(size for _, size in now.sizes)) else None
    read, written = (rate(getattr(now.usage, it), getattr(before.usage, it), took) for it in ("read", "written"))
    moved = UNTOLD if read is None else f"{amount(read)}/s   written {amount(written)}/s"
    return "\n".join([
        f"memory    {amount(now.usage.memory)}" + (f" ({amount(per_row)} a row)" if per_row else ""),
        f"read      {moved}   processor {'not told' if busy is None else f'{busy:.0%}'}",
        f"turns     {amount(rate(now.turns, before.turns, took), '')}/s",
        f"sessions  {now.depth} open, revision {now.revision}; held by {now.holder}" + ("" if now.held_for is None else f", for {now.held_for} lines"),
        *([] if now.connections is None else [f"clients   {now.connections} connections, {amount(now.unsent)} unsent"]),
        *asking(now, before),
        *([] if now.journal is None else [f"journal   {journal_shown(now.journal, now.synced, now.is_full, now.ahead, now.room)}"]),
        *([] if now.uptime is None else [f"up        {up(now.uptime)}"]),
        "",
        table(rows, table_columns(now.memories, "rows", "rows/s")),
    ])


def prometheus(it: Sample) -> str:
    """The text format of Prometheus."""
    parts: List[str] = []

    def add(name: str, kind: str, about: str, *values: Tuple[str, Optional[float]]) -> None:
        known = [f"weltiyo_{name}{label} {value}" for label, value in values if value is not None]
        if known:
            parts.extend([f"# HELP weltiyo_{name} {about}", f"# TYPE weltiyo_{name} {kind}", *known])

    add("rows", "gauge", "Records of a table.", *((f'{{table="{name}"}}', size) for name, size in it.sizes))
    add("table_memory_bytes", "gauge", "Memory that a table takes.", *((f'{{table="{name}"}}', size) for name, size in (it.memories or {}).items()))
    add("revision", "gauge", "The revision.", ("", it.revision))
    add("open_sessions", "gauge", "Open sessions.", ("", it.depth))
    add("held_by_another", "gauge", "1 where another connection holds sessions.", ("", int(it.holder == "another connection")))
    add("holder_lines", "gauge", "Lines that who holds sessions has asked since that began.", ("", it.held_for))
    add("connections", "gauge", "Connections of the service.", ("", it.connections))
    add("unsent_bytes", "gauge", "Bytes of replies that connections haven't taken.", ("", it.unsent))
    add("uptime_seconds", "gauge", "Seconds since the service's start.", ("", it.uptime))
    add("journal_bytes", "gauge", "Bytes of the service's journal.", ("", it.journal))
    add("journal_synced_bytes", "gauge", "Bytes of the journal that stay since its last sync.", ("", it.synced))
    add("journal_full", "gauge", "1 where the journal's disk lacks room, and changes are refused.", ("", None if it.is_full is None else int(it.is_full)))
    add("journal_room_bytes", "gauge", "Bytes that lines may take before the journal's file grows.", ("", it.ahead))
    add("journal_segment", "gauge", "Number of the journal's newest segment.", ("", it.segment))
    add("journal_disk_free_bytes", "gauge", "Bytes that are free on the journal's disk.", ("", it.room))
    if it.files:
        add("journal_segments", "gauge", "Segment files of the service's journal.", ("", it.files.segments))
        add("journal_files_bytes", "gauge", "Bytes of these files, with the room behind their text.", ("", it.files.size))
    if it.files and it.files.base:
        add("base_bytes", "gauge", "Bytes of the journal's base.", ("", it.files.base.size))
        add("base_age_seconds", "gauge", "Seconds since the base was written.", ("", it.files.base.age))
    add("resident_memory_bytes", "gauge", "Memory of the process.", ("", it.usage.memory))
    add("read_bytes_total", "counter", "Bytes that the server has read, of connections since this began to look.", ("", it.usage.read))
    add("written_bytes_total", "counter", "Bytes that the server has written, likewise.", ("", it.usage.written))
    add("processor_seconds_total", "counter", "Processor time of the process.", ("", it.usage.seconds))
    return "\n".join(parts) + "\n"


def write_whole(path: str, text: str) -> None:
    """Replaces a file at once, so that nobody reads half of it. A link, a device or a pipe stays what it is."""
    with writing(path) as file:
        file.write(text.encode())


def moved_by(options: argparse.Namespace) -> Optional[Moved]:
    """What tells the bytes of a server that is connected to: its other connections, from one look to the next."""
    if options.connect is None:
        return None
    return Traffic(options.connect).moved if options.every and counts_bytes(options) else lambda: (None, None)


def counts_bytes(options: argparse.Namespace) -> bool:
    """Whether Linux counts what the connections move: those of a port, and not those of a Unix socket."""
    return options.connect is not None and path_of(options.connect) is None


def watch(options: argparse.Namespace, shown: Callable[[Sample, Sample], None]) -> int:
    try:
        with opened(options) as db:
            number = options.pid or db.process or (process.listener(options.connect) if options.connect else None)
            watcher = Watcher(db, number, moved_by(options))
            before = watcher.sample()
            count = 0
            while options.count is None or count < options.count:
                if options.every:
                    watcher.wait(options.every)
                now = watcher.sample()
                shown(now, before)
                before = now
                count += 1
    except KeyboardInterrupt:
        print()
    except BrokenPipeError:
        raise  # (nobody reads what is written)
    except (Ended, OSError, Refused, ValueError) as error:
        print(f"weltiyo: {why(error, options)}", file=sys.stderr)
        return status_of(error)
    return 0


def parser_of(name: str, about: str, every: float, count: Optional[int]) -> argparse.ArgumentParser:
    parser = argparse.ArgumentParser(prog=f"weltiyo {name}", description=about)
    add_source(parser)
    parser.add_argument("--pid", type=int, help="the server's process, where it can't be found by the port")
    parser.add_argument("--every", type=float, default=every, metavar="SECONDS", help="how often (%(default)s)")
    parser.add_argument("--count", type=int, default=count, help="ends after so many")
    return parser


def main(words: Optional[List[str]] = None) -> int:
    about = "Shows a running server. It is one of the server's clients, and asks all the time so that it holds no other up."
    options = source_words(parser_of("top", about, 1.0, None), words)
    clear = "\x1b[H\x1b[2J" if sys.stdout.isatty() else ""

    def shown(now: Sample, before: Sample) -> None:
        print(f"{clear}{screen(now, before)}", end="\n" if clear else "\n\n", flush=True)

    return watch(options, shown)


def main_metrics(words: Optional[List[str]] = None) -> int:
    about = "Writes what a running server holds as text that Prometheus reads; by --every and --file again and again, for a collector of files."
    parser = parser_of("metrics", about, 0.0, None)
    parser.add_argument("--file", help="replaces this file each time, in place of writing to the standard output")
    options = source_words(parser, words)
    if options.count is None and not options.every:
        options.count = 1

    def shown(now: Sample, _: Sample) -> None:
        text = prometheus(now) + (f"{ONCE}\n" if counts_bytes(options) and not options.every else "")
        if options.file:
            write_whole(options.file, text)
        else:
            print(text, end="", flush=True)

    return watch(options, shown)


def holding(it: Dict[str, Any]) -> str:
    """Whether a connection of a status holds sessions, and since which of its lines. A former service doesn't tell the line."""
    return "" if not it["holds"] else "yes" if it.get("since") is None else f"since line {it['since']}"


def journal_shown(size: int, synced: Optional[int], is_full: Optional[bool], ahead: Optional[int], room: Optional[int]) -> str:
    """A journal's bytes, and where they are known those that stay since its last sync, those that its file has ahead and those that are free on its
    disk. And whether it lacks room."""
    kept = amount(size) + ("" if synced is None else f", {amount(synced)} synced") + ("" if ahead is None else f", {amount(ahead)} ahead")
    return kept + ("" if room is None else f", {amount(room)} free on its disk") + (FULL if is_full else "")


def segments_shown(told: Dict[str, Any], files: Optional[Files]) -> List[str]:
    """The line on a journal's segments: how its files stand where they can be seen, else what the service tells. A former one tells nothing."""
    newest = (told.get("journal") or {}).get("segment")
    if files is None:
        return [] if newest is None else [f"segments: the newest is number {newest}"]
    return [f"segments: {files_shown(files)}"]


def files_shown(it: Files) -> str:
    """How a journal's files stand: its segments, and its base with its age."""
    base = "none" if it.base is None else f"{amount(it.base.size)}, written {up(it.base.age)} ago"
    covered = f", of which the base covers {it.covered}" if it.covered else ""
    return f"{it.segments}{covered}, the newest is number {it.newest}, {amount(it.size)} in all; base: {base}"


def shown_status(told: Dict[str, Any], room: Optional[int], files: Optional[Files]) -> str:
    """A status as people read it."""
    connections = [
        {"connection": it["number"], "holds sessions": holding(it), "lines": it.get("lines", ""), "unsent": it["unsent"]}
        for it in told["connections"]
    ]
    since = f", up {up(told['uptime'])}" if "uptime" in told else ""
    holder = "nobody" if told["holder"] is None else f"connection {told['holder']}"
    journal, memories = told.get("journal"), memories_of(told)
    tables = [{"table": it["name"], "rows": it["size"], "memory": amount(memories.get(it["name"]))} for it in told["tables"]]
    return "\n".join([
        f"mi_service {told['version']}{since}: {told['depth']} sessions open, held by {holder}",
        *([f"journal: {journal_shown(journal['bytes'], journal.get('synced'), journal['full'], journal.get('room'), room)}"] if journal else []),
        *segments_shown(told, files),
        "",
        table(connections, ["connection", "holds sessions", "lines", "unsent"]),
        "",
        table(tables, table_columns(memories, "rows")),
    ])


def main_status(words: Optional[List[str]] = None) -> int:
    about = ("Shows what a running service tells of itself: its connections, who of them holds sessions, and the rows and memory of each table. Where the "
             "files of its journal can be seen, it shows how they stand too.")
    parser = argparse.ArgumentParser(prog="weltiyo status", description=about)
    add_server(parser)
    parser.add_argument("--json", action="store_true", help="writes the service's own reply")
    options = parser.parse_args(words)
    options.journal, options.wants_rows = None, False
    if options.connect is None:
        parser.error("--connect is needed: the port or the path of a service that runs")
    try:
        with opened(options, learns=False) as db:
            told = status_told(db)
    except (Ended, OSError, Refused, ValueError) as error:
        print(f"weltiyo: {why(error, options)}", file=sys.stderr)
        return status_of(error)
    if told is None:
        print("weltiyo: this server tells no status; mi_service does", file=sys.stderr)
        return 1
    if options.json:
        print(json.dumps(told, separators=(",", ":")))
        return 0
    locked = process.locked_file(process.listener(options.connect)) if told.get("journal") else None
    print(shown_status(told, process.room_beside(locked), files_beside(locked)))
    return 0
