"""The options of `python3 -m mi_replica`, and the table that --status prints."""
from __future__ import annotations

import argparse
import asyncio
import json
import os
import re
import shutil
import signal
import sys
from typing import Any, Dict, List, Optional, Tuple

from mi_tools.cli import broken_pipe
from mi_tools.journal_names import base_path, numbers_of, segment_path
from mi_replica.based import unpack
from mi_replica.beginning import begin, named
from mi_replica.checkpoint import Damaged
from mi_replica.etcd import Rejected, Unreachable, place
from mi_replica.log import Leader, Log, OtherLedger, Snapshot
from mi_replica.member import Member, OtherSchema, Settings
from mi_replica.own import Gone

ENDS = (signal.SIGTERM, signal.SIGINT)
MEMBER = b'{"cmd":"member"}\n'
ANSWER_SECONDS = 2.0
"""So long --status waits for a member to say how it stands."""


def parser() -> argparse.ArgumentParser:
    made = argparse.ArgumentParser(prog="mi_replica", description="A member of a ledger whose lines etcd keeps in order.")
    made.add_argument("--etcd", metavar="URL,..", help="the members of etcd, as http://127.0.0.1:2379")
    made.add_argument("--name", metavar="LEDGER", help="the ledger: letters, digits, - and _")
    made.add_argument("--status", action="store_true", help="tells how the members and the log stand, and nothing else")
    made.add_argument("--begin", metavar="CHECKPOINT", help="begins the ledger with the tables of this file, which it puts into --folder, and nothing else")
    made.add_argument("--unpack", nargs=2, metavar=("CHECKPOINT", "JOURNAL"), help="makes a journal of mi_service from a checkpoint, and nothing else")
    made.add_argument("--program", default=os.environ.get("MI_SERVICE", "mi_service"), help="the server of its own: mi_service or mi_server (%(default)s)")
    made.add_argument("--body", choices=["service", "pipes"], help="how it is asked; by the program's name where this is left out")
    made.add_argument("--schema", metavar="FILE", help="the schema, the same for all members")
    made.add_argument("--listen", type=int, metavar="PORT", help="where clients connect")
    made.add_argument("--host", default="127.0.0.1", help="the address to listen on; there are no passwords (%(default)s)")
    made.add_argument("--address", default="", metavar="HOST:PORT", help="where clients and other members reach it, where that is another one")
    made.add_argument("--folder", metavar="FOLDER", help="where its checkpoints stand; without it none is written and the log isn't shortened")
    made.add_argument("--checkpoint", type=int, default=16 << 20, metavar="BYTES", help="bytes of lines from one checkpoint to the next (%(default)s)")
    made.add_argument("--lease", type=int, default=3, metavar="SECONDS", help="so long after its leader is gone the ledger has none (%(default)s)")
    made.add_argument("--margin", type=float, default=0.5, metavar="SECONDS", help="so much earlier the leader takes its lease for ended (%(default)s)")
    made.add_argument("--batch", type=int, default=0, metavar="LINES", help="the most lines of an entry (as many as wait, up to 1 MB)")
    return made


def settings(options: argparse.Namespace) -> Settings:
    return Settings(
        etcd=options.etcd.split(","), name=options.name, program=options.program, port=options.listen or 0, schema=options.schema, host=options.host,
        address=options.address, folder=options.folder, lease=options.lease, margin=options.margin, most_lines=options.batch,
        checkpoint=options.checkpoint, body=options.body or "",
    )


def main(words: Optional[List[str]] = None) -> int:
    made = parser()
    options = made.parse_args(words)
    if options.unpack:
        return unpacked(*options.unpack)
    missing = [f"--{it}" for it in ("etcd", "name") if getattr(options, it) is None]
    if missing:
        made.error(f"the following arguments are required: {', '.join(missing)}")
    if not re.fullmatch(r"[A-Za-z0-9_-]{1,64}", options.name):
        made.error("--name has letters, digits, - and _, at most 64")
    if options.begin and not options.folder:
        made.error("--begin wants --folder")
    if not options.status and not options.begin and not options.listen:
        made.error("--listen is wanted, or --status")
    if not 0 <= options.margin < options.lease:
        made.error("--margin is less than --lease")
    try:
        for it in options.etcd.split(","):
            place(it)
    except ValueError as error:
        made.error(f"--etcd: {error}")
    try:
        return told(options) if options.status else asyncio.run(begun(options) if options.begin else serve(options))
    except (OtherSchema, OtherLedger) as error:
        print(f"mi_replica: {'schema' if isinstance(error, OtherSchema) else 'ledger'}: {error}", file=sys.stderr)
        return 3
    except Damaged as error:
        print(f"mi_replica: checkpoint: {error}", file=sys.stderr)
        return 3
    except (OSError, Rejected, Gone) as error:
        print(f"mi_replica: {error}", file=sys.stderr)
        return 4


def told(options: argparse.Namespace) -> int:
    """How the members stand, in silence where nobody reads on."""
    try:
        found = asyncio.run(status(options))
        sys.stdout.flush()
        return found
    except BrokenPipeError:
        return broken_pipe()


def unpacked(checkpoint: str, journal: str) -> int:
    """The files of a journal, none of which may be there."""
    try:
        named(checkpoint).check()
        for it in (base_path(journal), *(segment_path(journal, number) for number in numbers_of(journal))):
            if os.path.exists(it):
                raise FileExistsError(f"{it} is there")
        print(f"{unpack(checkpoint, journal)}: start mi_service with --journal {journal}")
        return 0
    except (Damaged, ValueError) as error:
        print(f"mi_replica: checkpoint: {error}", file=sys.stderr)
        return 3
    except OSError as error:
        print(f"mi_replica: {error}", file=sys.stderr)
        return 4


def check_program(options: argparse.Namespace) -> None:
    if shutil.which(options.program) is None:
        raise Gone(f"there is no program {options.program}: name it by --program FILE or the variable MI_SERVICE")


async def begun(options: argparse.Namespace) -> int:
    """Begins a ledger with a checkpoint's tables."""
    check_program(options)
    log = Log(options.etcd.split(","), options.name)
    try:
        made, identity = await begin(settings(options), options.begin, log)
    finally:
        log.close()
    print(f"{options.name}: begun with the identity {identity}, behind entry {made.front.number}. Start its first member with --folder {options.folder}")
    return 0


async def serve(options: argparse.Namespace) -> int:
    """A member until it is told to end. Its lease is given back then, so that another one leads at once."""
    check_program(options)
    running = asyncio.ensure_future(Member(settings(options)).run())
    for it in ENDS:
        asyncio.get_running_loop().add_signal_handler(it, running.cancel)
    try:
        await running
    except asyncio.CancelledError:
        pass
    return 0


async def status(options: argparse.Namespace) -> int:
    log = Log(options.etcd.split(","), options.name)
    try:
        found, members = await asked(log, len(options.etcd.split(",")))
    finally:
        log.close()
    leads = found.leader is not None and await role_of(found.leader.said["address"], found.leader.term) == "leader"
    print(f"{options.name}: {who_leads(found.leader, leads)}")
    last = found.front.number
    none = f"the log has none of its {last} entries any more" if last else "the log is empty"
    print(f"  the log has the entries {found.first} to {last}" if found.first <= last else f"  {none}")
    for name in sorted(members):
        it = members[name]
        is_leader = leads and found.leader is not None and found.leader.said["address"] == it["address"]
        role = "no leader" if it["role"] == "leader" and not is_leader else it["role"]
        print(f"  {name:<24} {role:<9} applied {it['applied']:<10} checkpoint {it['checkpoint']}")
    return 0 if leads else 1


def who_leads(leader: Optional[Leader], leads: bool) -> str:
    """A leader's key outlasts it until its lease ends, so the member itself is asked."""
    if leader is None:
        return "nobody leads"
    if leads:
        return f"{leader.said['address']} leads in term {leader.term}"
    return f"nobody leads: {leader.said['address']} has term {leader.term}, and doesn't answer as its leader"


async def role_of(address: str, term: int) -> str:
    """What a member says that it is in this term; empty where it says nothing, or is in another one."""
    host, _, port = address.rpartition(":")
    try:
        reader, writer = await asyncio.wait_for(asyncio.open_connection(host.strip("[]"), int(port)), ANSWER_SECONDS)
    except (OSError, ValueError, asyncio.TimeoutError):
        return ""
    try:
        writer.write(MEMBER)
        found = json.loads(await asyncio.wait_for(reader.readline(), ANSWER_SECONDS))
        return str(found.get("role", "")) if found.get("term") == term else ""
    except (OSError, ValueError, AttributeError, asyncio.TimeoutError):
        return ""
    finally:
        writer.close()


async def asked(log: Log, tries: int) -> Tuple[Snapshot, Dict[str, Dict[str, Any]]]:
    """What etcd says, by one of its members. Raises Unreachable, which says of each that was asked why it gave no answer."""
    said: List[str] = []
    while True:
        try:
            return await log.read(0, 1), await log.members()
        except Unreachable as error:
            said += [str(error)] if str(error) not in said else []
            tries -= 1
            if not tries:
                raise Unreachable("; ".join(said)) from None
