"""A ledger that begins with the tables of a checkpoint, of this ledger's own past or of another one: as behind a loss of etcd's data. What is known of
the checkpoint is in its name, and its file is only read."""
from __future__ import annotations

import json
import os
import re
import shutil
from typing import Tuple

from mi_replica.based import PIECE, parts_of
from mi_replica.checkpoint import BASED, LINES, Checkpoint, Damaged, Folder, batches
from mi_replica.following import Diverged, replay
from mi_replica.front import SUM_DIGITS, Front
from mi_replica.log import Log, OtherLedger, new_identity
from mi_replica.member import OtherSchema, Settings, schema_of
from mi_replica.own import own_of

NAME = re.compile(rf"[^.]+\.[^.]+\.(\d{{20}})\.([0-9a-f]{{{SUM_DIGITS}}})\.([0-9a-f]{{{SUM_DIGITS}}})\.(?:{LINES}|{BASED})(?:\.[a-z]+)?")
"""What a checkpoint's file is called, also one that was set aside."""


def named(path: str) -> Checkpoint:
    """What the name of a checkpoint's file says. Raises Damaged where it is none."""
    found = NAME.fullmatch(os.path.basename(path))
    if not found:
        raise Damaged(f"{path} isn't called as a checkpoint: LEDGER.<identity>.<20 digits>.<16>.<16>.{LINES} or .{BASED}")
    return Checkpoint(Front(int(found[1]), found[2]), found[3], path)


def header_in(path: str) -> bytes:
    """The header of a checkpoint's segment."""
    with open(path, "rb") as file:
        file.seek(parts_of(path).base)
        return file.readline()


async def check(settings: Settings, path: str) -> str:
    """What identifies the schema of a server that has loaded a checkpoint, which fits it. Raises OtherSchema, Damaged and Gone."""
    schema = schema_of(await own_of(settings.program, settings.schema, settings.body).header(), settings.schema)
    own = own_of(settings.program, settings.schema, settings.body)
    try:
        found = json.loads(header_in(path)).get("schema")
        if found != schema:
            raise OtherSchema(f"{path} belongs to the schema {found}, and this one is {schema}")
        await own.start(path)
        for lines in batches(path):
            await replay(own, lines, path)
    except (ValueError, Diverged) as error:
        raise Damaged(str(error)) from error
    finally:
        await own.close()
    return schema


async def begin(settings: Settings, path: str, log: Log) -> Tuple[Checkpoint, str]:
    """Begins a ledger with the tables of a checkpoint, and puts that into the folder of its first member. Answers what it is there, and the ledger's
    identity. The folder has it before etcd has the ledger: of a ledger whose tables nobody has no member could begin. Raises OtherLedger, OtherSchema,
    Damaged, Gone and OSError."""
    old, identity = named(path), new_identity()
    old.check()
    schema = await check(settings, path)
    # (a sum of its own, so that entries of another ledger that began with this checkpoint aren't taken for its own)
    front = Front(old.front.number, Front(0, identity).with_entry(old.front.sum.encode()).sum)
    folder = Folder(settings.folder or ".", settings.name, identity)
    with folder.new_file() as new:
        with open(path, "rb") as source, open(new, "wb") as target:
            shutil.copyfileobj(source, target, PIECE)
        made = folder.keep(new, front, old.digest)
    try:
        await log.begin_behind(identity, schema, front)
    except OtherLedger:
        os.unlink(made.path)
        raise
    return made, identity
