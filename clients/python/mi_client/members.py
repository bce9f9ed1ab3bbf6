"""Which of several members of a ledger leads (`mi_replica`): the one that takes changes, and whose look-ups are current. A connection to
it is a `Database` like any other; where it ends, ask here again."""
from __future__ import annotations

import json
import time
from typing import List, Optional, Sequence, Tuple, Union

from mi_client.database import AnySchema, Database
from mi_client.errors import Ended

Address = Union[int, str]
"""A port of 127.0.0.1, or HOST:PORT."""
PAUSE_SECONDS = 0.1
ANSWER_SECONDS = 2.0


def place(address: Address) -> Tuple[str, int]:
    """Host and port. Raises ValueError."""
    host, _, port = str(address).rpartition(":")
    return host or "127.0.0.1", int(port)


def connect_leader(
    members: Sequence[Address], timeout: Optional[float] = None, schema: AnySchema = None, wait: float = 10.0, answers: float = ANSWER_SECONDS
) -> Database:
    """A connection to the member that leads, which is looked for during `wait` seconds; else Ended is raised. A member that doesn't say
    for `answers` seconds how it stands is passed over. `timeout` and `schema` are those of `Database.connect`: a leader that is stopped
    is told from one that takes its time by `timeout` alone.

    A command that raises Ended may have been done or not: it was, if the new leader's tables say so. Sessions that the connection held
    are undone."""
    end = time.monotonic() + wait
    rest: List[Address] = list(members)
    while True:
        for it in list(rest):
            found, named = asked(it, timeout, schema, answers)
            if found:
                return found
            if named and named not in rest:
                rest.append(named)  # (a member that the list doesn't name)
        if time.monotonic() >= end:
            raise Ended(f"no member leads: {', '.join(map(str, rest))}")
        time.sleep(PAUSE_SECONDS)


def asked(address: Address, timeout: Optional[float], schema: AnySchema, answers: float) -> Tuple[Optional[Database], str]:
    """The connection, if this member leads; and which one does, as it says."""
    host, port = place(address)
    try:
        db = Database.connect(port, answers, schema, host=host)
    except OSError:
        return None, ""
    try:
        said = json.loads(db.ask_line('{"cmd":"member"}'))
    except (Ended, ValueError):
        db.close()
        return None, ""
    if said.get("role") == "leader":
        db.answer_within(timeout)
        return db, ""
    db.close()
    return None, str(said.get("leader", ""))
