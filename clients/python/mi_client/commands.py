"""What the table of commands says of each kind of command; refusals; and which replies are those of a change."""
from __future__ import annotations

from mi_client.calls import CHANGE, LOOK_UP, STEP
from mi_client.calls import COMMANDS as COMMANDS

CHANGES, SESSION_STEPS, LOOK_UPS = (frozenset(it.name for it in COMMANDS.values() if it.effect == effect) for effect in (CHANGE, STEP, LOOK_UP))
"""Commands that change records; those that begin sessions, end them or let go of them; and those that change nothing and that nobody's sessions
keep out. `reserve` is none of the three: it changes nothing, and is kept out."""

MAY_CHANGE = tuple(
    b'{"id": {"ok":true} {"erased": {"ok":true,"revision": {"committed": {"ok":true,"undone": {"ok":true,"pushed":'.split(b" ")
)
"""How replies begin to lines that changed the database, or who holds its sessions."""

REFUSALS = {
    "line": ("the line is longer than 65,536 bytes", "send less at once"),
    "json": ("it is no JSON, or not UTF-8", "put texts and names into quotation marks, and write true and false small"),
    "form": ("it is no command, a member is missing, unknown or of another kind, or a number is out of its limits",
             "`help COMMAND` has the members"),
    "busy": ("another connection holds sessions", "wait until it has ended them; look-ups are answered meanwhile"),
    "table": ("no table has this name", "`\\d` lists the tables"),
    "index": ("the table has no index of this name", "`\\d` lists the indexes"),
    "kind": ("the command isn't for this kind of index", "`\\d` has the kinds; ranks are for ranked ones, ranges for ordered and ranked ones"),
    "row": ("the row, `set` or `add` doesn't fit the columns", "a row has exactly the columns, without `id`; int columns take no fractions"),
    "key": ("the key doesn't fit the index: it is empty, too long, too short where it must be whole, or a value is of another type",
            "a key is an array of values in the order of the index's parts; a hashed index takes all of them"),
    "id": ("the named record isn't there, or a look-up has no record", "ask `find`, or `range` of the index `id`"),
    "range": ("an addition leaves 64 bits", "set another number"),
    "full": ("the table has its most rows", "erase some, or raise `max_rows` in the schema"),
    "spent": ("the next id, the counter of changes or the revision is at its end", "start again with lower counters"),
    "unique": ("another record has this key in a unique index; the reply names both", "modify that one, or take another key"),
    "depth": ("1,024 sessions are open", "squash, undo or commit some"),
    "session": ("no session is open", "`start` opens one"),
    "memory": ("memory was refused, and nothing has changed", "undo, erase, or give the server more"),
    "journal": ("the service's journal has no room for the line, and nothing has changed",
                "the journal's disk is full: make room there; look-ups and the undo of open sessions go on"),
    "leader": ("this member of a ledger follows another one, and takes no changes; the reply names the leader, where it is known",
               "ask that one; `connect_leader` of the Python client finds it"),
}
"""Each word of a refusal of a command: when it comes, and what to do. (A member of a ledger refuses a line of its own by another one.)"""


def belongs_in_journal(reply: bytes) -> bool:
    """Whether a line that was answered so stands in a journal: it changed the database, or who holds its sessions; or it may have, and
    changes nothing where it is asked again. The replies alone tell."""
    if reply.startswith(MAY_CHANGE):
        return True
    return reply.startswith(b'{"error":"unique"') and reply.endswith(b'","lost":true,"ok":false}')
