"""Each command once: its row in the table of commands, what is sent for a call, and what its reply is read as. The connections (one by one,
ahead, asyncio) have all these calls under the same names, by `Commands`. Nothing here reads or writes."""
from __future__ import annotations

import inspect
from typing import Any, Callable, Dict, List, NamedTuple, Optional, Tuple, TypeVar

from mi_client.faces import called
from mi_client.request import Bound as Bound, Key as Key, Page as Page, Request as Request, Revision as Revision, Row as Row
from mi_client.request import bound_of, columns_of, key_of

F = TypeVar("F", bound=Callable[..., Request[Any]])

CHANGE, STEP, ROOM, LOOK_UP = "change", "step", "room", "look-up"
"""What a command does: it changes records; begins sessions, ends them or lets go of them; asks room, which changes nothing and is kept out
while others hold sessions; or changes nothing, and nobody's sessions keep it out."""

SORTED, KEYED = ("ordered", "ranked"), ("ordered", "ranked", "hashed")


class Command(NamedTuple):
    """A row of the table of commands."""

    name: str
    members: List[str]
    """The needed members, and those in square brackets that may be left out."""
    reply: str
    about: str
    example: str
    effect: str
    kinds: Tuple[str, ...]
    """The kinds of index that it is for; `insert` by its member `before`."""
    absent: str
    """What the refusal `id` means, by the members; empty where it is the record `id`."""


COMMANDS: Dict[str, Command] = {}
"""Each command by its name."""


def _members_of(build: Callable[..., Any]) -> List[str]:
    """The parameters of a call as members, `table` last."""
    found = inspect.signature(build).parameters.values()
    names = [it.name if it.default is it.empty else f"[{it.name}]" for it in found if it.name != "table"]
    return [*names, "[table]"] if len(names) < len(found) else names


def command(
    reply: str, example: str, effect: str = LOOK_UP, kinds: Tuple[str, ...] = (), absent: str = "", about: str = "", name: str = ""
) -> Callable[[F], F]:
    """Makes a call a row of the table. Without `about` the first sentence of its documentation tells it, without `name` its own is the command's."""

    def row(build: F) -> F:
        first = (build.__doc__ or "").partition(".")[0]
        it = name or build.__name__
        COMMANDS[it] = Command(it, _members_of(build), reply, about or first[:1].lower() + first[1:], example, effect, kinds, absent)
        return build

    return row


def nothing(_: Dict[str, Any]) -> None:
    """Of a reply that says no more than that all went well."""


def member(name: str) -> Callable[[Dict[str, Any]], Any]:
    """Reads one member of a reply."""
    return lambda reply: reply[name]


def _page(reply: Dict[str, Any]) -> Page:
    return Page(reply["rows"], reply["more"])


def _revision(reply: Dict[str, Any]) -> Revision:
    return Revision(reply["revision"], reply["depth"], reply["held"])


_id, _row, _rank = (member(it) for it in ("id", "row", "rank"))
_number = member("revision")
ROW, PAGE, RANK = '{"ok":true,"row":{..}}', '{"more":B,"ok":true,"rows":[..]}', '{"ok":true,"rank":N}'
NUMBER = '{"ok":true,"revision":N}'


def ask(cmd: str, **members: Any) -> Request[Dict[str, Any]]:
    """Any command by its name and members: the whole accepted reply."""
    return Request(cmd, lambda reply: reply, **members)


# Changes


@command('{"id":N,"ok":true}', 'insert row={"owner":"ann","balance":50,"vip":false}', CHANGE, ("sequenced",), about="adds a record")
def insert(row: Row, table: Optional[str] = None, before: Optional[Tuple[str, int]] = None) -> Request[int]:
    """Adds a record and answers its id. `before` is a sequenced index and the id that the record comes before in it."""
    return Request("insert", _id, row=row, table=table, before={"index": before[0], "id": before[1]} if before else None)


@command('{"ok":true}', 'replace id=0 row={"owner":"ann","balance":7,"vip":true}', CHANGE)
def replace(id: int, row: Row, table: Optional[str] = None) -> Request[None]:
    """Sets another record for an id. A row that was got fits: its member `id` is left out, which is no column."""
    return Request("replace", nothing, id=id, row=columns_of(row), table=table)


@command('{"ok":true}', 'modify id=0 add={"balance":-5}', CHANGE,
         about="sets columns and adds to int columns; refused as unique it erases the record, unless rollback=true")
def modify(
    id: int, set: Optional[Row] = None, add: Optional[Dict[str, int]] = None, rollback: bool = True, table: Optional[str] = None
) -> Request[None]:
    """Sets columns and adds to int columns. Where a unique index refuses the result `Refused` is raised and nothing has
    changed; with `rollback=False` the record is erased then, as in Boost.MultiIndex and in the bare command."""
    return Request("modify", nothing, id=id, set=set, add=add, rollback=rollback or None, table=table)


@command('{"ok":true}', "erase id=0", CHANGE)
def erase(id: int, table: Optional[str] = None) -> Request[None]:
    """Erases a record."""
    return Request("erase", nothing, id=id, table=table)


@command('{"erased":N,"ok":true}', "erase_key index=by_vip key=[true]", CHANGE, KEYED, about="erases every record with a whole key")
def erase_key(index: str, key: Key, table: Optional[str] = None) -> Request[int]:
    """Erases every record with a whole key, and answers how many."""
    return Request("erase_key", member("erased"), index=index, key=key_of(key), table=table)


@command('{"ok":true}', "relocate index=line id=2 before=0", CHANGE, ("sequenced",),
         about="moves a record of a sequenced index before another, or to the end")
def relocate(index: str, id: int, before: Optional[int] = None, table: Optional[str] = None) -> Request[None]:
    """Moves a record of a sequenced index directly before another, or to the end."""
    return Request("relocate", nothing, index=index, id=id, before=before, table=table)


# Sessions


@command(NUMBER, "start", STEP, about="opens a session", name="start")
def begin() -> Request[int]:
    """Opens a session (the command `start`) and answers the revision, which is its number."""
    return Request("start", _number)


@command(NUMBER, "undo", STEP, about="takes back everything since the newest start")
def undo() -> Request[int]:
    """Takes back all changes since the newest start, and answers the revision."""
    return Request("undo", _number)


@command(NUMBER, "squash", STEP, about="joins the newest session into the one below")
def squash() -> Request[int]:
    """Joins the newest session into the one below, or keeps its changes where it is the only one; answers the revision."""
    return Request("squash", _number)


@command('{"committed":N,"ok":true}', "commit revision=1", STEP, about="ends the sessions up to a number for good")
def commit(revision: int) -> Request[int]:
    """Ends the sessions up to this number, keeps their changes, and answers how many they were."""
    return Request("commit", member("committed"), revision=revision)


@command('{"ok":true,"undone":N}', "undo_all", STEP, about="undoes every open session")
def undo_all() -> Request[int]:
    """Undoes every open session, and answers how many they were."""
    return Request("undo_all", member("undone"))


@command('{"ok":true,"pushed":N}', "push", STEP, about="lets go of the sessions that this connection holds")
def push() -> Request[int]:
    """Lets go of the sessions that this connection holds, which stay open, and answers how many they were."""
    return Request("push", member("pushed"))


@command('{"ok":true}', "reserve changes=10 sessions=1", ROOM, about="asks room for so many changes inside sessions, and so many starts")
def reserve(changes: int, sessions: int) -> Request[None]:
    """Asks the database for room for so many changes inside sessions (at most 1,000,000) and so many starts (at most 1,024),
    ahead of a block. Raises `Refused` with the word `memory` where there is none; nothing has changed then."""
    return Request("reserve", nothing, changes=changes, sessions=sessions)


# Look-ups


@command(ROW, "get id=0")
def get(id: int, table: Optional[str] = None) -> Request[Row]:
    """The record of an id."""
    return Request("get", _row, id=id, table=table)


@command(ROW, 'find index=by_owner key=["ann"]', kinds=KEYED, absent="no record has the key {key} in {index}", about="the first record with a key")
def find(index: str, key: Key, table: Optional[str] = None) -> Request[Row]:
    """The first record with a key; ordered and ranked indexes take the first values of a key too."""
    return Request("find", _row, index=index, key=key_of(key), table=table)


@command(ROW, "nth index=by_balance n=0", kinds=("ranked",), absent="no record stands at place {n} of {index}")
def nth(index: str, n: int, table: Optional[str] = None) -> Request[Row]:
    """The record with n others before it in a ranked index."""
    return Request("nth", _row, index=index, n=n, table=table)


@command('{"count":N,"ok":true}', "count index=by_vip key=[true]", kinds=KEYED)
def count(index: str, key: Key, table: Optional[str] = None) -> Request[int]:
    """How many records have a key."""
    return Request("count", member("count"), index=index, key=key_of(key), table=table)


@command(PAGE, 'range index=by_balance lower={"ge":[10]} limit=5', kinds=SORTED, about="the records between two bounds, in the order of an index")
def range(
    index: str,
    lower: Optional[Bound] = None,
    upper: Optional[Bound] = None,
    reverse: bool = False,
    limit: Optional[int] = None,
    table: Optional[str] = None,
) -> Request[Page]:
    """The first rows of a range, at most `limit` (1 to 1000, 1000 where it is None). `lower` is `{"ge": key}` or
    `{"gt": key}`, `upper` is `{"le": key}` or `{"lt": key}`, in the order of the index."""
    bounds = {"lower": bound_of(lower), "upper": bound_of(upper)}
    return Request("range", _page, index=index, **bounds, reverse=reverse or None, limit=limit, table=table)


@command(PAGE, "list index=line", kinds=("sequenced",), absent="there is no record {after}", about="the records of a sequenced index", name="list")
def list_(index: str, after: Optional[int] = None, limit: Optional[int] = None, table: Optional[str] = None) -> Request[Page]:
    """The first rows of a sequenced index, or of those behind the record `after`, at most `limit`."""
    return Request("list", _page, index=index, after=after, limit=limit, table=table)


@command(RANK, "rank index=by_balance id=0", kinds=("ranked",))
def rank(index: str, id: int, table: Optional[str] = None) -> Request[int]:
    """How many records stand before a record in a ranked index."""
    return Request("rank", _rank, index=index, id=id, table=table)


@command(RANK, "lower_rank index=by_balance key=[10]", kinds=("ranked",))
def lower_rank(index: str, key: Key, table: Optional[str] = None) -> Request[int]:
    """How many keys of a ranked index are less."""
    return Request("lower_rank", _rank, index=index, key=key_of(key), table=table)


@command(RANK, "upper_rank index=by_balance key=[10]", kinds=("ranked",))
def upper_rank(index: str, key: Key, table: Optional[str] = None) -> Request[int]:
    """How many keys of a ranked index are not greater."""
    return Request("upper_rank", _rank, index=index, key=key_of(key), table=table)


@command('{"ok":true,"size":N}', "size")
def size(table: Optional[str] = None) -> Request[int]:
    """How many records the table has."""
    return Request("size", member("size"), table=table)


@command('{"depth":N,"held":N,"ok":true,"revision":N}', "revision")
def revision() -> Request[Revision]:
    """The revision, the open sessions, and those that this connection holds."""
    return Request("revision", _revision)


class Commands:
    """The commands as methods, by their names; `start` is `begin`, since `Database.start` starts a server of its own. What they answer their
    connection says: what `send` makes of the request."""

    def __init_subclass__(cls) -> None:
        if Commands in cls.__bases__:  # (each kind of connection has them as its own, and a kind of that may have others of the name)
            for name, it in vars(Commands).items():
                if not name.startswith("_") and name not in vars(cls):
                    setattr(cls, name, it)

    ask = called(ask)

    insert = called(insert)
    replace = called(replace)
    modify = called(modify)
    erase = called(erase)
    erase_key = called(erase_key)
    relocate = called(relocate)

    begin = called(begin)
    undo = called(undo)
    squash = called(squash)
    commit = called(commit)
    undo_all = called(undo_all)
    push = called(push)
    reserve = called(reserve)

    get = called(get)
    find = called(find)
    nth = called(nth)
    count = called(count)
    range = called(range)
    list = called(list_)
    rank = called(rank)
    lower_rank = called(lower_rank)
    upper_rank = called(upper_rank)
    size = called(size)
    revision = called(revision)
