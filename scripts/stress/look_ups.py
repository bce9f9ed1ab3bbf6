"""Every look-up of some tables, and whether a service answers each as `reference.py` does."""
import itertools
import json

from reference import CHANGES, FORMS, KINDS
from stress import service
from stress.journal_walk import Differs, fork, state

READER = 0
"""The connection that asks the reference. It holds no session."""
AT_ONCE = 100
"""Lines that are sent ahead of their replies."""


def said(name, table, **members):
    return json.dumps({"cmd": name, "table": table.schema.name, **members}, separators=(",", ":")).encode()


def asked_by(index, *members):
    """The look-ups that an index of this kind answers, of those which need these members and no others."""
    return [it for it, (needed, _) in FORMS.items() if set(needed) == set(members) and it not in CHANGES and index.kind in KINDS[it].split()]


def beside(value):
    """A value next to this one, which a key may or may not have."""
    if isinstance(value, bool):
        return not value
    return value + 1 if isinstance(value, int) else f"{value[:1000]}~"


def keys_of(table, x):
    """Keys that the index has, some that it may lack, and where it is sorted the fronts of all these."""
    whole = [table.key(x, id) for id in table.rows]
    whole += [[*key[:-1], beside(key[-1])] for key in whole]
    fronts = [key[:n] for key in whole for n in range(1, len(key))] if table.schema.indexes[x].is_sorted else []
    return [json.loads(it) for it in sorted({json.dumps(key) for key in whole + fronts})]


def of_key(table, index, key):
    """The look-ups that an index of this kind answers of a key."""
    for name in asked_by(index, "index", "key"):
        yield said(name, table, index=index.name, key=key)
    if index.is_sorted:
        for side, bound in (("lower", "ge"), ("lower", "gt"), ("upper", "le"), ("upper", "lt")):
            yield said("range", table, index=index.name, **{side: {bound: key}})


def of_index(table, x):
    index = table.schema.indexes[x]
    for name in asked_by(index, "index"):
        yield said(name, table, index=index.name)
    if index.kind == "sequenced":
        for id in table.rows:
            yield said("list", table, index=index.name, after=id, limit=2)
        return
    yield from itertools.chain.from_iterable(of_key(table, index, key) for key in keys_of(table, x))
    if index.is_sorted:
        yield said("range", table, index=index.name, reverse=True)
    for n, id in enumerate([*table.rows, table.next]):
        for name in asked_by(index, "index", "n"):
            yield said(name, table, index=index.name, n=n)
        for name in asked_by(index, "index", "id"):
            yield said(name, table, index=index.name, id=id)


def every_look_up(tables):
    """All commands that change nothing, of each index, with keys, ids and places that are there and some that aren't."""
    yield b'{"cmd":"revision"}'
    for table in tables:
        yield said("size", table)
        for id in [*table.rows, table.next]:
            yield said("get", table, id=id)
        for x in range(len(table.schema.indexes)):
            yield from of_index(table, x)


class Answers:
    """All look-ups of a state, and what the reference answers to them."""

    def __init__(self, reference):
        self.of, twin = state(fork(reference)), fork(reference)
        self.lines = list(every_look_up(reference.tables))
        self.replies = [twin.answer_ended(READER, it) for it in self.lines]

    def compare(self, running):
        """Asks a service each look-up, and answers how many those were. Raises Differs."""
        with running.connect() as stream:
            for at in range(0, len(self.lines), AT_ONCE):
                piece = self.lines[at:at + AT_ONCE]
                got = service.asked(stream, b"\n".join(piece) + b"\n").splitlines(keepends=True)
                for text, reply, want in zip(piece, got, self.replies[at:at + AT_ONCE], strict=True):
                    if reply != want:
                        raise Differs(f"{text.decode()}: wanted {want!r}, got {reply!r}")
        return len(self.lines)
