"""How far a log goes and what it has so far, in 16 digits more than its number of entries; and entries, each of which says what it stands on.
So a log whose entries are others than those that a member has is told at the first that it is given."""
from __future__ import annotations

import hashlib
from typing import NamedTuple

SUM_DIGITS = 16


class Front(NamedTuple):
    """Up to where a log goes: the number of its last entry, and a sum of all entries up to that one, which begins with the ledger's identity."""

    number: int
    sum: str

    def with_entry(self, lines: bytes) -> Front:
        """The front behind one more entry."""
        return Front(self.number + 1, hashlib.sha256(self.sum.encode() + lines).hexdigest()[:SUM_DIGITS])

    def written(self) -> bytes:
        """As it stands in etcd."""
        return b"%020d %s" % (self.number, self.sum.encode())

    @classmethod
    def read(cls, value: bytes) -> Front:
        number, _, sum = value.decode().partition(" ")
        return cls(int(number), sum)


class Entry(NamedTuple):
    """An entry: its number, the sum of the log before it, and lines of a journal."""

    number: int
    before: str
    lines: bytes

    def written(self) -> bytes:
        """As it stands in etcd: the sum in a line of its own, and the lines behind it."""
        return self.before.encode() + b"\n" + self.lines

    @classmethod
    def read(cls, number: int, value: bytes) -> Entry:
        before, _, lines = value.partition(b"\n")
        return cls(number, before.decode(errors="replace"), lines)
