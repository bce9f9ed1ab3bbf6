"""Walks over pages, windows by place, counts between keys, and the equals of a key, as calls of a connection: the plans of
`plans.py`, carried out. What others change meanwhile is seen where it stands ahead."""
from __future__ import annotations

import contextlib
from typing import Any, Iterator, List, Optional, Sequence, TypeVar

from mi_client import plans
from mi_client.direct import Calls
from mi_client.pipeline import WINDOW, Answer, Pipeline
from mi_client.plans import Batch, Plan, Window
from mi_client.request import MOST_ROWS, Bound, Key, Row
from mi_client.schema import Schema

R = TypeVar("R")


class Walks(Calls):
    @property
    def schema(self) -> Optional[Schema]:
        """The tables, where they are known."""
        raise NotImplementedError

    def pipeline(self, window: int = WINDOW) -> contextlib.AbstractContextManager[Pipeline]:
        """A block of calls that are sent ahead."""
        raise NotImplementedError

    # Pages

    def walk_range(
        self,
        index: str,
        columns: Optional[Sequence[str]] = None,
        lower: Optional[Bound] = None,
        upper: Optional[Bound] = None,
        reverse: bool = False,
        page: int = MOST_ROWS,
        table: Optional[str] = None,
    ) -> Iterator[Row]:
        """The rows of a range, one page after another. `columns` are the parts of the index's key, as the schema has them
        (`["id"]` for the index `id`; a `-` before a name is passed over); without them the schema is asked, else NeedsSchema
        is raised.

        The server keeps no cursor: the next page begins at the key of the last row, and the rows of that key which came
        already are passed over. Where more rows have one key than a page has, a ranked index goes on by their places; of an
        ordered one TooManyEqual is raised, which says what index would do. What others change meanwhile is seen where it
        stands ahead, and not where it stands behind; among such equals a change on the way may hide a row, unless a session
        is held meanwhile."""
        return self._rows(plans.walk_range(self.schema, index, columns, lower, upper, reverse, page, table))

    def walk_list(self, index: str, page: int = MOST_ROWS, table: Optional[str] = None) -> Iterator[Row]:
        """The rows of a sequenced index, one page after another, each page behind the last row of the one before. Where that
        row is erased meanwhile, `Refused` is raised with the word `id`."""
        return self._rows(plans.walk_list(index, page, table))

    # Places

    def window(self, index: str, place: int, n: int, table: Optional[str] = None) -> Window:
        """The rows of a ranked index at the places from `place` on, at most n: a page by its number. Fewer come where the
        index ends. The look-ups are sent ahead, and each costs one way down a tree, wherever the page stands."""
        return self._answer(plans.window(index, place, n, table))

    def around(self, id: int, n: int, index: Optional[str] = None, table: Optional[str] = None) -> Window:
        """A record, n rows before it and n behind it in a ranked index: the neighbours of a player. `index` may be left out
        where the schema is known and the table has one ranked index beside `id`. Raises Refused with the word `id`."""
        return self._answer(plans.around(self.schema, id, n, index, table))

    def count_range(self, index: str, from_key: Key, to_key: Key, table: Optional[str] = None) -> int:
        """How many records of a ranked index have a key from `from_key` to `to_key`, both included, in the order of the
        index: along a descending part the greater value comes first. Raises ValueError where the bounds stand the other way
        round; where no record is between or at them the answer is 0 in either order."""
        return self._answer(plans.count_range(self.schema, index, from_key, to_key, table))

    # Equals

    def equal(self, index: str, key: Key, table: Optional[str] = None, page: int = MOST_ROWS) -> Iterator[Row]:
        """Every record with a key. A hashed index can't list its equals: a unique one has one at most, and for another an
        ordered or ranked index is taken whose key begins with the same columns. Raises ValueError where there is none, and
        NeedsSchema."""
        return self._rows(plans.equal(self.schema, index, key, table, page))

    # Plans

    def _asked(self, batch: Batch) -> List[Answer[Any]]:
        """The answers to requests that are sent together."""
        with self.pipeline() as ahead:
            answers = [ahead.send(it) for it in batch.requests]
            ahead.flush()
            ahead.refused()
        return answers

    def _rows(self, plan: Plan[R]) -> Iterator[Row]:
        """The rows of a plan, as it is carried out."""
        answers: Optional[List[Answer[Any]]] = None
        while True:
            try:
                step = plan.send(answers)
            except StopIteration:
                return
            answers = None
            if isinstance(step, Batch):
                answers = self._asked(step)
            else:
                yield step

    def _answer(self, plan: Plan[R]) -> R:
        """What a plan without rows answers."""
        answers: Optional[List[Answer[Any]]] = None
        while True:
            try:
                step = plan.send(answers)
            except StopIteration as end:
                found: R = end.value
                return found
            assert isinstance(step, Batch)
            answers = self._asked(step)
