"""Forms of calls that others have taken the place of. They still work, each with a DeprecationWarning."""
from __future__ import annotations

import functools
import warnings
from typing import Any, Callable, TypeVar

F = TypeVar("F", bound=Callable[..., Any])


class Openness(int):
    """Whether a connection is open, true or false. It was told by a call before, and can still be called."""

    def __call__(self) -> bool:
        warnings.warn("is_open isn't called any more: it is true or false itself", DeprecationWarning, stacklevel=2)
        return bool(self)

    def __repr__(self) -> str:
        return repr(bool(self))


def clients_first(init: F) -> F:
    """Takes the number of clients ahead of the schema too, which now stands there as it does in `Database.start`."""

    @functools.wraps(init)
    def in_order(self: Any, program: Any = None, *args: Any, **named: Any) -> None:
        if args and isinstance(args[0], int):
            warnings.warn("the schema stands ahead of the number of clients: give this as clients=", DeprecationWarning, stacklevel=2)
            init(self, program, **dict(zip(("clients", "schema", "wait"), args)), **named)
        else:
            init(self, program, *args, **named)

    return in_order  # type: ignore[return-value]
