"""How a command becomes a method of a connection: what waits for its reply answers the value, what sends ahead an `Answer`, and what is awaited
an awaitable of it. Parameters and documentation are the call's. It knows no command."""
from __future__ import annotations

import functools
import inspect
from typing import TYPE_CHECKING, Any, Awaitable, Callable, Generic, TypeVar, overload

if TYPE_CHECKING:
    from typing_extensions import Concatenate, ParamSpec

    from mi_client.aio import AsyncDatabase
    from mi_client.direct import Calls
    from mi_client.pipeline import Answer, Pipeline
    from mi_client.request import Request

    P = ParamSpec("P")
    T = TypeVar("T")

    class Called(Generic[P, T]):
        """A command as a method, by the kind of connection."""

        @overload
        def __get__(self, connection: Calls, kind: Any = ...) -> Callable[P, T]: ...
        @overload
        def __get__(self, connection: Pipeline, kind: Any = ...) -> Callable[P, Answer[T]]: ...
        @overload
        def __get__(self, connection: AsyncDatabase, kind: Any = ...) -> Callable[P, Awaitable[T]]: ...
        @overload
        def __get__(self, connection: None, kind: Any = ...) -> Callable[Concatenate[Any, P], Any]: ...
        def __get__(self, connection: Any, kind: Any = ...) -> Any: ...

    def called(build: Callable[P, Request[T]]) -> Called[P, T]: ...
else:

    def called(build: Callable[..., Any]) -> Callable[..., Any]:
        """The method that hands the request of a call to its connection's `send`."""

        @functools.wraps(build)
        def call(self: Any, /, *args: Any, **members: Any) -> Any:
            return self.send(build(*args, **members))

        made = inspect.signature(build)
        first = inspect.Parameter("self", inspect.Parameter.POSITIONAL_ONLY)
        call.__signature__ = made.replace(parameters=[first, *made.parameters.values()])
        return call
