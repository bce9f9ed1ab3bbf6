"""Tasks that are ended together."""
from __future__ import annotations

import asyncio
from typing import Any, Coroutine, Sequence


async def first_ended(coroutines: Sequence[Coroutine[Any, Any, None]], patience: float = 0.2) -> None:
    """Runs all until the first has ended, raises what that raised, and leaves none behind."""
    tasks = [asyncio.ensure_future(it) for it in coroutines]
    try:
        done, _ = await asyncio.wait(tasks, return_when=asyncio.FIRST_COMPLETED)
        for it in done:
            it.result()
    finally:
        await end(tasks, patience)


async def end(tasks: "Sequence[asyncio.Task[Any]]", patience: float = 0.2) -> None:
    """Cancels tasks until they have ended. Once isn't enough: up to Python 3.11 a `wait_for` whose answer comes at the same moment passes
    a cancellation over. What they raise is of no interest any more."""
    left = [it for it in tasks if not it.done()]
    while left:
        for it in left:
            it.cancel()
        await asyncio.wait(left, timeout=patience)
        left = [it for it in left if not it.done()]
    await asyncio.gather(*tasks, return_exceptions=True)
