"""A Counter for asyncio: its calls are made in a thread, one after the other, and awaited."""
from __future__ import annotations

import asyncio
import concurrent.futures
import functools
from types import TracebackType
from typing import TYPE_CHECKING, Any, Callable, Coroutine, Optional, Tuple, Type, TypeVar

from .counter import Counter
from .errors import Closed
from .files import register
from .lookups import ADDRESS, PATIENCE, TIME_LIMIT, Path
from .results import Abandoned, Finished, Request
from .way import STOP, Stop

if TYPE_CHECKING:
    from typing_extensions import Concatenate, ParamSpec

    Given = ParamSpec("Given")
Kind = TypeVar("Kind")


def awaited(
    call: "Callable[Concatenate[Counter, Given], Kind]",
) -> "Callable[Concatenate[AsyncCounter, Given], Coroutine[Any, Any, Kind]]":
    """The same call, which a task awaits."""

    @functools.wraps(call)
    async def made(self: AsyncCounter, /, *given: "Given.args", **named: "Given.kwargs") -> Kind:
        return await self._made(functools.partial(call, self._counter, *given, **named))

    return made


class AsyncCounter:
    """A Counter whose calls are awaited. Its journal, rules and errors are those of a Counter, and so are its options; they are read when it is made.

    Tasks may share it: their calls wait for one another. If a task is cancelled, as by asyncio.wait_for, its call is stopped, and its request may stay open in the journal: the same call with its `key`
    then gets its reply. `async with` closes it; after an error or a cancellation it stops what is under way.
    """

    def __init__(
        self,
        journal: Path,
        address: str = ADDRESS,
        *,
        desk: Optional[int] = None,
        certificate: Optional[Path] = None,
        key: Optional[Path] = None,
        ca: Optional[Path] = None,
        timeout: Optional[float] = PATIENCE,
        time_limit: float = TIME_LIMIT,
        archive: Optional[Path] = None,
    ) -> None:
        self._counter = Counter(
            journal,
            address,
            desk=desk,
            certificate=certificate,
            key=key,
            ca=ca,
            timeout=timeout,
            time_limit=time_limit,
            archive=archive,
        )
        self._thread = concurrent.futures.ThreadPoolExecutor(1, f"desk{self._counter.desk}")

    async def __aenter__(self) -> AsyncCounter:
        return self

    async def __aexit__(
        self,
        kind: Optional[Type[BaseException]],
        error: Optional[BaseException],
        trace: Optional[TracebackType],
    ) -> None:
        await self.close(None if kind is None else 0)

    def __repr__(self) -> str:
        return f"<Async{repr(self._counter)[1:]}"

    async def close(self, timeout: Optional[float] = None) -> None:
        """Gives the journal back. A second call does nothing. A call of another task has `timeout` seconds to end, and is stopped then."""
        loop = asyncio.get_running_loop()
        closing = loop.run_in_executor(None, self._counter.close, timeout)
        try:
            await asyncio.shield(closing)
        except asyncio.CancelledError:
            self._counter.stop()
            await asyncio.wait([closing])
            raise
        self._thread.shutdown(wait=False)

    async def _made(self, call: Callable[[], Kind]) -> Kind:
        stop = Stop()

        def called() -> Kind:
            STOP.set(stop)
            return call()

        try:
            submitted = self._thread.submit(called)
        except RuntimeError:
            raise Closed("the counter was closed") from None
        result = asyncio.wrap_future(submitted)
        try:
            return await asyncio.shield(result)
        except asyncio.CancelledError:
            if not submitted.cancel():
                stop.set()
                await asyncio.wait([result])
            raise

    @property
    def desk(self) -> int:
        """The desk of the journal."""
        return self._counter.desk

    @property
    def open_request(self) -> Optional[Request]:
        """The request that has no reply yet. None if there is none."""
        return self._counter.open_request

    @property
    def last(self) -> Optional[Finished]:
        """The last request that got its reply, with that reply."""
        return self._counter.last

    @property
    def bookmark(self) -> Any:
        """The `bookmark` of the last request that was done and had one."""
        return self._counter.bookmark

    @property
    def abandoned(self) -> Tuple[Abandoned, ...]:
        """The requests that were given up, the earliest first."""
        return self._counter.abandoned

    def find(self, key: str) -> Optional[Finished]:
        """Returns the request of a key, with its reply. None if no request with this key was done."""
        return self._counter.find(key)

    add_rates = awaited(Counter.add_rates)
    add_bonds = awaited(Counter.add_bonds)
    open_day = awaited(Counter.open_day)
    close_day = awaited(Counter.close_day)
    redeem = awaited(Counter.redeem)
    finish = awaited(Counter.finish)
    abandon = awaited(Counter.abandon)
    register = awaited(register)
    inventory = awaited(Counter.inventory)
    ticket = awaited(Counter.ticket)
    batch = awaited(Counter.batch)
    value = awaited(Counter.value)
