"""Several desks for parallel workers: each has a journal of its own, and one request at a time."""
from __future__ import annotations

import contextlib
import logging
import os
import threading
from types import TracebackType
from typing import (
    AbstractSet,
    Any,
    Dict,
    Iterable,
    Iterator,
    List,
    Mapping,
    Optional,
    Tuple,
    Type,
    Union,
)

from .counter import Counter
from .errors import BadValue, Busy, Closed, CounterError, Refused
from .lookups import ADDRESS, NOT_GIVEN, PATIENCE, TIME_LIMIT, Path, path_of, patience_of
from .results import Added, Batch, Finished, Opened, Request, Row, Sheet, Ticket
from .spelling import Bond, DayLike, ListOf, MonthLike, Rates, key_of, list_of, seconds_of, whole
from .way import Deadline

LOG = logging.getLogger("ee_counter_client")
MOST_DESKS = 1000


class Pool:
    """Several desks of one process. Its calls are those of a Counter; each takes a desk that is free, and waits if none is.

    `folder` gets a journal for every desk, desk10.journal and so on. The other options are those of a Counter.
    With `archive=True` every desk has an archive beside its journal. Let no other program use these desks.

    A call with a `key` goes to the desk that knows the key, whichever worker makes it. A request that was left open by an earlier run, or by a call whose patience
    ended, is finished before its desk takes another one. So give every request a key: the same call then finds its own reply.

    Raises the errors of a Counter; JournalInUse if another process has one of the journals."""

    def __init__(
        self,
        folder: Path,
        address: str = ADDRESS,
        *,
        desks: Iterable[int],
        archive: bool = False,
        certificate: Optional[Path] = None,
        key: Optional[Path] = None,
        ca: Optional[Path] = None,
        timeout: Optional[float] = PATIENCE,
        patience: Optional[float] = NOT_GIVEN,
        time_limit: float = TIME_LIMIT,
    ) -> None:
        path = path_of(folder, "a folder")
        listed = sorted(desks) if isinstance(desks, AbstractSet) else desks
        numbers = [whole(desk, 0, 999, "a desk") for desk in list_of(listed, MOST_DESKS, "desks")]
        if len(set(numbers)) != len(numbers):
            raise BadValue(f"every desk is named once, and not {numbers!r}")
        self._patience = patience_of(timeout, patience)
        self._counters: List[Counter] = []
        self._changed, self._taken, self._is_closed = threading.Condition(), set[int](), False
        self._keys: Dict[str, Counter] = {}
        try:
            for desk in numbers:
                journal = os.path.join(path, f"desk{desk}.journal")
                beside = os.path.join(path, f"desk{desk}.archive") if archive else None
                self._counters.append(
                    Counter(
                        journal,
                        address,
                        desk=desk,
                        certificate=certificate,
                        key=key,
                        ca=ca,
                        timeout=timeout,
                        patience=patience,
                        time_limit=time_limit,
                        archive=beside,
                    )
                )
        except BaseException:
            self.close()
            raise

    def __enter__(self) -> "Pool":
        return self

    def __exit__(
        self,
        kind: Optional[Type[BaseException]],
        error: Optional[BaseException],
        trace: Optional[TracebackType],
    ) -> None:
        self.close()

    def close(self, timeout: Optional[float] = None) -> None:
        """Gives the journals back, each once its call has ended, or was stopped after `timeout` seconds in all. A second call does nothing."""
        deadline = Deadline(None if timeout is None else seconds_of(timeout, "a timeout"))
        with self._changed:
            self._is_closed = True
            self._changed.notify_all()
        for counter in self._counters:
            counter.close(deadline.left())

    @property
    def desks(self) -> Tuple[int, ...]:
        """The desks of this pool."""
        return tuple(counter.desk for counter in self._counters)

    @property
    def open_requests(self) -> Tuple[Request, ...]:
        """The requests that have no reply yet."""
        return tuple(
            request for counter in self._counters if (request := counter.open_request) is not None
        )

    def find(self, key: str) -> Optional[Finished]:
        """Returns the request of a key, with its reply. None if no request with this key was done at any of these desks."""
        return next(
            (found for counter in self._counters if (found := counter.find(key)) is not None), None
        )

    @contextlib.contextmanager
    def desk(self, key: Optional[str] = None) -> Iterator[Counter]:
        """Takes a desk for several calls: the one that knows the key, or else a free one. Raises Busy if none is free within the patience."""
        key, deadline = key_of(key), Deadline(self._patience)
        counter = self._take(key, deadline)
        try:
            request = counter.open_request
            if request is not None and (key is None or request.key != key):
                self._finish(counter, request)
            yield counter
        finally:
            self._give_back(counter, key)

    def _take(self, key: Optional[str], deadline: Deadline) -> Counter:
        with self._changed:
            while True:
                if self._is_closed:
                    raise Closed("the pool was closed")
                counter = self._free(key)
                if counter is not None:
                    self._taken.add(counter.desk)
                    if key is not None:
                        self._keys[key] = counter
                    return counter
                if not self._changed.wait(deadline.left()):
                    raise Busy(f"no desk of the pool was free within {self._patience:g} seconds")

    def _free(self, key: Optional[str]) -> Optional[Counter]:
        """A free desk: the one that knows the key, one without an open request, or any other. None if it is taken, or all are."""
        known = self._knowing(key) if key is not None else None
        if known is not None:
            return None if known.desk in self._taken else known
        free = [counter for counter in self._counters if counter.desk not in self._taken]
        return next(
            (counter for counter in free if counter.open_request is None), free[0] if free else None
        )

    def _knowing(self, key: str) -> Optional[Counter]:
        if key in self._keys:
            return self._keys[key]
        for counter in self._counters:
            request = counter.open_request
            if counter.find(key) is not None or (request is not None and request.key == key):
                return counter
        return None

    def _finish(self, counter: Counter, request: Request) -> None:
        """Finishes what an earlier call left open at a desk. Its reply is kept under its key, or as the desk's last one."""
        LOG.warning("%s has no reply yet, and is finished first", request)
        try:
            counter.finish()
        except Refused as refusal:
            LOG.warning("%s was refused: %s", request, refusal)
        except CounterError as failure:
            if counter.open_request is None:
                return
            raise Busy(
                f"desk {counter.desk} can't take another request: {request} has no reply yet ({failure})"
            ) from failure

    def _give_back(self, counter: Counter, key: Optional[str]) -> None:
        with self._changed:
            self._taken.discard(counter.desk)
            if key is not None:
                self._keys.pop(key, None)
            self._changed.notify_all()

    @contextlib.contextmanager
    def _for_look_up(self) -> Iterator[Counter]:
        """Takes a free desk, without finishing what is open there."""
        counter = self._take(None, Deadline(self._patience))
        try:
            yield counter
        finally:
            self._give_back(counter, None)

    # The calls of a Counter.

    def add_rates(
        self, rates: ListOf[Union[Rates, Mapping[str, Any]]], *, key: Optional[str] = None
    ) -> Added:
        """Enters up to 500 rows of rates, as Counter.add_rates does."""
        with self.desk(key) as counter:
            return counter.add_rates(rates, key=key)

    def add_bonds(
        self,
        bonds: ListOf[Union[Bond, Mapping[str, Any]]],
        *,
        key: Optional[str] = None,
        even_so: bool = False,
    ) -> Added:
        """Registers up to 500 bonds, as Counter.add_bonds does."""
        with self.desk(key) as counter:
            return counter.add_bonds(bonds, key=key, even_so=even_so)

    def open_day(self, day: DayLike, *, key: Optional[str] = None, even_so: bool = False) -> Opened:
        """Opens a day, as Counter.open_day does."""
        with self.desk(key) as counter:
            return counter.open_day(day, key=key, even_so=even_so)

    def close_day(self, day: DayLike, *, key: Optional[str] = None) -> Batch:
        """Closes the open day, as Counter.close_day does."""
        with self.desk(key) as counter:
            return counter.close_day(day, key=key)

    def redeem(
        self, day: DayLike, payee: int, serials: ListOf[str], *, key: Optional[str] = None
    ) -> Ticket:
        """Pays bonds, as Counter.redeem does."""
        with self.desk(key) as counter:
            return counter.redeem(day, payee, serials, key=key)

    def inventory(self, customer: int, month: MonthLike) -> Sheet:
        """Returns a sheet, as Counter.inventory does."""
        with self._for_look_up() as counter:
            return counter.inventory(customer, month)

    def ticket(self, number: int) -> Optional[Ticket]:
        """Returns a ticket, as Counter.ticket does."""
        with self._for_look_up() as counter:
            return counter.ticket(number)

    def batch(self, day: DayLike) -> Optional[Batch]:
        """Returns a batch, as Counter.batch does."""
        with self._for_look_up() as counter:
            return counter.batch(day)

    def value(self, denom: int, issued: MonthLike, month: MonthLike) -> Row:
        """Returns the row of a bond that isn't registered, as Counter.value does."""
        with self._for_look_up() as counter:
            return counter.value(denom, issued, month)
