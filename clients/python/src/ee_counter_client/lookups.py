"""Look-ups at the counter, which need no journal and no desk; and what they share with the acts of a desk."""
from __future__ import annotations

import contextlib
import logging
import os
import random
from typing import Any, Iterator, Optional, Union

from .answers import (
    NOT_FOUND,
    Answer,
    Reader,
    batch_in,
    compact,
    error_of,
    is_good,
    is_of_one_sending,
    row_in,
    ticket_in,
    with_its,
)
from .errors import BadValue, CertificateRefused, CounterError, NoAnswer, NoReply, refusal_of, shown
from .results import Batch, Request, Row, Sheet, Ticket, batch_of, row_of, ticket_of
from .sheets import sheet_in
from .spelling import (
    MOST_NUMBER,
    DayLike,
    Json,
    MonthLike,
    customer_of,
    day_of,
    seconds_of,
    whole,
)
from .typed import denom_of, issue_of, month_of
from .version import __version__
from .way import Deadline, Way

LOG = logging.getLogger("ee_counter_client")

ADDRESS = "http://127.0.0.1:8377"
#: Seconds between one sending and the next; the last is repeated. Each is shortened by chance, to half of it at most.
PAUSES = (0.1, 0.2, 0.5, 1, 2, 4, 8, 15)
#: Seconds that one sending may take. Longer than the 30 seconds for which another client can hold the counter.
TIME_LIMIT = 40.0
#: Seconds that a call may take, unless its caller says otherwise.
PATIENCE = 300.0
#: Stands for a number that wasn't given.
NOT_GIVEN = float("nan")
Path = Union[str, "os.PathLike[str]"]


class Trials:
    """The sendings of one call: how many failed, what was met last, and the pauses between them, which grow."""

    def __init__(self, deadline: Deadline) -> None:
        self.deadline, self.failures, self.met = deadline, 0, "nothing was sent"
        self.answer: Optional[Answer] = None

    def failed(self, answer: Answer) -> None:
        """Counts a sending that failed."""
        self.failures, self.answer = self.failures + 1, answer
        self.met = answer.met or f"{shown(answer.value['fault'])} (code {answer.value['code']})"

    def pause(self) -> bool:
        """Waits after a sending that failed. Returns whether there is time for another one."""
        return self.wait(PAUSES[min(self.failures, len(PAUSES)) - 1] * random.uniform(0.5, 1))

    def wait(self, seconds: float) -> bool:
        """Waits, or until the deadline if that comes before."""
        left = self.deadline.left()
        is_over = left is not None and left <= seconds
        is_stopped = self.deadline.stop.event.wait(
            left if left is not None and is_over else seconds
        )
        return not (is_over or is_stopped)

    def over(self, request: Optional[Request]) -> CounterError:
        """The error of a call whose time is over, with its open request if it has one."""
        why = "the call was stopped"
        if not self.deadline.stop.is_set():
            why = f"no reply within {self.deadline.seconds:g} seconds, and the patience is over"
        text = f"{why}: {self.met}"
        error = NoAnswer(text) if request is None else NoReply(text, request)
        return error if self.answer is None else self.answer.named(error)


class Lookups:
    """Looks things up at a counter: sheets, tickets, batches and values. It changes nothing, has no files, and takes no desk.

    `address` is as http://127.0.0.1:8377, or https://.. with `certificate` and `key`, the files by which the user signs in (the certificate's file may have its key
    too), and `ca`, a file of certificates that are trusted instead of the system's. `timeout`, or by its earlier name `patience`, is how many seconds a call may take, None without an end; `time_limit` how many seconds one sending may take. Threads may share it, and look things up at once.

    Raises BadValue. Nothing is sent."""

    def __init__(
        self,
        address: str = ADDRESS,
        *,
        certificate: Optional[Path] = None,
        key: Optional[Path] = None,
        ca: Optional[Path] = None,
        timeout: Optional[float] = PATIENCE,
        patience: Optional[float] = NOT_GIVEN,
        time_limit: float = TIME_LIMIT,
    ) -> None:
        #: How many seconds a call may take. None without an end.
        self.patience = patience_of(timeout, patience)
        self.time_limit = seconds_of(time_limit, "a time limit")
        if self.time_limit == 0:
            raise BadValue("a time limit is more than 0 seconds")
        self._way = Way(
            address,
            None if certificate is None else path_of(certificate, "a certificate"),
            None if key is None else path_of(key, "a key"),
            None if ca is None else path_of(ca, "a list of trusted certificates"),
            f"ee_counter_client/{__version__}",
        )
        self._is_known = False

    def inventory(self, customer: int, month: MonthLike) -> Sheet:
        """Returns the sheet of the unpaid bonds that a customer owns, at their values in a month."""
        found = self._asked(f"/inventory/{customer_of(customer)}/{month_of(month)}", sheet_in)
        assert isinstance(found, Sheet)
        return found

    def ticket(self, number: int) -> Optional[Ticket]:
        """Returns a ticket by its number. None if there is none."""
        wanted = whole(number, 1, MOST_NUMBER, "a ticket")
        found = self._asked(
            f"/ticket/{wanted}", lambda text: with_its(ticket_in(text), ticket=wanted)
        )
        return None if found is None else ticket_of(found, compact(found))

    def batch(self, day: DayLike) -> Optional[Batch]:
        """Returns the batch of a closed day. None if the day isn't closed."""
        wanted = day_of(day)
        found = self._asked(f"/batch/{wanted}", lambda text: with_its(batch_in(text), day=wanted))
        return None if found is None else batch_of(found, compact(found))

    def value(self, denom: int, issued: MonthLike, month: MonthLike) -> Row:
        """Returns the row of a bond that isn't registered, in a month. `denom` is in dollars. Refused as NoRate."""
        wanted = {"denom": denom_of(denom), "issued": issue_of(issued)}
        found = self._asked(
            f"/value/{wanted['denom']}/{wanted['issued']}/{month_of(month)}",
            lambda text: with_its(row_in(text), **wanted),
        )
        return row_of(found, compact(found))

    @contextlib.contextmanager
    def _turn(self) -> Iterator[Deadline]:
        """One call, with its deadline."""
        yield Deadline(self.patience)

    def _exchanged(
        self, method: str, path: str, value: Optional[Json], read: Reader, deadline: Deadline
    ) -> Answer:
        answer = self._way.exchange(method, path, value, read, deadline.within(self.time_limit))
        self._is_known = self._is_known or is_good(answer)
        return answer

    def _ends(self, error: CounterError) -> bool:
        """Whether an error of the set-up ends a call: before the first good exchange, and at any time if the certificate isn't valid."""
        return not self._is_known or isinstance(error, CertificateRefused)

    def _asked(self, path: str, read: Reader) -> Any:
        """Asks until an answer has come. None if there is no such thing."""
        with self._turn() as deadline:
            return self._asked_within(deadline, path, read)

    def _asked_within(self, deadline: Deadline, path: str, read: Reader) -> Any:
        """As `_asked`, in the turn of a call."""
        trials = Trials(deadline)
        while True:
            answer = self._exchanged("GET", path, None, read, deadline)
            if answer.kind == "reply":
                return answer.value
            if answer.kind == "refused":
                raise answer.named(refusal_of(answer.value))
            if answer.kind == "fault" and answer.value["code"] == NOT_FOUND:
                return None
            if is_of_one_sending(answer):
                raise error_of(answer, path)
            if answer.setup is not None and self._ends(answer.setup):
                raise answer.named(answer.setup)
            trials.failed(answer)
            LOG.warning("no reply: %s", trials.met)
            if not trials.pause():
                raise trials.over(None)


def patience_of(timeout: Optional[float], patience: Optional[float]) -> Optional[float]:
    """Reads the seconds of a call: `timeout`, or `patience`, its earlier name."""
    name, seconds = ("a timeout", timeout) if patience is NOT_GIVEN else ("patience", patience)
    if patience is not NOT_GIVEN and timeout is not PATIENCE:
        raise BadValue("timeout and patience are two names of one number: give one of them")
    return None if seconds is None else seconds_of(seconds, name)


def path_of(value: object, name: str) -> str:
    """Reads the path of a file."""
    try:
        path = os.fspath(value)  # type: ignore[call-overload]
    except TypeError:
        path = None
    if not isinstance(path, str) or not path or "\0" in path:
        raise BadValue(f"{name} is the path of a file, and not {value!r}")
    return path
