"""The counter at an address, for the desk of a journal."""
from __future__ import annotations

import contextlib
import datetime
import json
import logging
import os
import threading
from types import TracebackType
from typing import Any, Iterator, Mapping, Optional, Tuple, Type, TypeVar, Union

from .answers import (
    NUMBER_REUSED,
    Answer,
    batch_in,
    error_of,
    is_good,
    is_of_one_sending,
    reply_in,
    ticket_in,
    with_its,
)
from .archive import Archive
from .errors import (
    BadValue,
    Busy,
    Closed,
    CounterError,
    Fault,
    FileFailed,
    Forbidden,
    Implausible,
    KeyReused,
    Refused,
    StillOpen,
    printable,
)
from .journal import Journal
from .lookups import ADDRESS, NOT_GIVEN, PATIENCE, TIME_LIMIT, Lookups, Path, Trials, path_of
from .plausible import MOST_DAYS, days_before, doubts_of_bond, doubts_of_day, question
from .results import Abandoned, Added, Batch, Finished, Opened, Request, Result, Ticket, result_of
from .spelling import (
    MOST_BOOKMARK,
    MOST_NUMBER,
    MOST_ROWS,
    MOST_SERIALS,
    Bond,
    DayLike,
    Json,
    ListOf,
    Rates,
    customer_of,
    day_of,
    key_of,
    list_of,
    rate_row_of,
    seconds_of,
    whole,
)
from .typed import bond_of, serial_of
from .way import Deadline, Stop

LOG = logging.getLogger("ee_counter_client")

#: A look-up that names no customer and no ticket. It tells whether a counter is at the address.
TRIAL = "/batch/2005-05-01"
Kind = TypeVar("Kind")

#: What may have happened to a request that was given up.
OUTCOMES = {
    "/redeem": "the bonds may have been paid, on a ticket that nobody was shown; a new request for one of them is then refused as AlreadyPaid, which names the ticket",
    "/bonds": "the bonds may have been registered; the same rows in a new request are then counted as `same`",
    "/rates": "the rates may have been entered; the same rows in a new request are then counted as `same`",
    "/day/open": "the day may be open; a new request for it is then refused as DayOpen",
    "/day/close": "the day may be closed; its batch then says so",
}


class Counter(Lookups):
    """Sends requests to a counter, for the desk of a journal. Every request gets its one reply, whatever is stopped or lost.

    `journal` is the path of the journal, which is created if `desk` (0 to 999) is given. `address`, `certificate`, `key` and `ca` are
    as in Lookups. `timeout` is how many seconds a call may take (300; None without an end); `patience` is its earlier name; `time_limit` how many seconds one sending may take. `archive` names a file for every request and its reply.

    Threads may share it: their calls wait for one another. A process that is forked from this one may not use it (Closed).

    Raises BadValue, BadJournal, BadArchive, FileFailed or JournalInUse. Nothing is sent."""

    def __init__(
        self,
        journal: Path,
        address: str = ADDRESS,
        *,
        desk: Optional[int] = None,
        certificate: Optional[Path] = None,
        key: Optional[Path] = None,
        ca: Optional[Path] = None,
        timeout: Optional[float] = PATIENCE,
        patience: Optional[float] = NOT_GIVEN,
        time_limit: float = TIME_LIMIT,
        archive: Optional[Path] = None,
    ) -> None:
        super().__init__(
            address,
            certificate=certificate,
            key=key,
            ca=ca,
            timeout=timeout,
            patience=patience,
            time_limit=time_limit,
        )
        paths = path_of(journal, "a journal"), None if archive is None else path_of(
            archive, "an archive"
        )
        self._journal = Journal(paths[0], None if desk is None else whole(desk, 0, 999, "a desk"))
        try:
            self._archive = None if paths[1] is None else Archive(paths[1])
        except BaseException:
            self._journal.close()
            raise
        self._lock, self._process, self._is_closed = threading.RLock(), os.getpid(), False
        self._stop = Stop()

    def __enter__(self) -> "Counter":
        return self

    def __exit__(
        self,
        kind: Optional[Type[BaseException]],
        error: Optional[BaseException],
        trace: Optional[TracebackType],
    ) -> None:
        self.close()

    def __repr__(self) -> str:
        return f"<Counter of desk {self.desk}, journal {self._journal.path}>"

    def close(self, timeout: Optional[float] = None) -> None:
        """Gives the journal back. A second call does nothing. It waits for a call of another thread, which is stopped after `timeout` seconds: it raises NoReply or
        NoAnswer, and its request stays open."""
        seconds = -1 if timeout is None else seconds_of(timeout, "a timeout")
        if os.getpid() != self._process:
            return
        if not self._lock.acquire(timeout=seconds):
            self._is_closed = True
            self.stop()
            self._lock.acquire()
        try:
            self._is_closed = True
            self._journal.close()
            if self._archive is not None:
                self._archive.close()
        finally:
            self._lock.release()

    def stop(self) -> None:
        """Stops the call that another thread makes: it raises NoReply or NoAnswer, and its request stays open."""
        self._stop.set()

    @property
    def desk(self) -> int:
        """The desk of the journal."""
        return int(self._journal.record["desk"])

    @property
    def open_request(self) -> Optional[Request]:
        """The request that has no reply yet. None if there is none."""
        still = self._journal.settled()["open"]
        return None if still is None else self._journal.request_of(still)

    @property
    def last(self) -> Optional[Finished]:
        """The last request that got its reply, with that reply."""
        last = self._journal.settled()["last"]
        return None if last is None else Finished(self._journal.request_of(last), last["reply"])

    @property
    def bookmark(self) -> Any:
        """The `bookmark` of the last request that was done and had one."""
        return self._journal.settled()["bookmark"]

    @property
    def abandoned(self) -> Tuple[Abandoned, ...]:
        """The requests that were given up, the earliest first."""
        return tuple(
            abandoned_of(self._journal, kept) for kept in self._journal.record["abandoned"]
        )

    def find(self, key: str) -> Optional[Finished]:
        """Returns the request of a key, with its reply. None if no request with this key was done."""
        kept = self._journal.keys.kept.get(str(key_of(key)))
        return (
            None
            if kept is None
            else Finished(
                Request(self.desk, kept.number, kept.path, kept.fields, 0, key), kept.reply
            )
        )

    # Acts. Each returns the counter's reply, or raises Refused, Fault, Forbidden or NoReply, or an error of the set-up.

    def add_rates(
        self,
        rates: ListOf[Union[Rates, Mapping[str, Any]]],
        *,
        bookmark: Any = None,
        key: Optional[str] = None,
    ) -> Added:
        """Enters up to 500 rows of rates: Rates, or mappings with the keys `from`, `rate` and perhaps `extension`. Rates are in percent."""
        return self._act(
            "/rates",
            {"rates": [rate_row_of(row) for row in list_of(rates, MOST_ROWS, "rates")]},
            bookmark,
            key,
            Added,
        )

    def add_bonds(
        self,
        bonds: ListOf[Union[Bond, Mapping[str, Any]]],
        *,
        bookmark: Any = None,
        key: Optional[str] = None,
        even_so: bool = False,
    ) -> Added:
        """Registers up to 500 bonds: Bond, or mappings with the keys `serial`, `denom` (dollars), `issued`, `owner` and perhaps `coowner`.

        Raises Implausible for a letter that doesn't fit the denomination, or an issue month after 2011-12, unless `even_so`.
        """
        fields = {"bonds": [bond_of(bond) for bond in list_of(bonds, MOST_ROWS, "bonds")]}
        return self._act("/bonds", fields, bookmark, key, Added, is_questioned=not even_so)

    def open_day(
        self,
        day: DayLike,
        *,
        bookmark: Any = None,
        key: Optional[str] = None,
        even_so: bool = False,
    ) -> Opened:
        """Opens a day. Refused as DayOpen or DayNotLater.

        Raises Implausible if the day is more than seven days from today, or after the last one that was opened, unless `even_so`.
        """
        return self._act(
            "/day/open", {"day": day_of(day)}, bookmark, key, Opened, is_questioned=not even_so
        )

    def close_day(self, day: DayLike, *, bookmark: Any = None, key: Optional[str] = None) -> Batch:
        """Closes the open day, and returns its batch. Refused as NoOpenDay or DayIsOther."""
        return self._act("/day/close", {"day": day_of(day)}, bookmark, key, Batch)

    def redeem(
        self,
        day: DayLike,
        payee: int,
        serials: ListOf[str],
        *,
        bookmark: Any = None,
        key: Optional[str] = None,
    ) -> Ticket:
        """Pays up to 100 bonds to their owner or coowner on the open day: all of them, or none.

        With a `key` of the caller's own, the same call made again returns the same ticket, also in a later run. A refusal leaves the key free. Refused as AlreadyPaid (with its ticket), NotPayee,
        UnknownSerial, NotEligible, NotIssued, Repeated, NoOpenDay, DayIsOther or DayFull."""
        fields = {
            "day": day_of(day),
            "payee": customer_of(payee),
            "serials": [
                serial_of(serial) for serial in list_of(serials, MOST_SERIALS, "serial numbers")
            ],
        }
        return self._act("/redeem", fields, bookmark, key, Ticket)

    def finish(self) -> Optional[Result]:
        """Sends the open request until its reply has come, and returns it. None if no request is open."""
        with self._turn() as deadline:
            self._journal.mend()
            if self._journal.record["open"] is None:
                return None
            self._try_the_way(deadline)
            return self._settled(deadline)

    def abandon(self, reason: str) -> Optional[Abandoned]:
        """Gives up the open request, and writes that into the journal with the reason. None if no request is open.

        The request may have been done, or may yet be done by a copy that is on its way: `outcome` says what to look at. Its number isn't used again.
        """
        if not isinstance(reason, str) or not 1 <= len(reason) <= 500:
            raise BadValue("a reason is a text of 1 to 500 characters")
        with self._turn():
            self._journal.mend()
            still = self._journal.record["open"]
            if still is None:
                return None
            now = datetime.datetime.now(datetime.timezone.utc).isoformat(timespec="milliseconds")
            kept = {**still, "reason": reason, "time": now}
            self._journal.change(open=None, abandoned=[*self._journal.record["abandoned"], kept])
            given_up = abandoned_of(self._journal, kept)
            LOG.warning(
                "%s was given up (%s): %s", given_up.request, printable(reason), given_up.outcome
            )
            return given_up

    # The rules.

    @contextlib.contextmanager
    def _turn(self) -> Iterator[Deadline]:
        """The turn of one call, with its deadline. Calls of other threads wait."""
        deadline = Deadline(self.patience)
        self._test_is_open()
        left = deadline.left()
        if not self._lock.acquire(timeout=-1 if left is None else left):
            raise Busy(
                f"another thread used desk {self.desk} for {self.patience:g} seconds, and the patience is over"
            )
        try:
            self._test_is_open()
            self._stop = deadline.stop
            yield deadline
        except FileFailed as failure:
            raise self._as_open(failure)
        finally:
            self._lock.release()

    def _test_is_open(self) -> None:
        if self._is_closed:
            raise Closed("the counter was closed")
        if os.getpid() != self._process:
            raise Closed(
                f"the counter belongs to process {self._process}, and not to the one that was forked from it: open one of its own, on another journal"
            )

    def _act(
        self,
        path: str,
        fields: Json,
        bookmark: Any,
        key: Optional[str],
        kind: Type[Kind],
        is_questioned: bool = False,
    ) -> Kind:
        """Sends a new request, or the same one that is still open, until its reply has come. A new request that `is_questioned` has to be plausible."""
        key, bookmark = key_of(key), bookmark_of(bookmark)
        with self._turn() as deadline:
            self._journal.mend()
            result = self._kept(path, fields, key)
            if result is None:
                is_questioned = is_questioned and not self._is_open(path, fields, key)
                if is_questioned:
                    question(doubts_of(path, fields))
                self._finish_other(path, fields, key, deadline)
                self._try_the_way(deadline)
                if is_questioned and path == "/day/open":
                    self._question_gap(fields["day"], deadline)
                self._opened(path, fields, bookmark, key)
                result = self._settled(deadline)
            assert isinstance(result, kind)
            return result

    def _question_gap(self, day: str, deadline: Deadline) -> None:
        """Raises Implausible if none of the seven days before was closed, and the counter has a ticket: its last day is longer ago. No look-up names the last day."""
        is_near = any(
            self._asked_within(deadline, f"/batch/{before}", batch_in)
            for before in days_before(day)
        )
        if not is_near and self._asked_within(deadline, "/ticket/1", ticket_in) is not None:
            raise Implausible(
                [
                    f"{day} is more than {MOST_DAYS} days after the last day that was opened: none of the {MOST_DAYS} days before it has a batch"
                ]
            )

    def _kept(self, path: str, fields: Json, key: Optional[str]) -> Optional[Result]:
        """The result of a key whose request has its reply. None if there is none."""
        kept = None if key is None else self._journal.keys.kept.get(key)
        if kept is None or key is None:
            return None
        if (kept.path, kept.fields) != (path, fields):
            raise KeyReused(key, kept.number)
        return result_of(
            Request(self.desk, kept.number, kept.path, kept.fields, 0, key), kept.reply
        )

    def _is_open(self, path: str, fields: Json, key: Optional[str]) -> bool:
        """Whether the open request is this one."""
        still = self._journal.record["open"]
        return still is not None and (still["path"], still["fields"], still.get("key")) == (
            path,
            fields,
            key,
        )

    def _finish_other(
        self, path: str, fields: Json, key: Optional[str], deadline: Deadline
    ) -> None:
        """Finishes another open request that has a key, as an earlier run left it: its own call then finds its reply. StillOpen if it has none."""
        still = self._journal.record["open"]
        if still is None or self._is_open(path, fields, key):
            return
        request = self._journal.request_of(still)
        if request.key is None:
            raise StillOpen(f"{request} has no reply yet", request)
        if request.key == key:
            raise KeyReused(request.key, request.number)
        LOG.warning("%s has no reply yet, and is finished first", request)
        try:
            self._try_the_way(deadline)
            self._settled(deadline)
        except (Refused, Fault, Forbidden) as answer:
            LOG.warning("%s: %s", request, answer)

    def _opened(self, path: str, fields: Json, bookmark: Any, key: Optional[str]) -> None:
        """Writes a new request into the journal, unless it is open."""
        if self._journal.record["open"] is None:
            number = self._journal.record["next"]
            if number > MOST_NUMBER:
                raise CounterError(f"desk {self.desk} has no numbers left")
            self._journal.change(
                next=number + 1,
                open={
                    "number": number,
                    "step": 1,
                    "sent": 0,
                    "path": path,
                    "fields": fields,
                    "bookmark": bookmark,
                    "key": key,
                },
            )

    def _try_the_way(self, deadline: Deadline) -> None:
        """Before the first good exchange: asks for something that changes nothing. A wrong set-up ends the call before its request is in the journal. A counter that
        doesn't answer doesn't: the request is sent as often as the patience allows."""
        if not self._is_known:
            answer = self._exchanged(
                "GET", TRIAL, None, lambda text: with_its(batch_in(text), day=TRIAL[-10:]), deadline
            )
            if answer.setup is not None:
                raise self._as_open(answer.named(answer.setup))
            if not is_good(answer):
                LOG.info("the counter doesn't answer yet: %s", answer.met)
                if deadline.is_over():
                    trials = Trials(deadline)
                    trials.failed(answer)
                    raise trials.over(self.open_request)

    def _as_open(self, error: CounterError) -> CounterError:
        """The error, which says whether a request may have been done."""
        still = self._journal.record["open"]
        error.may_be_done = still is not None and still["sent"] > 0
        return error

    def _settled(self, deadline: Deadline) -> Result:
        """Sends what is open until its reply has come. NumberReused means that another request of this desk has the number: this one was never done under it,
        and continues under a higher one. A fault, or Forbidden, ends only a request that was sent once.
        """
        trials = Trials(deadline)
        while True:
            answer = self._sent_once(deadline)
            if answer.kind == "reply" or (
                answer.kind == "refused" and answer.value["code"] != NUMBER_REUSED
            ):
                return self._replied(answer)
            if answer.kind == "refused":
                self._renumber()
                continue
            if is_of_one_sending(answer) and self._journal.record["open"]["sent"] == 1:
                path = self._journal.record["open"]["path"]
                self._journal.drop()
                raise error_of(answer, path)
            if answer.setup is not None and self._ends(answer.setup):
                raise self._as_open(answer.named(answer.setup))
            trials.failed(answer)
            LOG.warning(
                "no reply: %s%s",
                trials.met,
                "; the request was sent before, and may have been done"
                if is_of_one_sending(answer)
                else "",
            )
            if not trials.pause():
                raise trials.over(self.open_request)

    def _sent_once(self, deadline: Deadline) -> Answer:
        if self._archive is not None and self._journal.record["open"]["sent"] == 0:
            self._archive.add(self.desk, self._journal.record["open"])
        sending = {**self._journal.record["open"], "sent": self._journal.record["open"]["sent"] + 1}
        self._journal.change(open=sending)
        path, fields = sending["path"], sending["fields"]
        LOG.debug(
            "sending request %d of desk %d (%s), for the %d. time",
            sending["number"],
            self.desk,
            path,
            sending["sent"],
        )
        return self._exchanged(
            "POST",
            path,
            {"desk": self.desk, "number": sending["number"], **fields},
            lambda text: reply_in(path, fields, text),
            deadline,
        )

    def _renumber(self) -> None:
        request = self._journal.record["open"]
        number = request["number"] + request["step"]
        if number > MOST_NUMBER:
            raise CounterError(f"desk {self.desk} has no numbers left")
        self._journal.change(
            next=number + 1,
            open={**request, "number": number, "step": request["step"] * 2, "sent": 0},
        )
        LOG.warning(
            "number %d was used by another request of desk %d; continuing with %d",
            request["number"],
            self.desk,
            number,
        )

    def _replied(self, answer: Answer) -> Result:
        """Keeps the reply, and unless it is a refusal the bookmark, in one step. The line of a key is on the disk before. A refusal changed nothing, so its key is free."""
        request = self._journal.record["open"]
        if request["sent"] > 1:
            done = "it was done once" if answer.kind == "reply" else "no attempt changed anything"
            LOG.warning(
                "request %d was sent %d times; %s", request["number"], request["sent"], done
            )
        if self._archive is not None:
            self._archive.add(self.desk, request, answer.value)
        if answer.kind == "reply" and request.get("key") is not None:
            self._journal.keys.add(request["key"], request, answer.value)
        self._journal.change(**self._journal.with_reply(request, answer.value))
        try:
            return result_of(self._journal.request_of(request), answer.value)
        except Refused as refusal:
            raise answer.named(refusal)


def doubts_of(path: str, fields: Json) -> Iterator[str]:
    """Yields what is implausible about a request, as far as its fields tell."""
    for bond in fields.get("bonds", ()):
        yield from doubts_of_bond(bond)
    if path == "/day/open":
        yield from doubts_of_day(fields["day"])


def bookmark_of(value: Any) -> Any:
    """Reads a bookmark as the journal gives it back: what JSON keeps, of 10,000 characters at most."""
    try:
        text = json.dumps(value, separators=(",", ":"), allow_nan=False)
    except (TypeError, ValueError, RecursionError):
        raise BadValue(f"a bookmark is a value that JSON keeps, and not {value!r}") from None
    if len(text) > MOST_BOOKMARK:
        raise BadValue(f"a bookmark has at most {MOST_BOOKMARK} characters of JSON")
    return json.loads(text)


def abandoned_of(journal: Journal, kept: Json) -> Abandoned:
    """The request that was given up, of the journal's record of it."""
    may_be_done = kept["sent"] > 0
    outcome = (
        OUTCOMES[kept["path"]]
        if may_be_done
        else f"nothing was done: the request was never sent under number {kept['number']}"
    )
    return Abandoned(
        journal.request_of(kept),
        kept["reason"],
        datetime.datetime.fromisoformat(kept["time"]),
        may_be_done,
        outcome,
    )
