"""What calls return: frozen classes, with money and rates as Decimal, days as dates, months as Month, and numbers as int."""
from __future__ import annotations

import datetime
from dataclasses import dataclass, field
from decimal import Decimal
from typing import Any, Mapping, Optional, Tuple, Union

from .errors import refusal_of
from .spelling import Json, Month


@dataclass(frozen=True)
class Request:
    """A request as the journal keeps it: its desk and number, the path and fields that are sent, how often it was sent, and the caller's own key and bookmark."""

    desk: int
    number: int
    path: str
    fields: Mapping[str, Any]
    sent: int
    key: Optional[str] = None
    bookmark: Any = None

    def __str__(self) -> str:
        return f"request {self.number} of desk {self.desk} ({self.path})"


@dataclass(frozen=True)
class Line:
    """One bond on a ticket, with what was paid for it, in dollars."""

    serial: str
    paid: Decimal


@dataclass(frozen=True)
class Ticket:
    """One payment to one payee. `total` is the sum of its lines, in dollars; `number` is that of the ticket."""

    number: int
    day: datetime.date
    payee: int
    lines: Tuple[Line, ...]
    total: Decimal
    #: The counter's own JSON text.
    text: str = field(default="", repr=False, compare=False)
    #: The request that this is the reply to. None for a look-up.
    request: Optional[Request] = field(default=None, repr=False, compare=False)


@dataclass(frozen=True)
class Batch:
    """The sums of a closed day: how many tickets and bonds, and their total in dollars."""

    day: datetime.date
    tickets: int
    bonds: int
    total: Decimal
    text: str = field(default="", repr=False, compare=False)
    request: Optional[Request] = field(default=None, repr=False, compare=False)


@dataclass(frozen=True)
class Opened:
    """The day that was opened."""

    day: datetime.date
    text: str = field(default="", repr=False, compare=False)
    request: Optional[Request] = field(default=None, repr=False, compare=False)


@dataclass(frozen=True)
class Added:
    """How many rows were new, and how many the counter had already with the same content."""

    new: int
    same: int
    text: str = field(default="", repr=False, compare=False)
    request: Optional[Request] = field(default=None, repr=False, compare=False)


@dataclass(frozen=True)
class Row:
    """The row of a bond in a month, as on a sheet. Money is in dollars, `rate` in percent a year.

    `next` is the month of the next accrual, `final` that of final maturity. `note` is NI (not issued yet), NE (not eligible: younger than 12 months), P5 (younger than
    five years: without the last three months of interest), MA (matured) or empty. `serial` is None if the bond isn't registered. What is empty on a sheet is None.
    """

    serial: Optional[str]
    denom: int
    issued: Month
    next: Optional[Month]
    final: Optional[Month]
    price: Decimal
    interest: Decimal
    rate: Optional[Decimal]
    value: Decimal
    note: str
    text: str = field(default="", repr=False, compare=False)

    @property
    def is_payable(self) -> bool:
        """Whether the bond can be paid in that month."""
        return self.note not in ("NI", "NE")


@dataclass(frozen=True)
class Sheet:
    """The unpaid bonds that a customer owns, in a month, with their sums in dollars. `text` is the sheet as the counter prints it."""

    rows: Tuple[Row, ...]
    price: Decimal
    interest: Decimal
    value: Decimal
    text: str = field(default="", repr=False, compare=False)


@dataclass(frozen=True)
class Paid:
    """A bond that was paid, with its interest: its value without its price. Money is in dollars. None stands for what isn't known."""

    day: datetime.date
    ticket: int
    payee: int
    serial: str
    denom: Optional[int]
    issued: Optional[Month]
    price: Optional[Decimal]
    interest: Optional[Decimal]
    value: Decimal


@dataclass(frozen=True)
class Interest:
    """The interest of paid bonds, with their sums in dollars. `text` is the CSV. `missing` is empty: otherwise it comes with Incomplete."""

    rows: Tuple[Paid, ...]
    price: Decimal
    interest: Decimal
    value: Decimal
    missing: Tuple[str, ...] = ()
    text: str = field(default="", repr=False, compare=False)


Result = Union[Ticket, Batch, Opened, Added]


@dataclass(frozen=True)
class Finished:
    """The last request that got its reply, with the counter's JSON object."""

    request: Request
    reply: Mapping[str, Any]

    def result(self) -> Result:
        """Returns the result of the request, or raises its refusal."""
        return result_of(self.request, dict(self.reply))


@dataclass(frozen=True)
class Abandoned:
    """A request that its caller gave up, as the journal keeps it. `time` is UTC; `may_be_done` is false only if it was never sent under its number; `outcome` says what may have happened."""

    request: Request
    reason: str
    time: datetime.datetime
    may_be_done: bool
    outcome: str


def money(text: str) -> Decimal:
    """Reads printed dollars and cents."""
    return Decimal(text)


def day_in(text: str) -> datetime.date:
    """Reads a printed day."""
    return datetime.date.fromisoformat(text)


def month_in(text: str) -> Month:
    """Reads a printed month, YYYY-MM or MM/YYYY."""
    first, last = text.replace("/", "-").split("-")
    return Month(int(first), int(last)) if len(first) == 4 else Month(int(last), int(first))


def ticket_of(reply: Json, text: str, request: Optional[Request] = None) -> Ticket:
    """Makes a Ticket of the counter's object."""
    lines = tuple(Line(line["serial"], money(line["paid"])) for line in reply["lines"])
    return Ticket(
        reply["ticket"],
        day_in(reply["day"]),
        reply["payee"],
        lines,
        money(reply["total"]),
        text,
        request,
    )


def batch_of(reply: Json, text: str, request: Optional[Request] = None) -> Batch:
    """Makes a Batch of the counter's object."""
    return Batch(
        day_in(reply["day"]), reply["tickets"], reply["bonds"], money(reply["total"]), text, request
    )


def row_of(cells: Json, text: str = "") -> Row:
    """Makes a Row of the cells of a sheet or of the counter's object."""
    return Row(
        serial=cells.get("serial"),
        denom=int(cells["denom"]),
        issued=month_in(cells["issued"]),
        next=month_in(cells["next"]) if cells["next"] else None,
        final=month_in(cells["final"]) if cells["final"] else None,
        price=money(cells["price"]),
        interest=money(cells["interest"]),
        rate=Decimal(cells["rate"].rstrip("%")) if cells["rate"] else None,
        value=money(cells["value"]),
        note=cells["note"],
        text=text,
    )


def result_of(request: Request, reply: Json) -> Result:
    """Makes the result of an act of its reply, or raises its refusal."""
    from .answers import compact

    if "refused" in reply:
        raise refusal_of(reply, request)
    text = compact(reply)
    if request.path == "/redeem":
        return ticket_of(reply, text, request)
    if request.path == "/day/close":
        return batch_of(reply, text, request)
    if request.path == "/day/open":
        return Opened(day_in(reply["opened"]), text, request)
    return Added(reply["new"], reply["same"], text, request)
