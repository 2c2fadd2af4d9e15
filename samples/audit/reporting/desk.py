"""The desk by its rules, as docs/MODEL.md and docs/STATUSES.md tell them: what an act is answered at
given books, and what an accepted act does to them.

`decide` changes nothing. `take` does what an accepted reply says. Both are apart, so that a replay can go
on from a reply that differs."""

from typing import Container, Hashable, Sequence

from .texts import (
    MONTHS,
    RATES,
    REFUSALS,
    Act,
    BondRow,
    RateRow,
    RatesAct,
    RedeemAct,
    Reply,
    UnreadableAct,
    batch_reply,
    cents_in,
    day_in,
    month_of_day,
    month_text,
    ticket_reply,
)
from .values import HOLD, may_be_unsettled, payable, rate_period

MOST_ROWS, MOST_SERIALS, MOST_TICKETS = 500, 100, 1000

#: Denomination, issue month, owner, and coowner or None.
Bond = tuple[int, int, int, int | None]
#: Serial number and cents.
Lines = tuple[tuple[str, int], ...]
#: Day, payee and lines.
Ticket = tuple[int, int, Lines]


class Books:
    """Rates, bonds, days, tickets and batches. A batch is `(tickets, bonds, total)`."""

    def __init__(self) -> None:
        self.rates: dict[int, tuple[int, int]] = {}
        self.bonds: dict[str, Bond] = {}
        self.paid_on: dict[str, int] = {}
        self.day: int | None = None
        self.last_day: int | None = None
        self.tickets: list[Ticket] = []
        self.batches: dict[int, tuple[int, int, int]] = {}
        self.day_starts_at = 0  # how many tickets there were as the open day was opened


def refused(
    code: int, serial: str | None = None, ticket: int | None = None, month: str | None = None
) -> Reply:
    reply: Reply = {"code": code, "refused": REFUSALS[code][0]}
    if serial is not None:
        reply["serial"] = serial
    if ticket is not None:
        reply["ticket"] = ticket
    if month is not None:
        reply["month"] = month
    return reply


def is_refused(reply: Reply) -> bool:
    return "refused" in reply


def terms_of(row: RateRow) -> tuple[int, int]:
    return RATES[row["rate"]], RATES[row.get("extension", row["rate"])]


def bond_of(row: BondRow) -> Bond:
    return row["denom"], MONTHS[row["issued"]], row["owner"], row.get("coowner")


def first_repeated(serials: list[str]) -> str | None:
    if len(set(serials)) == len(serials):
        return None
    return next(serial for place, serial in enumerate(serials) if serial in serials[:place])


def length_refusal(rows: Sequence[object], most: int) -> Reply | None:
    if not rows:
        return refused(11)
    return refused(12) if len(rows) > most else None


def decide(books: Books, act: Act) -> Reply:
    """The reply to an act: its first refusal in the order of their codes, or what it does."""
    if act["act"] == "rates":
        return decide_rates(books, act["rates"])
    if act["act"] == "bonds":
        return decide_bonds(books, act["bonds"])
    if act["act"] == "open":
        return decide_open(books, act["day"])
    return decide_redeem(books, act) if act["act"] == "redeem" else decide_close(books, act["day"])


def added(books: Container[object], keys: Sequence[Hashable]) -> Reply:
    """How many rows are new, and how many the books or an earlier row hold. `keys` are those of the rows."""
    new = len({key for key in keys if key not in books})
    return {"new": new, "same": len(keys) - new}


def decide_rates(books: Books, rows: list[RateRow]) -> Reply:
    """Codes 11, 12, 20, 21, 22: each is asked of all rows before the next one."""
    refusal = length_refusal(rows, MOST_ROWS)
    if refusal:
        return refusal
    read = [(MONTHS[row["from"]], terms_of(row)) for row in rows]
    for month, _ in read:
        if rate_period(month) != month:
            return refused(20, month=month_text(month))
    known: dict[int, tuple[int, int]] = {}
    for month, terms in read:
        if known.setdefault(month, books.rates.get(month, terms)) != terms:
            return refused(21, month=month_text(month))
    return added(books.rates, [month for month, _ in read])


def unsettled_ages(act: RatesAct) -> list[tuple[int, ...]]:
    """Of every row of rates, the ages at which the program may answer code 22."""
    return [may_be_unsettled(*terms_of(row)) for row in act["rates"]]


def decide_bonds(books: Books, rows: list[BondRow]) -> Reply:
    """Codes 11, 12, 13, 14, 30, 31: each is asked of all rows before the next one."""
    refusal = length_refusal(rows, MOST_ROWS)
    if refusal:
        return refusal
    repeated = first_repeated([row["serial"] for row in rows])
    if repeated:
        return refused(13, serial=repeated)
    for row in rows:
        if row.get("coowner") == row["owner"]:
            return refused(14, serial=row["serial"])
    for row in rows:
        if rate_period(MONTHS[row["issued"]]) not in books.rates:
            return refused(30, serial=row["serial"])
    for row in rows:
        if books.bonds.get(row["serial"], bond_of(row)) != bond_of(row):
            return refused(31, serial=row["serial"])
    return added(books.bonds, [row["serial"] for row in rows])


def decide_open(books: Books, day: str) -> Reply:
    """Codes 40, 41."""
    if books.day is not None:
        return refused(40)
    if books.last_day is not None and day_in(day) <= books.last_day:
        return refused(41)
    return {"opened": day}


def day_refusal(books: Books, day: str) -> Reply | None:
    """Codes 42, 43."""
    if books.day is None:
        return refused(42)
    return refused(43) if day_in(day) != books.day else None


def decide_redeem(books: Books, act: RedeemAct) -> Reply:
    """Codes 11, 12, 13, 42, 43, 44 of the whole request; then 50 to 54, serial number by serial number.
    A ticket is whole or nothing."""
    serials, payee = act["serials"], act["payee"]
    refusal = length_refusal(serials, MOST_SERIALS)
    if refusal:
        return refusal
    repeated = first_repeated(serials)
    if repeated:
        return refused(13, serial=repeated)
    day, refusal = day_in(act["day"]), day_refusal(books, act["day"])
    if refusal:
        return refusal
    if len(books.tickets) - books.day_starts_at >= MOST_TICKETS:
        return refused(44)
    lines = []
    for serial in serials:
        paid = payment(books, day, serial, payee)
        if isinstance(paid, dict):
            return paid
        lines.append((serial, paid))
    total = sum(cents for _, cents in lines)
    return ticket_reply(len(books.tickets) + 1, day, payee, lines, total)


def payment(books: Books, day: int, serial: str, payee: int) -> int | Reply:
    """What a bond pays a payee on the open day, or the refusal: codes 50, 51, 52, 53, 54."""
    bond = books.bonds.get(serial)
    if bond is None:
        return refused(50, serial=serial)
    denomination, issued, owner, coowner = bond
    if payee not in (owner, coowner):
        return refused(51, serial=serial)
    if serial in books.paid_on:
        return refused(52, serial=serial, ticket=books.paid_on[serial])
    age = month_of_day(day) - issued
    if age < 0:
        return refused(53, serial=serial)
    if age < HOLD:
        return refused(54, serial=serial)
    terms = books.rates.get(rate_period(issued))
    if (
        terms is None
    ):  # sound books have them; a replay that went on from a reply that differs may not
        return refused(30, serial=serial)
    paid = payable(denomination, age, terms)
    assert paid is not None
    return paid


def decide_close(books: Books, day: str) -> Reply:
    """Codes 42, 43. The batch is the sums of the day's tickets."""
    refusal = day_refusal(books, day)
    if refusal:
        return refusal
    today = books.tickets[books.day_starts_at :]
    paid = [cents for _, _, lines in today for _, cents in lines]
    return batch_reply(day_in(day), len(today), len(paid), sum(paid))


def take(books: Books, act: Act | UnreadableAct, reply: Reply) -> None:
    """Do what an accepted reply to an act says."""
    if act["act"] == "rates":
        for row in act["rates"]:
            books.rates.setdefault(MONTHS[row["from"]], terms_of(row))
    elif act["act"] == "bonds":
        for bond in act["bonds"]:
            books.bonds.setdefault(bond["serial"], bond_of(bond))
    elif "opened" in reply:
        books.day, books.day_starts_at = day_in(reply["opened"]), len(books.tickets)
    elif "ticket" in reply:
        lines = tuple((line["serial"], cents_in(line["paid"])) for line in reply["lines"])
        books.tickets.append((day_in(reply["day"]), reply["payee"], lines))
        books.paid_on.update((serial, len(books.tickets)) for serial, _ in lines)
    elif "tickets" in reply:
        day = day_in(reply["day"])
        books.batches[day] = (reply["tickets"], reply["bonds"], cents_in(reply["total"]))
        books.day, books.last_day = None, day
