"""The interest of paid bonds: of a ticket, of a day, and of a payee in a span of days, as CSV.

The counter's tickets have what was paid. No look-up tells the denomination and the issue month of a paid bond, so they come from files: inventories, and archives of
requests. With them the counter is asked once more for the bond's value in the month of its payment, which has to be what was paid."""
from __future__ import annotations

import csv
import hashlib
import io
import json
import os
from decimal import Decimal
from typing import Dict, Iterable, Iterator, List, Mapping, Optional, Sequence, Tuple

from .errors import BadFile, BadValue, Incomplete, NoRate
from .files import bonds_in
from .lookups import Lookups, Path, path_of
from .results import Interest, Line, Paid, Row, Ticket
from .spelling import (
    MOST_NUMBER,
    Bond,
    DayLike,
    Json,
    Month,
    MonthLike,
    bond_of,
    customer_of,
    day_of,
    whole,
)

COLUMNS = ("day", "ticket", "payee", "serial", "denom", "issued", "price", "interest", "value")
#: With what an archive of requests begins.
ARCHIVE = b'{"archive":1,'
Known = Mapping[str, Bond]


# ---- what every bond is


def bonds_known(*paths: Path) -> Dict[str, Bond]:
    """Reads what every bond is from inventory files and from archives of requests, a desk's or a store's, by serial number.

    Raises BadFile if a file can't be read, an archive isn't as it was written, or two of them say something else of a bond.
    """
    known: Dict[str, Json] = {}
    for path in paths:
        name = path_of(path, "a file")
        try:
            for row, bond in rows_of_file(name):
                if known.setdefault(bond["serial"], bond) != bond:
                    raise BadFile(
                        row, f"{bond['serial']} was another bond in an earlier line or file"
                    )
        except BadFile as fault:
            raise BadFile(fault.row, f"{fault.fault} ({name})") from None
    return {serial: Bond(**bond) for serial, bond in known.items()}


def rows_of_file(name: str) -> Iterable[Tuple[int, Json]]:
    """Yields the bonds of an inventory, of an archive, or of the folder of a store's archive, each with its row."""
    if os.path.isdir(name):
        name = os.path.join(name, "requests.jsonl")
    try:
        with open(name, "rb") as file:
            begin = file.read(len(ARCHIVE))
            lines = (begin + file.read()).split(b"\n")[:-1] if begin == ARCHIVE else []
    except OSError as failure:
        raise BadFile(1, f"the file can't be read: {failure}") from None
    return archived_bonds(lines) if begin == ARCHIVE else enumerate(bonds_in(name), 2)


def archived_bonds(lines: Sequence[bytes]) -> Iterator[Tuple[int, Json]]:
    """Yields the bonds of an archive's requests that have a reply and weren't refused, each with its line."""
    for count, (before, line) in enumerate(zip(lines, lines[1:]), 2):
        try:
            told = json.loads(line)
            is_next = told["before"] == hashlib.sha256(before).hexdigest()
            is_done = told["act"]["act"] == "bonds" and "new" in told.get("reply", {})
            bonds = [bond_of(bond) for bond in told["act"]["bonds"]] if is_done else []
        except (ValueError, KeyError, TypeError, AttributeError):
            is_next, bonds = False, []
        if not is_next:
            raise BadFile(count, "the line doesn't follow the one before: the archive was changed")
        yield from ((count, bond) for bond in bonds)


# ---- the questions


def interest_of_ticket(lookups: Lookups, number: int, bonds: Known) -> Interest:
    """Returns the interest of a ticket. Raises Incomplete."""
    wanted = whole(number, 1, MOST_NUMBER, "a ticket")
    ticket = lookups.ticket(wanted)
    return Question(lookups, bonds).answered(
        [] if ticket is None else [ticket],
        [f"there is no ticket {wanted}"] if ticket is None else [],
    )


def interest_of_day(lookups: Lookups, day: DayLike, bonds: Known) -> Interest:
    """Returns the interest of the tickets of a closed day, whose sums are its batch's. Raises Incomplete, also if the day isn't closed."""
    wanted = day_of(day)
    question = Question(lookups, bonds)
    tickets = list(question.tickets_of(wanted, wanted))
    return question.answered(tickets, question.untied(wanted, tickets))


def interest_of_payee(
    lookups: Lookups, payee: int, first: DayLike, last: DayLike, bonds: Known
) -> Interest:
    """Returns the interest of what a customer was paid from the first day to the last one. All tickets of these days are looked at, and those of every day have its batch's
    sums. Raises Incomplete."""
    customer, span = customer_of(payee), (day_of(first), day_of(last))
    if span[0] > span[1]:
        raise BadValue(f"the first day, {span[0]}, is after the last, {span[1]}")
    question = Question(lookups, bonds)
    days: Dict[str, List[Ticket]] = {}
    for ticket in question.tickets_of(*span):
        days.setdefault(ticket.day.isoformat(), []).append(ticket)
    untied = [
        sentence for day, tickets in days.items() for sentence in question.untied(day, tickets)
    ]
    return question.answered(
        [ticket for tickets in days.values() for ticket in tickets if ticket.payee == customer],
        untied,
    )


class Question:
    """One question of interest: what the counter answered meanwhile, so that nothing is asked twice."""

    def __init__(self, lookups: Lookups, bonds: Known) -> None:
        self.lookups, self.bonds = lookups, bonds
        self.tickets: Dict[int, Optional[Ticket]] = {}
        self.rows: Dict[Tuple[int, MonthLike, Month], Optional[Row]] = {}

    def ticket(self, number: int) -> Optional[Ticket]:
        """The ticket of a number, if there is one."""
        if number not in self.tickets:
            self.tickets[number] = self.lookups.ticket(number)
        return self.tickets[number]

    def tickets_of(self, first: str, last: str) -> Iterator[Ticket]:
        """Yields the tickets of a span of days. Tickets are numbered without a gap, and their days never fall."""
        number = self.first_of(first)
        while (ticket := self.ticket(number)) is not None and ticket.day.isoformat() <= last:
            yield ticket
            number += 1

    def first_of(self, day: str) -> int:
        """The first ticket that isn't of an earlier day, or the first number without a ticket: by doubling, and then by halving."""
        before, after = 0, 1
        while self.is_before(after, day):
            before, after = after, 2 * after
        while after - before > 1:
            middle = (before + after) // 2
            before, after = (middle, after) if self.is_before(middle, day) else (before, middle)
        return after

    def is_before(self, number: int, day: str) -> bool:
        """Whether there is such a ticket, of an earlier day."""
        ticket = self.ticket(number)
        return ticket is not None and ticket.day.isoformat() < day

    def untied(self, day: str, tickets: List[Ticket]) -> List[str]:
        """What is wrong with the tickets of a day beside its batch."""
        batch = self.lookups.batch(day)
        if batch is None:
            return [f"{day} isn't closed, so its tickets may not be all"]
        count, bonds, total = sums_of(tickets)
        if (count, bonds, total) == (batch.tickets, batch.bonds, batch.total):
            return []
        return [
            f"{day} has {count} tickets, {bonds} bonds, {total} dollars, and its batch {batch.tickets}, {batch.bonds}, {batch.total}"
        ]

    def answered(self, tickets: Iterable[Ticket], missing: List[str]) -> Interest:
        """The interest of tickets. Raises Incomplete if something is missing."""
        rows: List[Paid] = []
        for ticket in tickets:
            for line in ticket.lines:
                row, fault = self.paid(ticket, line)
                rows.append(row)
                missing += [fault] if fault else []
        price, interest, value = (
            sum((getattr(row, name) or Decimal() for row in rows), Decimal("0.00"))
            for name in ("price", "interest", "value")
        )
        found = Interest(tuple(rows), price, interest, value, tuple(missing), csv_of(rows))
        if missing:
            raise Incomplete(found)
        return found

    def paid(self, ticket: Ticket, line: Line) -> Tuple[Paid, str]:
        """The row of a paid bond, and what is missing of it, if anything is."""
        bond = self.bonds.get(line.serial)
        row, fault = (
            (None, f"{line.serial}, on ticket {ticket.number}, is in none of the files")
            if bond is None
            else self.row(ticket, line, bond)
        )
        if bond is None or row is None:
            return (
                Paid(
                    ticket.day,
                    ticket.number,
                    ticket.payee,
                    line.serial,
                    None,
                    None,
                    None,
                    None,
                    line.paid,
                ),
                fault,
            )
        return (
            Paid(
                ticket.day,
                ticket.number,
                ticket.payee,
                line.serial,
                row.denom,
                row.issued,
                row.price,
                row.interest,
                line.paid,
            ),
            "",
        )

    def row(self, ticket: Ticket, line: Line, bond: Bond) -> Tuple[Optional[Row], str]:
        """The counter's row of a bond in the month of its payment. If its value isn't what was paid, the files have another bond."""
        month = Month(ticket.day.year, ticket.day.month)
        asked = (bond.denom, bond.issued, month)
        if asked not in self.rows:
            try:
                self.rows[asked] = self.lookups.value(*asked)
            except NoRate:
                self.rows[asked] = None
        row = self.rows[asked]
        if row is not None and row.value == line.paid:
            return row, ""
        found = "has no rates" if row is None else f"is worth {row.value}"
        return (
            None,
            f"{line.serial}, on ticket {ticket.number}: {line.paid} was paid, and the files' bond, of {bond.denom} dollars and {bond.issued}, {found} in {month}",
        )


def sums_of(tickets: Sequence[Ticket]) -> Tuple[int, int, Decimal]:
    """The sums of tickets, as a batch has them."""
    return (
        len(tickets),
        sum(len(ticket.lines) for ticket in tickets),
        sum((ticket.total for ticket in tickets), Decimal()),
    )


def csv_of(rows: Sequence[Paid]) -> str:
    """Prints the rows as CSV, with a header. What isn't known is empty."""
    text = io.StringIO()
    writer = csv.writer(text, lineterminator="\n")
    writer.writerow(COLUMNS)
    writer.writerows(("" if cell is None else cell for cell in vars(row).values()) for row in rows)
    return text.getvalue()
