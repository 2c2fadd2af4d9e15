"""The interest that every payee was paid in a year: what the lines of the year's tickets paid, less the
issue prices of their bonds. Sums of money are whole cents here, and texts in the report."""

import csv
import datetime
import io
from typing import TypedDict

from . import texts
from .findings import Findings
from .store import Store

COLUMNS = ("payee", "bonds", "paid", "price", "interest")
BY_PAYEE = """SELECT t.payee, count(*), sum(p.cents), sum(b.denom * 50), sum(p.cents - b.denom * 50)
  FROM paid AS p JOIN tickets AS t ON t.ticket = p.ticket JOIN bonds AS b ON b.letter = p.letter AND b.number = p.number
 WHERE t.day BETWEEN ? AND ? GROUP BY t.payee ORDER BY t.payee"""
SETTLED = """SELECT coalesce(sum(bonds), 0), coalesce(sum(total), 0) FROM (
  SELECT bonds, total, day FROM batches UNION ALL SELECT bonds, total, day FROM tickets WHERE day = (SELECT day FROM desk))
 WHERE day BETWEEN ? AND ?"""
MARKED = "SELECT coalesce(sum(denom * 50), 0) FROM bonds WHERE ticket IN (SELECT ticket FROM tickets WHERE day BETWEEN ? AND ?)"
OF_TICKETS = "SELECT payee, sum(bonds), sum(total) FROM tickets WHERE day BETWEEN ? AND ? GROUP BY payee ORDER BY payee"


class Interest(TypedDict):
    """Each payee has the keys COLUMNS, and the sums have all but the first."""

    year: int
    payees: list[dict[str, int | str]]
    sums: dict[str, int | str]


def days_of(year: int) -> tuple[int, int]:
    """The first and the last day of a year, counted from 1970-01-01."""
    return (
        datetime.date(year, 1, 1).toordinal() - texts.EPOCH,
        datetime.date(year, 12, 31).toordinal() - texts.EPOCH,
    )


def interest_of(store: Store, year: int) -> Interest:
    """The bonds and sums of every payee of a year, and those of all."""
    rows = store.rows(BY_PAYEE, *days_of(year)).fetchall()
    return {
        "year": year,
        "payees": [
            dict(zip(COLUMNS, (payee, bonds, *map(texts.money, sums))))
            for payee, bonds, *sums in rows
        ],
        "sums": dict(
            zip(
                COLUMNS[1:],
                (
                    sum(row[1] for row in rows),
                    *(texts.money(sum(row[place] for row in rows)) for place in (2, 3, 4)),
                ),
            )
        ),
    }


def interest_is_settled(year: int, store: Store, findings: Findings) -> None:
    """The sums by payee are those of the tickets, and all of them come to the batches and the open day."""
    rows, days = store.rows(BY_PAYEE, *days_of(year)).fetchall(), days_of(year)
    findings.tested = sum(row[1] for row in rows)
    bonds, paid, price, interest = (sum(row[place] for row in rows) for place in (1, 2, 3, 4))
    settled_bonds, settled = store.one(SETTLED, *days)
    (marked,) = store.one(MARKED, *days)
    findings.compare(
        "paid",
        f"year {year}",
        "bonds, and those of the batches and the open day",
        bonds,
        settled_bonds,
    )
    findings.compare(
        "paid",
        f"year {year}",
        "paid, and what batches and the open day come to",
        texts.money(paid),
        texts.money(settled),
    )
    findings.compare(
        "paid",
        f"year {year}",
        "issue prices, and those of the bonds that name the year's tickets",
        texts.money(price),
        texts.money(marked),
    )
    findings.compare(
        "paid",
        f"year {year}",
        "interest, and what was paid less the issue prices",
        texts.money(interest),
        texts.money(settled - marked),
    )
    of_tickets = {payee: sums for payee, *sums in store.rows(OF_TICKETS, *days)}
    for payee, *sums in rows:
        findings.compare(
            "tickets",
            f"payee {payee}",
            f"bonds and cents of {year}",
            sums[:2],
            of_tickets.pop(payee, None),
        )
    for payee, sums in of_tickets.items():
        findings.differs("tickets", f"payee {payee}", f"bonds and cents of {year}", None, sums)


def csv_text(interest: Interest) -> str:
    """A line for every payee, behind a header."""
    with io.StringIO() as file:
        lines = csv.DictWriter(file, COLUMNS, lineterminator="\n")
        lines.writeheader()
        lines.writerows(interest["payees"])
        return file.getvalue()
