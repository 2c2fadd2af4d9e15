"""The period in figures: what was paid, refused and sent again, and what the unpaid bonds will be worth.
Sums of money are whole cents here, and texts in the report."""

import collections
from typing import Any, Iterable, TypedDict, TypeVar

from . import texts, values
from .replay import Entry
from .store import Store

LARGEST = 20

PAYMENTS = """SELECT t.day, b.denom, b.issued, count(*), sum(p.cents)
  FROM paid AS p JOIN tickets AS t ON t.ticket = p.ticket JOIN bonds AS b ON b.letter = p.letter AND b.number = p.number
 GROUP BY t.day, b.denom, b.issued"""
UNPAID = """SELECT b.issued, count(*), sum(b.denom / 25), sum(b.denom), r.fixed, r.extension
  FROM bonds AS b JOIN terms AS r ON r.period = b.issued - b.issued % 6 WHERE b.ticket IS NULL GROUP BY b.issued ORDER BY b.issued"""


#: A row of PAYMENTS: day, denomination, issue month, bonds, cents.
Payments = tuple[int, int, int, int, int]
#: A row of UNPAID: issue month, bonds, units, dollars, and both rates.
Unpaid = tuple[int, int, int, int, int, int]
#: The key of a group.
K = TypeVar("K", int, str, tuple[int, str])


class Sums(TypedDict):
    bonds: int
    total: str
    price: str
    interest: str


class OfDay(TypedDict):
    day: str
    is_closed: bool
    tickets: int
    bonds: int
    total: str


class OfAge(TypedDict):
    years: int
    note: str
    bonds: int
    total: str


class OfCode(TypedDict):
    code: int
    name: str
    requests: int


class OfTicket(TypedDict):
    ticket: int
    day: str
    payee: int
    bonds: int
    total: str


class Worth(TypedDict):
    month: str
    worth: str
    earning: int


class Outlook(TypedDict):
    bonds: int
    price: str
    months: list[Worth]


class Figures(TypedDict):
    sums: Sums
    days: list[OfDay]
    issue_periods: list[dict[str, Any]]
    denominations: list[dict[str, Any]]
    ages: list[OfAge]
    refusals: list[OfCode]
    desks: list[dict[str, int]]
    largest: list[OfTicket]
    outlook: Outlook | None


def figures_of(store: Store, entries: list[Entry], month: int | None) -> Figures:
    """The figures of a month, or of all days."""
    payments = [
        row for row in store.rows(PAYMENTS) if month is None or texts.month_of_day(row[0]) == month
    ]
    asked = [
        entry
        for entry in entries
        if month is None or (entry.day is not None and texts.month_of_day(entry.day) == month)
    ]
    return {
        "sums": sums_of(payments),
        "days": by_day(store, month),
        "issue_periods": grouped(
            "period",
            (
                (texts.month_text(values.rate_period(issued)), row)
                for row in payments
                for issued in [row[2]]
            ),
        ),
        "denominations": grouped("denom", ((row[1], row) for row in payments)),
        "ages": by_age(payments),
        "refusals": by_code(asked),
        "desks": by_desk(asked),
        "largest": largest(store, month),
        "outlook": outlook(store, month),
    }


def sums_of(payments: list[Payments]) -> Sums:
    bonds, cents = sum(row[3] for row in payments), sum(row[4] for row in payments)
    price = sum(50 * row[1] * row[3] for row in payments)
    return {
        "bonds": bonds,
        "total": texts.money(cents),
        "price": texts.money(price),
        "interest": texts.money(cents - price),
    }


def by_day(store: Store, month: int | None) -> list[OfDay]:
    days = "SELECT day FROM batches UNION SELECT day FROM tickets UNION SELECT day FROM desk WHERE day IS NOT NULL ORDER BY day"
    sums = {
        day: rest
        for day, *rest in store.rows(
            "SELECT day, count(*), sum(bonds), sum(total) FROM tickets GROUP BY day"
        )
    }
    closed = {day for (day,) in store.rows("SELECT day FROM batches")}
    found: list[OfDay] = []
    for (day,) in store.rows(days).fetchall():
        if month is None or texts.month_of_day(day) == month:
            tickets, bonds, total = sums.get(day, (0, 0, 0))
            found.append(
                {
                    "day": texts.day_text(day),
                    "is_closed": day in closed,
                    "tickets": tickets,
                    "bonds": bonds,
                    "total": texts.money(total),
                }
            )
    return found


def grouped(name: str, keyed: Iterable[tuple[K, Payments]]) -> list[dict[str, Any]]:
    """Bonds and dollars of every key, in order of keys."""
    bonds: collections.Counter[K] = collections.Counter()
    cents: collections.Counter[K] = collections.Counter()
    for key, (_, _, _, count, total) in keyed:
        bonds[key] += count
        cents[key] += total
    return [
        {name: key, "bonds": bonds[key], "total": texts.money(cents[key])} for key in sorted(bonds)
    ]


def by_age(payments: list[Payments]) -> list[OfAge]:
    """Bonds and dollars by age in whole years and by note: P5 is the three months' penalty, MA is matured."""
    keyed = []
    for row in payments:
        age = texts.month_of_day(row[0]) - row[2]
        keyed.append(((min(age // 12, values.FINAL_MATURITY // 12), values.note(age)), row))
    found = grouped("age", keyed)
    return [
        {
            "years": one["age"][0],
            "note": one["age"][1],
            "bonds": one["bonds"],
            "total": one["total"],
        }
        for one in found
    ]


def by_code(entries: list[Entry]) -> list[OfCode]:
    counts = collections.Counter(entry.code for entry in entries if entry.code)
    return [
        {
            "code": code,
            "name": texts.REFUSALS[code][0] if code in texts.REFUSALS else "",
            "requests": counts[code],
        }
        for code in sorted(counts)
    ]


def by_desk(entries: list[Entry]) -> list[dict[str, int]]:
    """Of every desk: its requests, those that were refused, and those that ask for the same act as an
    earlier one of that desk. A request that was sent again under its own number leaves no trace."""
    desks: dict[int, list[int]] = collections.defaultdict(lambda: [0, 0, 0])
    for entry in entries:
        counts = desks[entry.desk]
        counts[0] += 1
        counts[1] += entry.code != 0
        counts[2] += entry.is_again
    return [
        {"desk": desk, "requests": one[0], "refused": one[1], "again": one[2]}
        for desk, one in sorted(desks.items())
    ]


def largest(store: Store, month: int | None) -> list[OfTicket]:
    found: list[OfTicket] = []
    for ticket, day, payee, bonds, total in store.rows(
        "SELECT ticket, day, payee, bonds, total FROM tickets ORDER BY total DESC, ticket"
    ):
        if month is None or texts.month_of_day(day) == month:
            found.append(
                {
                    "ticket": ticket,
                    "day": texts.day_text(day),
                    "payee": payee,
                    "bonds": bonds,
                    "total": texts.money(total),
                }
            )
        if len(found) == LARGEST:
            break
    return found


def outlook(store: Store, month: int | None) -> Outlook | None:
    """What the bonds that are unpaid in the store will be worth in every month, from the month of the
    report, or of the store's latest day, until the last one matures: the values that a calculator shows.
    """
    groups = store.rows(UNPAID).fetchall()
    (latest,) = store.one(
        "SELECT max(day) FROM (SELECT day FROM desk UNION SELECT last_day FROM desk UNION SELECT day FROM tickets)"
    )
    first = month if month is not None else None if latest is None else texts.month_of_day(latest)
    if first is None or not groups:
        return None
    last = max(first, groups[-1][0] + values.FINAL_MATURITY)
    months = [worth_in(groups, at) for at in range(first, last + 1)]
    price = 50 * sum(group[3] for group in groups)
    return {
        "bonds": sum(group[1] for group in groups),
        "price": texts.money(price),
        "months": months,
    }


def worth_in(groups: list[Unpaid], month: int) -> Worth:
    """The worth of groups of bonds of one issue month each; a group counts 25-dollar units."""
    worth = earning = 0
    for issued, bonds, units, _, fixed, extension in groups:
        worth += units * values.shown(25, month - issued, (fixed, extension))
        earning += bonds if 0 <= month - issued < values.FINAL_MATURITY else 0
    return {"month": texts.month_text(month), "worth": texts.money(worth), "earning": earning}
