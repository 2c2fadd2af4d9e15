"""Remarks: what isn't against the rules, and that an auditor asks about all the same."""

import datetime
import itertools
from typing import Iterable, Iterator, TypedDict

from . import texts
from .findings import MOST_KEPT
from .store import Store

LETTERS = {50: "L", 75: "K", 100: "C", 200: "R", 500: "D", 1000: "M", 5000: "V", 10000: "X"}
LAST_PAPER = texts.MONTHS["2011-12"]
SATURDAY = 5
LONG = 366  # days
DAYS = "SELECT day FROM batches UNION SELECT day FROM tickets UNION SELECT day FROM desk WHERE day IS NOT NULL ORDER BY day"

Rows = Iterator[tuple[str, str]]


class Remark(TypedDict):
    row: str
    what: str


class Kind(TypedDict):
    """A kind of remarks: how many there are, and the first ones."""

    name: str
    title: str
    count: int
    rows: list[Remark]


def remarks_of(store: Store, as_of: int) -> list[Kind]:
    """Every kind of remark with its rows: how many there are, and the first ones. `as_of` is the day that
    counts as today."""
    days = [day for (day,) in store.rows(DAYS)]
    kinds = (
        ("future", f"Days after {texts.day_text(as_of)}", future_days(days, as_of)),
        ("weekend", "Days on a weekend", weekends(days)),
        ("jump", "Days more than a year after the day before", jumps(days)),
        ("letter", "Bonds whose letter isn't that of their denomination", other_letters(store)),
        (
            "paper",
            "Bonds that were issued after paper bonds were sold (2011-12)",
            after_paper(store),
        ),
    )
    return [collected(*kind) for kind in kinds]


def collected(name: str, title: str, rows: Iterable[tuple[str, str]]) -> Kind:
    kept: list[Remark] = []
    count = 0
    for count, (row, what) in enumerate(rows, 1):
        if count <= MOST_KEPT:
            kept.append({"row": row, "what": what})
    return {"name": name, "title": title, "count": count, "rows": kept}


def future_days(days: list[int], as_of: int) -> Rows:
    return ((texts.day_text(day), f"{day - as_of} days later") for day in days if day > as_of)


def weekends(days: list[int]) -> Rows:
    for day in days:
        date = datetime.date.fromordinal(day + texts.EPOCH)
        if date.weekday() >= SATURDAY:
            yield date.isoformat(), "a Saturday" if date.weekday() == SATURDAY else "a Sunday"


def jumps(days: list[int]) -> Rows:
    for before, day in itertools.pairwise(days):
        if day - before > LONG:
            yield texts.day_text(day), f"{day - before} days after {texts.day_text(before)}"


def other_letters(store: Store) -> Rows:
    for letter, number, denomination in store.rows(
        "SELECT letter, number, denom FROM bonds ORDER BY letter, number"
    ):
        wanted = LETTERS.get(denomination)
        if wanted != chr(64 + letter):
            yield texts.serial_text(
                letter, number
            ), f"{denomination} dollars, whose letter is {wanted}"


def after_paper(store: Store) -> Rows:
    for letter, number, issued in store.rows(
        "SELECT letter, number, issued FROM bonds WHERE issued > ? ORDER BY letter, number",
        LAST_PAPER,
    ):
        yield texts.serial_text(letter, number), texts.month_text(issued)
