"""Questions implausible values, which the counter takes: a letter that doesn't fit the denomination, an issue month after the last paper bonds, a day far from today."""
from __future__ import annotations

import datetime
from typing import Iterable, Iterator, List

from .errors import Implausible
from .spelling import Json

#: The letter of a paper bond's serial number, by its denomination in dollars.
LETTERS = {50: "L", 75: "K", 100: "C", 200: "R", 500: "D", 1000: "M", 5000: "V", 10000: "X"}
#: The last month in which paper bonds were sold.
LAST_PAPER = "2011-12"
#: How many days a business day may be from today, and after the last one that was opened.
MOST_DAYS = 7


def today() -> datetime.date:
    """Returns the date of this machine's clock."""
    return datetime.date.today()


def doubts_of_bond(bond: Json) -> Iterator[str]:
    """Yields what is implausible about a bond to register."""
    serial, letter = bond["serial"], LETTERS[bond["denom"]]
    if serial[0] != letter:
        yield f"{serial}: a paper bond of {bond['denom']} dollars has the letter {letter}"
    if bond["issued"] > LAST_PAPER:
        yield f"{serial}: no paper bond has the issue month {bond['issued']}, which is after {LAST_PAPER}"


def doubts_of_day(day: str) -> Iterator[str]:
    """Yields a sentence if a day to open is far from today."""
    now = today()
    days = (datetime.date.fromisoformat(day) - now).days
    if abs(days) > MOST_DAYS:
        yield f"{day} is {abs(days):,} days {'after' if days > 0 else 'before'} today, which is {now}"


def days_before(day: str) -> List[str]:
    """Returns the days whose batches tell whether the last opened day is near, nearest first. None is before the first day that the counter knows."""
    last = datetime.date.fromisoformat(day)
    found = (
        (last - datetime.timedelta(days=count)).isoformat() for count in range(1, MOST_DAYS + 1)
    )
    return [before for before in found if before >= "2005-05-01"]


def question(doubts: Iterable[str]) -> None:
    """Raises Implausible if there is a doubt."""
    found = tuple(doubts)
    if found:
        raise Implausible(found)
