"""Spellings of values. Every function returns the printed spelling, or raises BadValue. The ranges are those of docs/FORMATS.md, "Spellings that are read"."""
from __future__ import annotations

import datetime
import re
from dataclasses import dataclass
from decimal import Decimal
from typing import (
    AbstractSet,
    Any,
    Callable,
    Dict,
    ItemsView,
    Iterable,
    Iterator,
    KeysView,
    List,
    Mapping,
    Optional,
    Protocol,
    Sequence,
    Tuple,
    TypeVar,
    Union,
)

from .errors import BadValue

Json = Dict[str, Any]
Item = TypeVar("Item", covariant=True)


class Listed(Protocol[Item]):
    """A list, a tuple, or another collection with an order. For a type checker a set is none, and neither is a text, though it is a sequence of texts: `in` of a text takes
    texts alone."""

    def __contains__(self, __value: object) -> bool:
        ...

    def __iter__(self) -> Iterator[Item]:
        ...

    def __len__(self) -> int:
        ...

    def __reversed__(self) -> Iterator[Item]:
        ...


Each = TypeVar("Each")
#: A tuple is named by itself: mypy knows what a tuple of several types holds only so.
ListOf = Union[Listed[Each], Tuple[Each, ...]]

MOST_ROWS = 500
MOST_SERIALS = 100
MOST_NUMBER = 2**63 - 1
MOST_KEY = 200
MOST_BOOKMARK = 10_000
DENOMINATIONS = (50, 75, 100, 200, 500, 1000, 5000, 10000)


@dataclass(frozen=True, order=True)
class Month:
    """A calendar month. Its text is `2012-02`."""

    year: int
    month: int

    def __str__(self) -> str:
        return f"{self.year:04}-{self.month:02}"


DayLike = Union[str, datetime.date]
MonthLike = Union[str, datetime.date, Month]
RateLike = Union[str, Decimal]


@dataclass(frozen=True)
class Bond:
    """A bond to register. `denom` is in dollars, `issued` the issue month, `owner` and `coowner` are numbers of customers."""

    serial: str
    denom: int
    issued: MonthLike
    owner: int
    coowner: Optional[int] = None


@dataclass(frozen=True)
class Rates:
    """A row of rates, in percent: of bonds that are issued from a May or November on. Without an `extension`, the rate of extended maturity is the fixed rate."""

    from_month: MonthLike
    rate: RateLike
    extension: Optional[RateLike] = None


def whole(value: object, least: int, most: int, name: str) -> int:
    """Reads a whole number within bounds, from a number or a text of digits."""
    text = str(value) if isinstance(value, (int, str)) else ""
    if (
        isinstance(value, bool)
        or not re.fullmatch(r"[0-9]{1,19}", text, re.ASCII)
        or not least <= int(text) <= most
    ):
        raise BadValue(f"{name} is from {least} to {most}, and not {value!r}")
    return int(text)


def seconds_of(value: object, name: str) -> float:
    """Reads a number of seconds that isn't negative."""
    if (
        isinstance(value, bool)
        or not isinstance(value, (int, float))
        or not 0 <= value < float("inf")
    ):
        raise BadValue(f"{name} is a number of seconds, and not {value!r}")
    return float(value)


def serial_of(text: object) -> str:
    """Reads a serial number, such as C12EE or C-0012-EE."""
    parts = re.fullmatch(r"([A-Z])-?([0-9]{1,10})-?EE", text) if isinstance(text, str) else None
    if parts is None or int(parts[2]) == 0:
        raise BadValue(f"{text!r} is no serial number, as C12EE")
    return f"{parts[1]}{int(parts[2])}EE"


def month_of(value: object, last: str = "2199-12") -> str:
    """Reads a month from 2005-05 to `last`: a Month, a date, YYYY-MM or MM/YYYY."""
    typed = str(value) if isinstance(value, (str, Month)) else ""
    if isinstance(value, datetime.date):
        typed = f"{value.year:04}-{value.month:02}"
    parts = re.fullmatch(r"([0-9]{4})-([0-9]{2})", typed) or re.fullmatch(
        r"()([0-9]{2})/([0-9]{4})", typed
    )
    month = "" if parts is None else f"{parts[1] or parts[3]}-{parts[2]}"
    if not "2005-05" <= month <= last or not "01" <= month[5:] <= "12":
        raise BadValue(f"{value!r} is no month from 2005-05 to {last}")
    return month


def issue_of(value: object) -> str:
    """Reads a month in which a bond is issued, or from which rates hold."""
    return month_of(value, "2099-12")


def day_of(value: object) -> str:
    """Reads a day from 2005-05-01 to 2199-12-31: a date, or YYYY-MM-DD."""
    day = str(value) if isinstance(value, (str, datetime.date)) else ""
    try:
        is_real = (
            re.fullmatch(r"[0-9]{4}-[0-9]{2}-[0-9]{2}", day) is not None
            and datetime.date.fromisoformat(day).isoformat() == day
        )
    except ValueError:
        is_real = False
    if not is_real or not "2005-05-01" <= day <= "2199-12-31":
        raise BadValue(f"{value!r} is no day from 2005-05-01 to 2199-12-31")
    return day


def denom_of(value: object) -> int:
    """Reads a denomination in dollars."""
    if (
        isinstance(value, bool)
        or not isinstance(value, (int, str))
        or str(value) not in map(str, DENOMINATIONS)
    ):
        raise BadValue(f"{value!r} is no denomination")
    return int(value)


def customer_of(value: object) -> int:
    """Reads the number of a customer."""
    return whole(value, 1, 999_999_999, "a customer")


def rate_of(value: object) -> str:
    """Reads a rate in percent: a text such as 3.50, or a Decimal."""
    text = f"{value:f}" if isinstance(value, Decimal) else value
    if (
        not isinstance(text, str)
        or re.fullmatch(r"[0-9]{1,2}(\.[0-9]{1,2})?%?", text) is None
        or Decimal(text.rstrip("%")) > 20
    ):
        raise BadValue(f"{value!r} is no rate, as 3.50")
    return text


def cents_of(text: object) -> Optional[int]:
    """The cents of printed money. None for any other text."""
    if not isinstance(text, str) or re.fullmatch(r"(0|[1-9][0-9]{0,17})\.[0-9]{2}", text) is None:
        return None
    return int(text.replace(".", ""))


def list_of(values: object, most: int, name: str) -> List[Any]:
    """Reads a list of 1 to `most` values. A text isn't a list of its letters. A set has another order in each run, and would be another request under its key."""
    is_unordered = isinstance(values, AbstractSet) and not isinstance(values, (KeysView, ItemsView))
    if (
        is_unordered
        or isinstance(values, (str, bytes, Mapping))
        or not isinstance(values, Iterable)
    ):
        raise BadValue(f"{name} are a list, and not {values!r}")
    found = list(values)
    if not 1 <= len(found) <= most:
        raise BadValue(f"{name} are 1 to {most} in one request, and not {len(found)}")
    return found


def key_of(value: object) -> Optional[str]:
    """Reads a key of the caller's own: None, or a text of 1 to 200 printable characters."""
    if value is None:
        return None
    if not isinstance(value, str) or not 1 <= len(value) <= MOST_KEY or not value.isprintable():
        raise BadValue(
            f"a key is a text of 1 to {MOST_KEY} printable characters, and not {value!r}"
        )
    return value


def with_keys(row: object, needed: Sequence[str], other: str, what: str) -> Mapping[str, Any]:
    """The row, if it has the needed keys, perhaps the other one, and no more. A misspelt key would lose its value without a word."""
    if not isinstance(row, Mapping):
        raise BadValue(f"{what} is a dict with the keys {', '.join(needed)}, and not {row!r}")
    for key in row:
        if key not in (*needed, other):
            raise BadValue(
                f"{what} has no key {key!r}; its keys are {', '.join(needed)} and perhaps {other}"
            )
    for key in needed:
        if key not in row:
            raise BadValue(f"{what} lacks the key {key!r}")
    return row


def bond_of(
    bond: object,
    serial: Callable[[object], str] = serial_of,
    denom: Callable[[object], int] = denom_of,
    issued: Callable[[object], str] = issue_of,
) -> Json:
    """Reads a bond as it is sent, with its keys in one order. BadValue names a key that is unknown or missing."""
    if isinstance(bond, Bond):
        bond = {
            "serial": bond.serial,
            "denom": bond.denom,
            "issued": bond.issued,
            "owner": bond.owner,
            "coowner": bond.coowner,
        }
    row = with_keys(bond, ("serial", "denom", "issued", "owner"), "coowner", "a bond")
    coowner = row.get("coowner")
    read: Json = {
        "serial": serial(row["serial"]),
        "denom": denom(row["denom"]),
        "issued": issued(row["issued"]),
        "owner": customer_of(row["owner"]),
    }
    return read if coowner in (None, "") else {**read, "coowner": customer_of(coowner)}


def rate_row_of(row: object) -> Json:
    """Reads a row of rates as it is sent, with its keys in one order. BadValue names a key that is unknown or missing."""
    if isinstance(row, Rates):
        row = {"from": row.from_month, "rate": row.rate, "extension": row.extension}
    found = with_keys(row, ("from", "rate"), "extension", "a row of rates")
    extension = found.get("extension")
    read: Json = {"from": issue_of(found["from"]), "rate": rate_of(found["rate"])}
    return read if extension in (None, "") else {**read, "extension": rate_of(extension)}
