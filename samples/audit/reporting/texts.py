"""How docs/FORMATS.md writes values, acts and replies, and which texts are those of an act or a reply.

Months are counted from May 2005, days from 1970-01-01, as in a store's tables. A serial number is kept
as its printed text."""

import datetime
import functools
import json
import re
from typing import Callable, Literal, TypedDict, TypeGuard

from .values import DENOMINATIONS, MOST_RATE

LAST_ISSUE, LAST_MONTH = 1135, 2335  # 2099-12, 2199-12
FIRST_DAY, LAST_DAY = 12904, 84005  # 2005-05-01, 2199-12-31
LAST_CUSTOMER, LAST_SERIAL, LAST_NUMBER = 999_999_999, 9_999_999_999, 2**63 - 1
EPOCH = datetime.date(1970, 1, 1).toordinal()
SERIAL = re.compile(r"[A-Z][1-9][0-9]{0,9}EE", re.ASCII)
MONEY = re.compile(r"(0|[1-9][0-9]*)\.([0-9][0-9])", re.ASCII)

# Every refusal by its code: its name, and what it names beside it (docs/FORMATS.md, "The text of a reply").
REFUSALS = {
    # the refusals: .ci/refusals
    10: ("NumberReused", ()),
    11: ("Empty", ()),
    12: ("TooMany", ()),
    13: ("Repeated", ("serial",)),
    14: ("SameCoowner", ("serial",)),
    20: ("NotAnnouncementMonth", ("month",)),
    21: ("RateConflict", ("month",)),
    22: ("RateUnsettled", ("month",)),
    30: ("NoRate", ("serial",)),
    31: ("SerialConflict", ("serial",)),
    40: ("DayOpen", ()),
    41: ("DayNotLater", ()),
    42: ("NoOpenDay", ()),
    43: ("DayIsOther", ()),
    44: ("DayFull", ()),
    50: ("UnknownSerial", ("serial",)),
    51: ("NotPayee", ("serial",)),
    52: ("AlreadyPaid", ("serial", "ticket")),
    53: ("NotIssued", ("serial",)),
    54: ("NotEligible", ("serial",)),
    # the end of the refusals
}

# docs/FORMATS.md, "The canonical text of an act". A row names a rate of extended maturity and a coowner, or neither.
NamedRate = TypedDict("NamedRate", {"from": str, "rate": str})


class RateRow(NamedRate, total=False):
    extension: str


class OwnedBond(TypedDict):
    serial: str
    denom: int
    issued: str
    owner: int


class BondRow(OwnedBond, total=False):
    coowner: int


class RatesAct(TypedDict):
    act: Literal["rates"]
    rates: list[RateRow]


class BondsAct(TypedDict):
    act: Literal["bonds"]
    bonds: list[BondRow]


class OpenAct(TypedDict):
    act: Literal["open"]
    day: str


class CloseAct(TypedDict):
    act: Literal["close"]
    day: str


class RedeemAct(TypedDict):
    act: Literal["redeem"]
    day: str
    payee: int
    serials: list[str]


class UnreadableAct(TypedDict):
    """Stands in for the act of a text that can't be read."""

    act: Literal[""]


Act = RatesAct | BondsAct | OpenAct | CloseAct | RedeemAct


class Line(TypedDict):
    """A line of a ticket."""

    paid: str
    serial: str


class Reply(TypedDict, total=False):
    """The keys of all replies (docs/FORMATS.md, "The text of a reply"). Each reply has those of its kind. The
    month of code 22 is an age."""

    code: int
    refused: str
    serial: str
    ticket: int
    month: str | int
    new: int
    same: int
    opened: str
    day: str
    tickets: int
    bonds: int
    total: str
    payee: int
    lines: list[Line]


def money(cents: int) -> str:
    return f"{cents // 100}.{cents % 100:02}"


def rate_text(hundredths: int) -> str:
    return f"{hundredths // 100}.{hundredths % 100:02}%"


@functools.lru_cache(maxsize=None)
def month_text(month: int) -> str:
    return f"{2005 + (month + 4) // 12}-{(month + 4) % 12 + 1:02}"


@functools.lru_cache(maxsize=None)
def day_text(day: int) -> str:
    return datetime.date.fromordinal(day + EPOCH).isoformat()


@functools.lru_cache(maxsize=None)
def month_of_day(day: int) -> int:
    """The month of a day, counted from May 2005. (Model: "Age".)"""
    date = datetime.date.fromordinal(day + EPOCH)
    return 12 * (date.year - 2005) + date.month - 5


def serial_text(letter: int, number: int) -> str:
    return f"{chr(64 + letter)}{number}EE"


def serial_order(serial: str) -> tuple[str, int]:
    """The order of serial numbers: the letter, then the number."""
    return serial[0], int(serial[1:-2])


RATES = {rate_text(rate): rate for rate in range(MOST_RATE + 1)}
MONTHS = {month_text(month): month for month in range(LAST_MONTH + 1)}


@functools.lru_cache(maxsize=None)
def read_day(text: str) -> int | None:
    """The day that a text spells as it is printed, or None."""
    try:
        day = datetime.date.fromisoformat(text).toordinal() - EPOCH
    except (TypeError, ValueError):
        return None
    return day if FIRST_DAY <= day <= LAST_DAY and day_text(day) == text else None


def day_in(text: str) -> int:
    """The day that a text of an act or a reply spells."""
    day = read_day(text)
    if day is None:
        raise ValueError(f"{text} is no day")
    return day


def read_money(text: object) -> int | None:
    found = MONEY.fullmatch(text) if isinstance(text, str) else None
    return 100 * int(found[1]) + int(found[2]) if found else None


def cents_in(text: str) -> int:
    """The cents that a text of a reply spells."""
    cents = read_money(text)
    if cents is None:
        raise ValueError(f"{text} is no sum of money")
    return cents


def compact(value: object) -> str:
    """The text of a JSON value: compact, with its keys in the order of their bytes."""
    return json.dumps(value, separators=(",", ":"), sort_keys=True)


def parsed(text: str) -> object:
    """The JSON value of which a text is the compact text, or None."""
    try:
        value: object = json.loads(text)
        return value if compact(value) == text else None
    except (ValueError, RecursionError):
        return None


def is_whole(value: object, least: int, most: int) -> bool:
    return type(value) is int and least <= value <= most


def is_serial(value: object) -> bool:
    return isinstance(value, str) and SERIAL.fullmatch(value) is not None


def is_month(value: object, last: int = LAST_MONTH) -> bool:
    return isinstance(value, str) and MONTHS.get(value, last + 1) <= last


# ---- acts


def is_rate_row(row: object) -> bool:
    if not isinstance(row, dict) or row.keys() - {"extension"} != {"from", "rate"}:
        return False
    rates = [row["rate"], row.get("extension", row["rate"])]
    is_named_rightly = "extension" not in row or row["extension"] != row["rate"]
    return (
        is_month(row["from"], LAST_ISSUE)
        and all(isinstance(rate, str) and rate in RATES for rate in rates)
        and is_named_rightly
    )


def is_bond_row(row: object) -> bool:
    if not isinstance(row, dict) or row.keys() - {"coowner"} != {
        "serial",
        "denom",
        "issued",
        "owner",
    }:
        return False
    customers = [row["owner"], row.get("coowner", 1)]
    is_denomination = type(row["denom"]) is int and row["denom"] in DENOMINATIONS
    return (
        is_denomination
        and is_serial(row["serial"])
        and is_month(row["issued"], LAST_ISSUE)
        and all(is_whole(one, 1, LAST_CUSTOMER) for one in customers)
    )


def is_act(act: object) -> TypeGuard[Act]:
    """Whether a value is that of an act (docs/FORMATS.md, "The canonical text of an act")."""
    if not isinstance(act, dict):
        return False
    kind = act.get("act")
    if kind in ("rates", "bonds"):
        is_row = is_rate_row if kind == "rates" else is_bond_row
        return (
            act.keys() == {"act", kind}
            and isinstance(act[kind], list)
            and all(map(is_row, act[kind]))
        )
    if kind not in ("open", "close", "redeem") or read_day(act.get("day")) is None:
        return False
    if kind != "redeem":
        return act.keys() == {"act", "day"}
    is_redemption = act.keys() == {"act", "day", "payee", "serials"} and is_whole(
        act["payee"], 1, LAST_CUSTOMER
    )
    return (
        is_redemption and isinstance(act["serials"], list) and all(map(is_serial, act["serials"]))
    )


def read_act(text: str) -> Act | None:
    """The act of which a text is the canonical one, or None."""
    act = parsed(text)
    return act if is_act(act) else None


# ---- replies


def is_refusal(reply: dict[str, object]) -> bool:
    code = reply.get("code")
    if type(code) is not int or code not in REFUSALS or code == 10:
        return False
    name, named = REFUSALS[code]
    if reply.keys() != {"code", "refused", *named} or reply["refused"] != name:
        return False
    tests: dict[str, Callable[[object], bool]] = {
        "serial": is_serial,
        "ticket": lambda one: is_whole(one, 1, LAST_NUMBER),
        "month": lambda one: is_month(one) if code != 22 else is_whole(one, 0, 359),
    }
    return all(tests[field](reply[field]) for field in named)


def is_ticket(reply: dict[str, object]) -> bool:
    if reply.keys() != {"day", "lines", "payee", "ticket", "total"} or not isinstance(
        reply["lines"], list
    ):
        return False
    lines = reply["lines"]
    are_lines = all(
        isinstance(line, dict)
        and line.keys() == {"paid", "serial"}
        and is_serial(line["serial"])
        and read_money(line["paid"]) is not None
        for line in lines
    )
    are_numbers = is_whole(reply["payee"], 1, LAST_CUSTOMER) and is_whole(
        reply["ticket"], 1, LAST_NUMBER
    )
    return (
        are_lines
        and are_numbers
        and read_day(reply["day"]) is not None
        and read_money(reply["total"]) is not None
    )


def is_reply(reply: object) -> TypeGuard[Reply]:
    """Whether a value is that of a reply other than `NumberReused` (docs/FORMATS.md, "The text of a reply")."""
    if not isinstance(reply, dict):
        return False
    keys = reply.keys()
    if keys == {"new", "same"}:
        return all(is_whole(reply[key], 0, LAST_NUMBER) for key in keys)
    if keys == {"opened"}:
        return read_day(reply["opened"]) is not None
    if keys == {"bonds", "day", "tickets", "total"}:
        are_numbers = is_whole(reply["bonds"], 0, LAST_NUMBER) and is_whole(
            reply["tickets"], 0, LAST_NUMBER
        )
        return (
            are_numbers
            and read_day(reply["day"]) is not None
            and read_money(reply["total"]) is not None
        )
    return is_refusal(reply) or is_ticket(reply)


def read_reply(text: str) -> Reply | None:
    """The reply of which a text is the one text, or None."""
    reply = parsed(text)
    return reply if is_reply(reply) else None


def ticket_reply(
    number: int, day: int, payee: int, lines: list[tuple[str, int]], total: int
) -> Reply:
    told: list[Line] = [{"paid": money(cents), "serial": serial} for serial, cents in lines]
    return {
        "day": day_text(day),
        "lines": told,
        "payee": payee,
        "ticket": number,
        "total": money(total),
    }


def batch_reply(day: int, tickets: int, bonds: int, total: int) -> Reply:
    return {"bonds": bonds, "day": day_text(day), "tickets": tickets, "total": money(total)}
