"""Random days at the counter: bodies that the books often take, by nothing of what is right."""

import random

from . import desk as desks
from . import spelling

NUMBERS = [*range(1, 9), 2**63 - 1]
DESKS = (None, None, 0, 1, 2, 999)
OWNERS = (7, 8, 9, 1, 999_999_999)
MONTHS = "2005-05 2010-05 2010-11 2011-05 2011-11 2012-05 2099-11".split()
ISSUED = "2005-05 2005-10 2010-05 2010-10 2010-11 2011-02 2011-06 2012-01 2099-12".split()
RATES = "0 0.00 1.40 2.00 2 3.5% 3.50 20.00".split()
DAYS = "2011-12-31 2012-02-06 2012-02-07 2012-06-01 2015-10-31 2025-06-02 2030-11-04".split()
LAST_DAY = spelling.day("2199-01-01") or 0


def serials(dice: random.Random) -> str:
    number = dice.choice((1, 2, 3, 4, 9_999_999_999, dice.randrange(5, 200)))
    return f"{dice.choice('AKLZ')}{number}EE"


def respelled_serial(dice: random.Random, text: str) -> str:
    letter, digits = text[0], text[1:-2]
    one, two = dice.choices(("", "-"), k=2)
    return f"{letter}{one}{digits.rjust(dice.choice((0, 4, 10)), '0')}{two}EE"


def respelled_month(dice: random.Random, text: str) -> str:
    return dice.choice((text, f"{text[5:]}/{text[:4]}"))


def rate_rows(dice: random.Random) -> list[dict[str, object]]:
    rows = []
    for _ in range(dice.choice((0, 1, 1, 2, 2, 3, 4))):
        begins = dice.choice(MONTHS) if dice.random() < 0.9 else dice.choice(ISSUED)
        row: dict[str, object] = {"from": respelled_month(dice, begins), "rate": dice.choice(RATES)}
        if dice.random() < 0.4:
            row["extension"] = dice.choice((*RATES, None))
        rows.append(row)
    return rows


def bond_rows(dice: random.Random) -> list[dict[str, object]]:
    rows = []
    for _ in range(dice.choice((0, 1, 2, 3, 5, 8))):
        row = {
            "serial": respelled_serial(dice, serials(dice)),
            "denom": dice.choice(spelling.DENOMINATIONS),
            "issued": respelled_month(dice, dice.choice(ISSUED)),
            "owner": dice.choice(OWNERS),
        }
        if dice.random() < 0.5:
            row["coowner"] = dice.choice((*OWNERS, None))
        rows.append(row)
    return rows


def day_for(dice: random.Random, books: desks.Books) -> str:
    """Mostly the open day, or one that may be opened."""
    way = dice.random()
    if books.day is not None and way < 0.95:
        return spelling.day_text(books.day)
    if way < 0.05 or books.last_day is None or books.last_day > LAST_DAY:
        return dice.choice(DAYS)
    return spelling.day_text(books.last_day + dice.choice((-1, 0, 1, 1, 1, 2, 30, 200)))


def posted(dice: random.Random, books: desks.Books) -> tuple[str, dict[str, object]]:
    """A path and a body, which is often one that the books take."""
    kinds = ["rates", "bonds", "bonds", "bonds", "day/open", *["redeem"] * 7]
    kind = dice.choice([*kinds, "day/close"] if dice.random() < 0.5 else kinds)
    if books.day is None and dice.random() < 0.4:
        kind = "day/open"
    body = {"number": dice.choice(NUMBERS) if dice.random() < 0.25 else 1000 + len(books.kept)}
    desk = dice.choice(DESKS)
    if desk is not None or dice.random() < 0.2:
        body["desk"] = desk
    if kind == "rates":
        return "/rates", {**body, "rates": rate_rows(dice)}
    if kind == "bonds":
        return "/bonds", {**body, "bonds": bond_rows(dice)}
    body["day"] = day_for(dice, books)
    if kind == "redeem":
        known = [spelling.serial_text(serial) for serial in books.bonds]
        payee = dice.choice(OWNERS)
        unpaid = [one for one, bond in books.bonds.items() if payee in bond[2:]]
        mine = [spelling.serial_text(one) for one in unpaid if one not in books.paid_on]
        some = dice.choice((mine, mine, mine, known, ["A1EE", "Z9EE", "K2EE"])) or known or ["A1EE"]
        named = dice.choices(some, k=dice.choice((0, 1, 1, 1, 2, 3)))
        body |= {"payee": payee, "serials": [respelled_serial(dice, one) for one in named]}
    return "/" + kind, body
