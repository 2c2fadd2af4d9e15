#!/usr/bin/env python3
"""Makes a store of version 1, as the program made it before desks, to measure what opening it takes, which migrates it.
Usage: make_version_one.py FILE [BONDS REPLIES [--without-extensions]]. FILE must not be there; without numbers it holds 1,000,000 bonds and keeps
100,000 replies. With the last word it has no table of extensions, as a store from before these.

Its history is one of a single desk: a rate, imports of 500 bonds, and days of up to 900 tickets of one bond each, from all over the register."""
from __future__ import annotations

import datetime, os, sqlite3, sys
from typing import Iterator

TABLES = """\
CREATE TABLE desk (id INTEGER NOT NULL PRIMARY KEY, version INTEGER NOT NULL, day INTEGER, last_day INTEGER) STRICT
CREATE TABLE rates (period INTEGER NOT NULL PRIMARY KEY, rate INTEGER NOT NULL) STRICT
CREATE TABLE bonds (letter INTEGER NOT NULL, number INTEGER NOT NULL, denom INTEGER NOT NULL, issued INTEGER NOT NULL, owner INTEGER NOT NULL, coowner INTEGER, ticket INTEGER, PRIMARY KEY (letter, number)) STRICT
CREATE INDEX bonds_owner ON bonds (owner, letter, number)
CREATE TABLE tickets (ticket INTEGER NOT NULL PRIMARY KEY, day INTEGER NOT NULL, payee INTEGER NOT NULL, bonds INTEGER NOT NULL, total INTEGER NOT NULL) STRICT
CREATE INDEX tickets_day ON tickets (day, ticket)
CREATE TABLE paid (ticket INTEGER NOT NULL, place INTEGER NOT NULL, letter INTEGER NOT NULL, number INTEGER NOT NULL, cents INTEGER NOT NULL, PRIMARY KEY (ticket, place), UNIQUE (letter, number)) STRICT
CREATE TABLE batches (day INTEGER NOT NULL PRIMARY KEY, tickets INTEGER NOT NULL, bonds INTEGER NOT NULL, total INTEGER NOT NULL) STRICT
CREATE TABLE replies (number INTEGER NOT NULL PRIMARY KEY, act TEXT NOT NULL, reply TEXT NOT NULL) STRICT
CREATE TABLE extensions (period INTEGER NOT NULL PRIMARY KEY, rate INTEGER NOT NULL) STRICT""".splitlines()

ROWS, A_DAY = 500, 900
RATE = 350  # hundredths of a percent
PERIOD = 60  # months from 2005-05 to 2010-05, in which each bond is issued
FIRST_DAY = datetime.date(2015, 5, 4)
#: The texts of an act and its reply.
Texts = tuple[str, str]


def grown(unit: int, months: int) -> int:
    """unit (1 + RATE/20000)^(months/6), rounded to the nearest cent, half a cent up: sixth powers tell it exactly."""
    right = (2 * unit) ** 6 * (20000 + RATE) ** months
    cents: int = round(unit * (1 + RATE / 20000) ** (months / 6))
    while (2 * cents - 1) ** 6 * 20000**months > right:
        cents -= 1
    while (2 * cents + 1) ** 6 * 20000**months <= right:
        cents += 1
    return cents


def value(age: int) -> int:
    """What a bond of 50 dollars pays at an age of 5 to 20 years, in months: two units of 12.50 dollars."""
    unit = 1250
    for _ in range(age // 6):
        unit = grown(unit, 6)
    return 2 * grown(unit, age % 6)


def money(cents: int) -> str:
    return f"{cents // 100}.{cents % 100:02}"


def owner(bond: int) -> int:
    return bond // 100 + 1


def import_of(first: int, end: int) -> Texts:
    rows = ",".join(
        f'{{"denom":50,"issued":"2010-05","owner":{owner(bond)},"serial":"A{bond}EE"}}'
        for bond in range(first, end)
    )
    return f'{{"act":"bonds","bonds":[{rows}]}}', f'{{"new":{end - first},"same":0}}'


def entered(bonds: int) -> Iterator[Texts]:
    """The replies of the imports."""
    yield '{"act":"rates","rates":[{"from":"2010-05","rate":"3.50%"}]}', '{"new":1,"same":0}'
    for first in range(1, bonds + 1, ROWS):
        yield import_of(first, min(first + ROWS, bonds + 1))


class Books:
    """The rows of the days. The replies are written, the others are kept until then."""

    def __init__(self, bonds: int, tickets: int) -> None:
        self.bonds, self.left = bonds, tickets
        self.step = bonds // max(tickets, 1)
        self.tickets: list[tuple[int, int, int, int, int]] = []
        self.paid: list[tuple[int, int, int, int, int]] = []
        self.batches: list[tuple[int, int, int, int]] = []
        self.marks: dict[int, int] = {}
        self.day: int | None = None

    def redeem(self, day: datetime.date, count: int, cents: int) -> Texts:
        ticket = len(self.tickets) + 1
        bond = (ticket - 1) * self.step + 1
        self.tickets.append((ticket, count, owner(bond), 1, cents))
        self.paid.append((ticket, 1, 1, bond, cents))
        self.marks[bond] = ticket
        act = f'{{"act":"redeem","day":"{day}","payee":{owner(bond)},"serials":["A{bond}EE"]}}'
        line = f'{{"paid":"{money(cents)}","serial":"A{bond}EE"}}'
        return (
            act,
            f'{{"day":"{day}","lines":[{line}],"payee":{owner(bond)},"ticket":{ticket},"total":"{money(cents)}"}}',
        )

    def a_day(self, place: int) -> Iterator[Texts]:
        """The replies of the day of that place, from 0 on."""
        day = FIRST_DAY + datetime.timedelta(days=place)
        count = (day - datetime.date(1970, 1, 1)).days
        age = (day.year - 2005) * 12 + day.month - 5 - PERIOD
        if age >= 240:
            sys.exit("the days are too many")
        today, cents = min(self.left, A_DAY), value(age)
        self.left -= today
        yield f'{{"act":"open","day":"{day}"}}', f'{{"opened":"{day}"}}'
        for _ in range(today):
            yield self.redeem(day, count, cents)
        total = today * cents
        self.batches.append((count, today, today, total))
        self.day = count
        yield f'{{"act":"close","day":"{day}"}}', f'{{"bonds":{today},"day":"{day}","tickets":{today},"total":"{money(total)}"}}'


def history(books: Books) -> Iterator[Texts]:
    yield from entered(books.bonds)
    place = 0
    while books.left > 0:
        yield from books.a_day(place)
        place += 1


def tickets_for(bonds: int, replies: int) -> int:
    """How many tickets so many replies have room for, beside the imports and the days."""
    room = replies - 1 - -(-bonds // ROWS)
    days = -(-room // (A_DAY + 2))
    return room - 2 * days


def make(path: str, bonds: int, replies: int, with_extensions: bool) -> None:
    books = Books(bonds, tickets_for(bonds, replies))
    if not 0 < books.left <= bonds:
        sys.exit("no such history: the tickets would be none, or more than the bonds")
    store = sqlite3.connect(path, isolation_level=None)
    store.execute("PRAGMA journal_mode = WAL")
    store.execute("BEGIN")
    for statement in TABLES if with_extensions else TABLES[:-1]:
        store.execute(statement)
    store.executemany(
        "INSERT INTO replies VALUES (?, ?, ?)",
        ((number, *texts) for number, texts in enumerate(history(books), 1)),
    )
    store.execute("INSERT INTO desk VALUES (1, 1, NULL, ?)", (books.day,))
    store.execute("INSERT INTO rates VALUES (?, ?)", (PERIOD, RATE))
    marked = (
        (1, bond, 50, PERIOD, owner(bond), None, books.marks.get(bond))
        for bond in range(1, bonds + 1)
    )
    store.executemany("INSERT INTO bonds VALUES (?, ?, ?, ?, ?, ?, ?)", marked)
    store.executemany("INSERT INTO tickets VALUES (?, ?, ?, ?, ?)", books.tickets)
    store.executemany("INSERT INTO paid VALUES (?, ?, ?, ?, ?)", books.paid)
    store.executemany("INSERT INTO batches VALUES (?, ?, ?, ?)", books.batches)
    store.execute("COMMIT")
    kept = store.execute("SELECT count(*) FROM replies").fetchone()[0]
    store.close()
    print(
        f"{bonds} bonds, {kept} replies, {len(books.tickets)} tickets, {len(books.batches)} days, {os.path.getsize(path)} bytes"
    )


words = [word for word in sys.argv[1:] if word != "--without-extensions"]
if len(words) not in (1, 3) or os.path.exists(words[0]):
    sys.exit(__doc__)
bonds, replies = map(int, words[1:]) if len(words) == 3 else (1_000_000, 100_000)
make(words[0], bonds, replies, "--without-extensions" not in sys.argv)
