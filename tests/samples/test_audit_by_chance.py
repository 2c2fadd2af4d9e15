"""The report for auditors over stores by chance: it finds nothing in them, and each value that was changed (parts/changes.toml), whose row it names."""

import random
import re
import sqlite3
import tomllib
from contextlib import closing
from pathlib import Path
from typing import Any, Callable

import pytest
from reporting import making, page, store as reading, texts

from tests.restore.counter_day import run
from tests.samples.books import changed
from tests.samples.books import AUDIT, differing, reported
from tests.shared.counter_calls import apply, post
from tests.shared.hostile import counter, desk, making as requests, spelling

STORES = 16
CHANGES = tomllib.loads((Path(__file__).parent / "parts/changes.toml").read_text())
#: What opening finds too; a change has to be found by another test.
FOUND_BY_OTHERS = {"file", "checksums"}
ASKED = making.Asked(as_of=texts.read_day("2199-12-31") or 0)
#: How the report names the rows of a table, by SQL.
ROWS = {
    "desk": "'1'",
    "rates": "month(period)",
    "extensions": "month(period)",
    "bonds": "char(64 + letter) || number || 'EE'",
    "tickets": "'ticket ' || ticket",
    "paid": "'ticket ' || ticket || ' place ' || place",
    "batches": "day(day)",
    "answers": "'desk ' || desk || ' number ' || number",
}
RATES = [
    {"from": "2010-05", "rate": "3.50", "extension": "4.00"},
    {"from": "2010-11", "rate": "3.50"},
    {"from": "2005-05", "rate": "1.40"},
]
OF_EIGHT = {"denom": 50, "issued": "2010-11", "owner": 7, "coowner": 8}
FIRST: list[tuple[str, dict[str, Any]]] = [
    ("/rates", {"rates": RATES}),
    ("/bonds", {"bonds": [{"serial": f"L{n}EE", **OF_EIGHT} for n in range(1, 9)]}),
    ("/day/open", {"day": "2012-02-06"}),
    ("/redeem", {"day": "2012-02-06", "payee": 7, "serials": ["L1EE", "L2EE", "L3EE"]}),
    ("/redeem", {"day": "2012-02-06", "payee": 8, "serials": ["L4EE"]}),
    ("/day/close", {"day": "2012-02-06"}),
    ("/day/open", {"day": "2012-02-07"}),
]


def is_rich(books: desk.Books) -> bool:
    """Whether each table has rows that tests may change."""
    with_tickets = {ticket["day"] for ticket in books.tickets} & set(books.batches)
    refused = sum("refused" in reply for _, reply in books.kept.values())
    has_days = len(with_tickets) >= 2 and len(books.batches) >= 3 and books.day is not None
    return has_days and refused >= 5 and len(books.bonds) > len(books.paid_on) + 2


def by_chance(dice: random.Random, count: int) -> tuple[list[bytes], desk.Books]:
    """So many requests, and the books that they lead to by the rules of tests/shared/hostile."""
    books, messages = desk.Books(), list[bytes]()
    wanted = [(path, {"number": 2**62 + nth, **body}) for nth, (path, body) in enumerate(FIRST)]
    while len(messages) < count or not is_rich(books):
        path, body = wanted.pop(0) if wanted else requests.posted(dice, books)
        messages.append(post(path, body, b""))
        counter.connection(books, messages[-1])
        assert len(messages) <= 20 * count, "no rich store came by chance"
    return messages, books


def query(store: Path, name: str) -> list[list[str]]:
    ran = run("sqlite3", "-readonly", store, input=(AUDIT / f"{name}.sql").read_text())
    assert ran.returncode == 0, ran
    return [line.split() for line in ran.stdout.splitlines()[2:]]


def cents(money: str) -> int:
    whole, _, rest = money.partition(".")
    return 100 * int(whole) + int(rest)


def has_the_sums_of_the_queries(store: Path, found: making.Report) -> None:
    """The days, the payments and the unpaid bonds, which the queries of samples/audit add up in SQL."""
    period = found["period"]
    assert period is not None
    days = []
    for one in period["days"]:
        ends = [one["total"], "yes"] if one["is_closed"] else ["open"]
        counts = [str(one["tickets"]), str(one["bonds"])]
        days.append([one["day"], *counts, *[one["total"]] * 2, *ends])
    assert query(store, "batches_against_tickets") == days
    paid = sum(cents(line[-2]) for line in query(store, "payments_by_payee_and_day"))
    assert paid == cents(period["sums"]["total"])
    unpaid, outlook = query(store, "unpaid_by_owner"), period["outlook"]
    bonds, price = (outlook["bonds"], outlook["price"]) if outlook else (0, "0.00")
    assert sum(int(line[3]) for line in unpaid) == bonds
    assert sum(cents(line[4]) for line in unpaid) == cents(price)
    assert query(store, "replies_against_tables") == []


def rows_of(base: sqlite3.Connection, table: str) -> dict[str, tuple[Any, ...]]:
    return {row[0]: row[1:] for row in base.execute(f"SELECT {ROWS[table]}, rowid, * FROM {table}")}


def change(
    store: Path, dice: random.Random, table: str, setting: str, where: str = "1"
) -> set[tuple[str, str]]:
    """Changes one value. The rows that may be named for it; none if the store has no such value."""
    with closing(sqlite3.connect(store)) as base:
        month: Callable[[int], str] = lambda n: spelling.month_text(n + spelling.FIRST_MONTH)
        base.create_function("month", 1, month)
        base.create_function("day", 1, spelling.day_text)
        found = [row for row, in base.execute(f"SELECT rowid FROM {table} WHERE {where}")]
        if not found:
            return set()
        before, row, coin = rows_of(base, table), dice.choice(found), dice.choice((-1, 1))
        words = {"row": row, "coin": coin}
        base.execute(f"UPDATE {table} SET {setting} WHERE rowid = :row", words)
        base.commit()
        after = rows_of(base, table)
        names = {name for name in {*before, *after} if before.get(name) != after.get(name)}
        assert names, "nothing was changed"
        named = {(table, name) for name in names}
        named |= {("sqlite_schema", "all")} if table == "desk" else set()
        for act in [after[name][3] for name in names if table == "answers" and "act = " in setting]:
            # The bonds and rates that the act would register.
            named |= {("bonds", serial) for serial in re.findall(r'"serial":"(\w+)"', act)}
            named |= {("rates", begins) for begins in re.findall(r'"from":"([\d-]+)"', act)}
        return named


@pytest.mark.needs("sqlite3")
@pytest.mark.parametrize("seed", range(1, STORES + 1))
def test_store_by_chance(program: Path, folder: Path, seed: int) -> None:
    dice, store, copy = random.Random(seed), folder / "day.db", folder / "changed.db"
    apply(program, store, by_chance(dice, 120)[0])
    found = reported(store, ASKED)
    assert differing(found) == {} and found["period"] and len(found["period"]["refusals"]) >= 3
    has_the_sums_of_the_queries(store, found)
    tried = []
    for kind, words in CHANGES.items():
        changed(store, copy)
        named = change(copy, dice, *words)
        if named:
            tried.append(kind)
            tests = differing(reported(copy, ASKED)).items()
            told = {row[:2] for name, rows in tests if name not in FOUND_BY_OTHERS for row in rows}
            assert told & named, kind
    assert set(CHANGES) - set(tried) <= {"bonds.owner, paid to the coowner"}


def test_damaged_bytes(program: Path, folder: Path) -> None:
    """Each such store can't be read, or something of it differs; none stops the report."""
    store, damaged, ends = folder / "day.db", folder / "damaged.db", {"differs": 0, "refused": 0}
    apply(program, store, by_chance(random.Random(3), 80)[0])
    whole = store.read_bytes()
    for seed in range(100):
        dice, data = random.Random(seed), bytearray(whole)
        for _ in range(dice.choice((1, 1, 3, 20))):
            at = dice.randrange(16, len(data) - 4)
            data[at : at + 4] = dice.randbytes(4)
        damaged.write_bytes(data)
        try:
            found = reported(damaged, ASKED)
        except (sqlite3.Error, UnicodeDecodeError):
            ends["refused"] += 1
            continue
        page.page(found, {})
        assert found["differing"], seed
        ends["differs"] += 1
    assert min(ends.values()) > 10, ends


def of_version_1(store: Path, books: desk.Books) -> None:
    """A store of version 1: several counters used ranges of numbers of their own, so the numbers tell no order in time. Each request is kept under a number alone."""
    found: dict[str, list[Any]] = dict(desk.rows_of(books))
    places = {key: place for place, key in enumerate(books.kept)}
    kept = [(places[row[0], row[1]], row[2], row[3]) for row in found.pop("answers")]
    found["replies"] = sorted((1_000_000 * (1 + at % 5) + at, *rest) for at, *rest in kept)
    found["desk"] = [(1, 1, *found["desk"][0][2:])]
    with closing(sqlite3.connect(store)) as base:
        for statement in reading.FORMS[1][1]:
            base.execute(statement)
        for table, rows in found.items():
            for row in rows:
                base.execute(f"INSERT INTO {table} VALUES ({', '.join('?' * len(row))})", row)
        base.commit()


def test_stores_of_version_1(program: Path, folder: Path) -> None:
    """Nothing differs, before their migration and after it; in most the replies show the order, and the digests stay."""
    reordered = 0
    for seed in range(8):
        store = folder / f"first{seed}.db"
        of_version_1(store, by_chance(random.Random(seed), 120)[1])
        before = reported(store, ASKED)
        assert run(program, "export", "7", "--db", store).returncode == 0
        after = reported(store, ASKED)
        assert differing(before) == differing(after) == {} and after["store"]["version"] == 2
        assert before["digests"] == after["digests"]
        (replies,) = [test for test in after["tests"] if test["name"] == "replies"]
        reordered += bool(replies["remarks"])
    assert reordered > 4
