"""A report of a store: the tests, the replay, the digests and the figures, as one value that JSON can
hold."""

import dataclasses
import functools
import sqlite3
from typing import Any, Callable, TypedDict, TypeVar

from . import (
    announced,
    archive,
    checks,
    digests,
    interest,
    period,
    published,
    remarks,
    replay,
    texts,
)
from .findings import Findings, visible
from .store import Source, Store, make_views, needed_tables_are_there

KEPT_TESTS = (
    (
        "texts",
        "Every kept text is the one text of its act or reply, and the row numbers have no gap",
        "FORMATS, JSON texts",
        replay.texts_are_canonical,
    ),
    (
        "told",
        "Every ticket and batch is exactly what one kept reply says, and the other way round",
        "MODEL, Act",
        replay.replies_are_told_by_the_tables,
    ),
)
REPLIES = (
    "replies",
    "Every kept reply is what the rules answer to its act, from nothing on",
    "MODEL, Refusals, Act; STATUSES, Refusals",
)
BOOKS = (
    "books",
    "The tables are what the kept requests make of nothing",
    "MODEL, Books and content of a list",
)
ROWS = {
    "bonds": "bonds",
    "tickets": "tickets",
    "paid": "payments",
    "batches": "batches",
    "kept": "kept requests",
}

ANNOUNCED = (
    "announced",
    "Every rate that was entered is the one of the list that was given",
    "31 CFR Part 351; the list",
)
INTEREST = (
    "interest",
    "The interest of the year by payee comes to its tickets, its batches and the open day",
    "MODEL, Conservation",
)
ARCHIVE = (
    "archive",
    "Every archived request is in the store, in its row, and the archive is as it was written",
    "FORMATS, The archive of requests",
)
EARLIER = (
    "earlier",
    "Every digest of the earlier report still fits its requests",
    "AUDIT, Digests of closed days",
)
#: A test by its name, its sentence and its source.
Test = tuple[str, str, str, Callable[[Store, Findings], None]]
UNREADABLE = (sqlite3.Error, ValueError, TypeError, KeyError, OverflowError, IndexError)
M = TypeVar("M")


class FileRow(TypedDict):
    name: str
    bytes: int
    sha256: str


class StoreRow(TypedDict):
    version: int | None
    first_day: str | None
    last_day: str | None
    open_day: str | None
    rows: dict[str, int]


#: A period's rates, as texts.
RateRow = TypedDict("RateRow", {"from": str, "rate": str, "extension": str, "bonds": int})


class DifferenceRow(TypedDict):
    table: str
    row: str
    what: str
    found: str
    wanted: str


class TestRow(TypedDict):
    name: str
    title: str
    source: str
    tested: int
    differing: int
    differences: list[DifferenceRow]
    remarks: list[str]


class DigestRow(TypedDict):
    day: str | None
    requests: int
    sha256: str


class Report(TypedDict):
    """What report.json has."""

    about: str
    as_of: str
    files: list[FileRow]
    store: StoreRow
    rates: list[RateRow]
    tests: list[TestRow]
    tested: int
    differing: int
    remarks: list[remarks.Kind]
    digests: list[DigestRow]
    month: str | None
    period: period.Figures | None
    interest: interest.Interest | None


@dataclasses.dataclass(frozen=True)
class Asked:
    """What a report is asked for besides its store: the month of its figures, the year of its interest,
    the day that counts as today, and what the store is compared with."""

    as_of: int
    month: int | None = None
    year: int | None = None
    listed: announced.Announced | None = None
    archives: tuple[archive.Archive, ...] = ()
    earlier: tuple[digests.Digest, ...] = ()
    tables: published.Published | None = None
    sources: tuple[Source, ...] = ()  # the files of the earlier report


def report_of(store: Store, asked: Asked) -> Report:
    """The whole report. A store without the tables of the program is tested for these alone."""
    if not needed_tables_are_there(store):
        findings = [checks.ran(store, *test) for test in checks.TESTS[:2]] + [without_tables(store)]
        return told(store, findings, asked, None)
    make_views(store)
    findings = checks.run_all(store) + [
        checks.ran(store, *test) for test in (*KEPT_TESTS, *asked_tests(asked))
    ]
    replies, books, entries = replay_findings(store, findings[1].tested > 0)
    return told(
        store,
        [*findings, replies, books],
        asked,
        if_readable(period.figures_of, store, entries, asked.month),
    )


def asked_tests(asked: Asked) -> list[Test]:
    """The tests that compare the store with what the auditor brings, and the tie of a year's interest."""
    tests: list[Test] = []
    if asked.listed is not None:
        tests.append(
            (*ANNOUNCED, functools.partial(announced.rates_are_those_announced, asked.listed))
        )
    if asked.tables is not None:
        tests.append(
            (*published.TEST, functools.partial(published.payments_are_published, asked.tables))
        )
    if asked.year is not None:
        tests.append((*INTEREST, functools.partial(interest.interest_is_settled, asked.year)))
    for place, one in enumerate(asked.archives, 1):
        name = ARCHIVE[0] if place == 1 else f"{ARCHIVE[0]}-{place}"
        tests.append((name, *ARCHIVE[1:], functools.partial(archive.store_is_as_archived, one)))
    if asked.earlier:
        tests.append(
            (*EARLIER, functools.partial(digests.earlier_digests_are_there, asked.earlier))
        )
    return tests


def without_tables(store: Store) -> Findings:
    findings = Findings(*checks.TESTS[2][:3])
    findings.differs(
        "sqlite_schema",
        "all",
        "tables",
        f"{len(store.statements)} statements",
        "the tables of the program",
    )
    return findings


def replay_findings(
    store: Store, has_checksums: bool
) -> tuple[Findings, Findings, list[replay.Entry]]:
    books = Findings(*BOOKS)
    try:
        run = replay.replay_of(store, *REPLIES, has_checksums)
        replay.books_are_the_replays(store, run.books, books)
    except UNREADABLE as fault:
        books.differs(
            "store",
            "all",
            "the replay can't go on",
            f"{type(fault).__name__}: {fault}",
            "rows that can be read",
        )
        return Findings(*REPLIES), books, []
    return run.findings, books, run.entries


def told(
    store: Store, findings: list[Findings], asked: Asked, in_figures: period.Figures | None
) -> Report:
    sources = [
        *store.sources,
        *(one for each in asked.archives for one in each.sources),
        *asked.sources,
    ]
    is_readable = in_figures is not None
    report: dict[str, Any] = {
        "about": "samples/audit/report",
        "as_of": texts.day_text(asked.as_of),
        "files": [{"name": one.name, "bytes": one.length, "sha256": one.sha256} for one in sources],
        "store": about_store(store)
        if is_readable
        else {
            "version": store.version,
            "first_day": None,
            "last_day": None,
            "open_day": None,
            "rows": {},
        },
        "rates": if_readable(rates_of, store) or [],
        "tests": [dataclasses.asdict(one) for one in findings],
        "tested": sum(one.tested for one in findings),
        "differing": sum(one.differing for one in findings),
        "remarks": if_readable(remarks.remarks_of, store, asked.as_of) or [],
        "digests": [one._asdict() for one in if_readable(digests.digests_of, store) or []],
        "month": None if asked.month is None else texts.month_text(asked.month),
        "period": in_figures,
        "interest": None
        if asked.year is None
        else if_readable(interest.interest_of, store, asked.year),
    }
    shown: Report = visible(report)
    return shown


def if_readable(made: Callable[..., M], *of: object) -> M | None:
    """A part of the report; None if the rows allow none."""
    try:
        return made(*of)
    except UNREADABLE:
        return None


def about_store(store: Store) -> StoreRow:
    first, last = store.one(
        "SELECT min(day), max(day) FROM (SELECT day FROM batches UNION SELECT day FROM tickets UNION SELECT day FROM desk)"
    )
    first_day, last_day, opened = (
        None if day is None else texts.day_text(day) for day in (first, last, store.open_day())
    )
    return {
        "version": store.version,
        "first_day": first_day,
        "last_day": last_day,
        "open_day": opened,
        "rows": {name: store.count(table) for table, name in ROWS.items()},
    }


def rates_of(store: Store) -> list[RateRow]:
    counts = dict(
        store.rows("SELECT issued - issued % 6 AS period, count(*) FROM bonds GROUP BY 1")
    )
    rates = store.rows("SELECT period, fixed, extension FROM terms ORDER BY period")
    return [
        {
            "from": texts.month_text(period),
            "rate": texts.rate_text(fixed),
            "extension": texts.rate_text(extension),
            "bonds": counts.get(period, 0),
        }
        for period, fixed, extension in rates
    ]
