"""Treasury's redemption tables, the files sbYYYYMM.asc, and the payments of a store beside them.

A line of a table has a series, a redemption month, an issue year, and for every month of that year what a
unit pays: six digits of cents, `NO PAY` before it can be cashed, or spaces. Series EE is the series `N`,
and its unit has 25 dollars of denomination. Months are counted from May 2005, when the bonds of a store
begin. The tables have no checksum of their own."""

import collections
import dataclasses
import hashlib
import os
import re
from collections.abc import Iterable

from . import checks, texts, values
from .findings import Findings
from .store import Source, Store

TEST = (
    "published",
    "Every payment is what Treasury's table of its month says",
    "31 CFR Part 351; the tables that were given",
)
MOST_BYTES = 1 << 20  # a table has 60,000
LINE = re.compile(rb"([EINS])([0-9]{4})(0[1-9]|1[0-2])([0-9]{4})((?:[0-9]{6}|NO PAY| {6}){12})")
SERIES_EE, FIRST_YEAR = b"N", 1980

#: By issue month: the cents of a unit, or None before it can be cashed.
Units = dict[int, int | None]


class NoTable(Exception):
    """Why a file isn't a redemption table."""


@dataclasses.dataclass(frozen=True)
class Published:
    """The files that were read, and what a unit pays, by redemption month."""

    sources: tuple[Source, ...]
    units: dict[int, Units]


def counted(year: int, month: int) -> int:
    """A month, counted from May 2005."""
    return 12 * (year - 2005) + month - 5


def lines_of(data: bytes) -> Iterable[tuple[int, int, bytes]]:
    """The redemption month, the issue year and the values of every line of Series EE."""
    *lines, rest = data.split(b"\n")
    if rest or not lines:
        raise NoTable("its last line has no end" if rest else "it has no lines")
    for place, line in enumerate(lines, 1):
        found = LINE.fullmatch(line.removesuffix(b"\r"))
        if found is None:
            raise NoTable(f"line {place} isn't a line of a redemption table")
        series, year, month, issue_year, cents = found.groups()
        if series == SERIES_EE:
            yield counted(int(year), int(month)), int(issue_year), cents


def units_of_year(redeemed: int, year: int, cents: bytes) -> Units:
    """What the units of an issue year pay, of those issued since May 2005. A bond can be cashed from 12
    months after its issue on: before that a table has no value, and from then on it has one."""
    units: Units = {}
    for place in range(12):
        issued, text = counted(year, place + 1), cents[6 * place : 6 * place + 6].decode()
        wanted = (
            " " * 6 if issued > redeemed else "NO PAY" if redeemed - issued < values.HOLD else None
        )
        if issued < 0:
            continue
        if (not text.isdigit() or int(text) == 0) if wanted is None else text != wanted:
            raise NoTable(
                f"in {texts.month_text(redeemed)} it has “{text}” for {texts.month_text(issued)}"
            )
        if issued <= redeemed:
            units[issued] = int(text) if wanted is None else None
    return units


def units_of(data: bytes) -> dict[int, Units]:
    """What a table says of the redemption months since May 2005. Every month has every issue year from 1980
    on, once, and the months follow one another."""
    years: dict[int, list[int]] = collections.defaultdict(list)
    units: dict[int, Units] = {}
    for redeemed, year, cents in lines_of(data):
        years[redeemed].append(year)
        if redeemed >= 0:
            units.setdefault(redeemed, {}).update(units_of_year(redeemed, year, cents))
    for redeemed, found in years.items():
        if sorted(found) != list(range(FIRST_YEAR, 2005 + (redeemed + 4) // 12 + 1)):
            raise NoTable(
                f"an issue year of Series EE is missing or there twice in one of its {len(years)} months"
            )
    if not years or max(years) - min(years) != len(years) - 1:
        raise NoTable(
            "its months don't follow one another" if years else "it has no line of Series EE"
        )
    return units


def read_table(path: str) -> tuple[Source, dict[int, Units]]:
    try:
        with open(path, "rb") as file:
            data = file.read(MOST_BYTES + 1)
    except OSError as fault:
        raise NoTable(f"{path}: {fault.strerror}") from fault
    try:
        if len(data) > MOST_BYTES:
            raise NoTable(f"it is longer than {MOST_BYTES} bytes")
        return Source(
            os.path.basename(path), len(data), hashlib.sha256(data).hexdigest()
        ), units_of(data)
    except NoTable as fault:
        raise NoTable(f"{path} is no redemption table: {fault}") from fault


def read_tables(paths: Iterable[str]) -> Published:
    """Reads tables. Two that speak of one month have to say the same of it."""
    sources: list[Source] = []
    units: dict[int, Units] = {}
    for path in paths:
        source, found = read_table(path)
        for redeemed, of_month in found.items():
            if units.setdefault(redeemed, of_month) != of_month:
                raise NoTable(
                    f"{path}: another table says something else of {texts.month_text(redeemed)}"
                )
        sources.append(source)
    return Published(tuple(sources), units)


def wanted_text(units: Units, issued: int, denomination: int) -> str:
    if issued not in units:
        return f"no value for {texts.month_text(issued)}"
    unit = units[issued]
    return "NO PAY" if unit is None else texts.money(denomination // 25 * unit)


def payments_are_published(published: Published, store: Store, findings: Findings) -> None:
    """Every payment is the table's value of its bond in the month of its day. Payments of months that no
    table has are counted, and their months named."""
    missing: collections.Counter[int] = collections.Counter()
    lines = "SELECT p.ticket, p.place, p.letter, p.number, p.cents, t.day, b.denom, b.issued FROM paid AS p JOIN tickets AS t ON t.ticket = p.ticket JOIN bonds AS b ON b.letter = p.letter AND b.number = p.number ORDER BY p.ticket, p.place"
    for ticket, place, letter, number, cents, day, denomination, issued in store.rows(lines):
        redeemed = texts.month_of_day(day)
        if redeemed not in published.units:
            missing[redeemed] += 1
            continue
        findings.tested += 1
        what = (
            f"cents of {checks.name_of('bonds', (letter, number))} in {texts.month_text(redeemed)}"
        )
        findings.compare(
            "paid",
            checks.name_of("paid", (ticket, place)),
            what,
            texts.money(cents),
            wanted_text(published.units[redeemed], issued, denomination),
        )
    findings.remarks += [
        f"{source.name}, {source.length} bytes, SHA-256 {source.sha256}"
        for source in published.sources
    ]
    if missing:
        months = ", ".join(
            f"{texts.month_text(month)} ({count})" for month, count in sorted(missing.items())
        )
        findings.remarks.append(
            f"Payments of months that no table has: {missing.total()}, in {months}."
        )
