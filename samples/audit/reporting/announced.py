"""A list of the rates that Treasury announced, which the auditor brings, and the comparison of the rates
in a store with it. Months and rates are spelled as `import rates` reads them (docs/FORMATS.md)."""

import csv
import re
from typing import NamedTuple

from . import texts
from .checks import name_of
from .findings import Findings
from .store import NoStore, Store
from .values import MOST_RATE

MONTH = re.compile(
    r"(?P<year>\d{4})-(?P<month>\d\d)|(?P<month_first>\d\d)/(?P<year_last>\d{4})", re.ASCII
)
RATE = re.compile(r"(\d{1,2})(?:\.(\d{1,2}))?%?", re.ASCII)


class Announced(NamedTuple):
    """The fixed rate of every period, and its rate of extended maturity if the list names one. Without a
    column `extension`, `has_extensions` is false."""

    rates: dict[int, int]
    extensions: dict[int, int]
    has_extensions: bool


def month_in(text: str) -> int | None:
    found = MONTH.fullmatch(text)
    if found is None:
        return None
    year, month = (
        (found["year"], found["month"])
        if found["year"]
        else (found["year_last"], found["month_first"])
    )
    return texts.MONTHS.get(f"{year}-{month}")


def rate_in(text: str) -> int | None:
    found = RATE.fullmatch(text)
    if found is None:
        return None
    hundredths = 100 * int(found[1]) + int((found[2] or "").ljust(2, "0"))
    return hundredths if hundredths <= MOST_RATE else None


def read_announced(path: str) -> Announced:
    """The list in a CSV file with the columns `from` and `rate`, perhaps `extension`, and any others."""
    with open(path, newline="", encoding="utf-8-sig") as file:
        table = csv.DictReader(file)
        columns = table.fieldnames or []
        if not {"from", "rate"} <= set(columns):
            raise NoStore(f"{path} is no list of rates: it needs the columns `from` and `rate`")
        rates: dict[int, int] = {}
        extensions: dict[int, int] = {}
        for row in table:
            where = f"{path}: line {table.line_num}"
            month, rate = month_in(row["from"] or ""), rate_in(row["rate"] or "")
            named = row.get("extension") or None
            extension = None if named is None else rate_in(named)
            if month is None or rate is None or (named is not None and extension is None):
                raise NoStore(f"{where} has no month or no rate that can be read")
            if rates.setdefault(month, rate) != rate or (
                extension is not None and extensions.setdefault(month, extension) != extension
            ):
                raise NoStore(
                    f"{where} names another rate for {texts.month_text(month)} than a line before"
                )
    return Announced(rates, extensions, "extension" in columns)


def rates_are_those_announced(announced: Announced, store: Store, findings: Findings) -> None:
    """Every rate in the store is the one of the list. A period without a rate of extended maturity goes on
    with its fixed rate, in the list and in the store."""
    for period, fixed, extension in store.rows(
        "SELECT period, fixed, extension FROM terms ORDER BY period"
    ):
        findings.tested += 1
        row = name_of("rates", (period,))
        if period not in announced.rates:
            findings.differs(
                "rates", row, "rate", texts.rate_text(fixed), "no rate: the list has none"
            )
        else:
            findings.compare(
                "rates",
                row,
                "rate",
                texts.rate_text(fixed),
                texts.rate_text(announced.rates[period]),
            )
        if announced.has_extensions:
            compare_extensions(row, fixed, extension, announced.extensions.get(period), findings)
    if not announced.has_extensions:
        findings.remarks.append(
            f"The list has no column `extension`: the {store.count('named_extensions')} rates of extended maturity in the store weren't compared."
        )


def compare_extensions(
    row: str, fixed: int, extension: int, wanted: int | None, findings: Findings
) -> None:
    if wanted is None and extension != fixed:
        findings.differs(
            "extensions",
            row,
            "rate",
            texts.rate_text(extension),
            "no rate of extended maturity: the list has none",
        )
    elif wanted is not None:
        findings.compare(
            "extensions", row, "rate", texts.rate_text(extension), texts.rate_text(wanted)
        )
