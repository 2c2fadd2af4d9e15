"""The settlement of a closed day, as a cash letter wants it: a row per paid bond, with sums that are its batch's, as CSV and as a page to print."""
from __future__ import annotations

import html
from typing import Iterable, NamedTuple, Sequence, Tuple

from .errors import Incomplete
from .interest import COLUMNS, Known, interest_of_day
from .lookups import Lookups
from .results import Batch, Interest
from .spelling import DayLike, day_of

STYLE = (
    "body{font:10pt sans-serif;margin:2em}table{border-collapse:collapse;width:100%}"
    "th,td{border:1px solid #777;padding:.2em .5em;text-align:right}thead{display:table-header-group}"
    "tr{break-inside:avoid}.sign{margin-top:3em}"
)


class Settlement(NamedTuple):
    """A day's bonds and the batch that settles it. `missing` says what isn't known of them, or differs from the batch."""

    interest: Interest
    batch: Batch
    missing: Tuple[str, ...]

    @property
    def page(self) -> str:
        """An HTML page to print and sign."""
        day = self.batch.day.isoformat()
        rows = "".join(row_of(vars(row).values(), "td") for row in self.interest.rows)
        sums = (self.interest.price, self.interest.interest, self.interest.value)
        total = row_of(("Total", "", "", f"{len(self.interest.rows)} bonds", "", "", *sums), "th")
        missing = "".join(f"<li>{html.escape(one)}</li>" for one in self.missing)
        return (
            f'<!DOCTYPE html><html lang="en"><meta charset="utf-8"><title>Settlement of {day}</title><style>{STYLE}</style>'
            f"<h1>Settlement of {day}</h1><p>Series EE savings bonds that were paid. {batch_in_words(self.batch)}.</p>"
            f'{f"<p>Not whole:</p><ul>{missing}</ul>" if missing else ""}'
            f"<table><thead>{row_of(map(str.capitalize, COLUMNS), 'th')}</thead><tbody>{rows}</tbody><tfoot>{total}</tfoot></table>"
            '<p class="sign">Compared with the paper by: ______________________ Date: ____________</p></html>\n'
        )


def row_of(cells: Iterable[object], tag: str) -> str:
    shown = ("" if cell is None else html.escape(str(cell)) for cell in cells)
    return f"<tr>{''.join(f'<{tag}>{cell}</{tag}>' for cell in shown)}</tr>"


def batch_in_words(batch: Batch) -> str:
    return f"The batch has {batch.tickets} tickets, {batch.bonds} bonds, ${batch.total:,}"


def settlement_of_day(lookups: Lookups, day: DayLike, bonds: Known) -> Settlement:
    """Returns the settlement of a closed day. Raises Incomplete if the day isn't closed, or its tickets aren't its batch's.

    A bond that no file has is there with what was paid, and named as missing: give the folder of the store's archive, which has walk-ins too.
    """
    missing: Sequence[str] = ()
    try:
        interest = interest_of_day(lookups, day, bonds)
    except Incomplete as lack:
        interest, missing = lack.interest, lack.missing
    batch = lookups.batch(day_of(day))
    found = (len({row.ticket for row in interest.rows}), len(interest.rows), interest.value)
    if batch is None or found != (batch.tickets, batch.bonds, batch.total):
        raise Incomplete(interest)
    return Settlement(interest, batch, tuple(missing))
