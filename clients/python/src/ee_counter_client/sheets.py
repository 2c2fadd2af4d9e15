"""Reads a sheet exactly: docs/FORMATS.md, "The sheet"."""
from __future__ import annotations

import re
from typing import Dict, List, Optional

from .results import Row, Sheet, money, row_of
from .spelling import cents_of

COLUMNS = (
    ("serial", 13),
    ("series", 6),
    ("denom", -6),
    ("issued", 7),
    ("next", 7),
    ("final", 7),
    ("price", -12),
    ("interest", -14),
    ("rate", -6),
    ("value", -14),
)
MONTH, MONEY = r"(?:0[1-9]|1[0-2])/[0-9]{4}", r"[0-9]+\.[0-9]{2}"
ROW = re.compile(
    rf"(?P<serial>[A-Z][1-9][0-9]{{0,9}}EE) +(?P<series>EE) +(?P<denom>[0-9]{{1,5}}) (?P<issued>{MONTH}) (?P<next>{MONTH}| {{7}}) (?P<final>{MONTH}| {{7}})"
    rf" +(?P<price>{MONEY}) +(?P<interest>{MONEY}) +(?P<rate>[0-9]{{1,2}}\.[0-9]{{2}}%)? *(?P<value>{MONEY})(?: (?P<note>NI|NE|P5|MA))?"
)
TOTALS = re.compile(
    rf"(?P<serial>Total) +(?P<price>{MONEY}) +(?P<interest>{MONEY}) +(?P<value>{MONEY})"
)


def sheet_line(cells: Dict[str, str]) -> str:
    """Prints a line of a sheet, without its line feed."""
    placed = [
        cells.get(name, "").ljust(width) if width > 0 else cells.get(name, "").rjust(-width)
        for name, width in COLUMNS
    ]
    return " ".join(placed) + (f" {cells['note']}" if cells.get("note") else "")


HEADING = sheet_line({**{name: name.capitalize() for name, _ in COLUMNS}, "note": "Note"})


def cells_in(pattern: "re.Pattern[str]", line: str) -> Optional[Dict[str, str]]:
    """The cells of a line, if printing them gives that very line and the value is price and interest."""
    found = pattern.fullmatch(line)
    if found is None:
        return None
    cells = {name: (cell or "").strip() for name, cell in found.groupdict().items()}
    price, interest, value = (cents_of(cells[name]) for name in ("price", "interest", "value"))
    if price is None or interest is None or value is None or price + interest != value:
        return None
    return cells if sheet_line(cells) == line else None


def sheet_in(text: str) -> Optional[Sheet]:
    """Reads a sheet. None if any byte differs from a sheet's."""
    lines = text.split("\n")
    if len(lines) < 3 or lines[0] != HEADING or lines[-1] != "":
        return None
    totals = cells_in(TOTALS, lines[-2])
    rows = [cells for cells in (cells_in(ROW, line) for line in lines[1:-2]) if cells is not None]
    if totals is None or len(rows) != len(lines) - 3:
        return None
    for name in ("price", "interest", "value"):
        if sum(cents_of(row[name]) or 0 for row in rows) != cents_of(totals[name]):
            return None
    read: List[Row] = [row_of(dict(cells)) for cells in rows]
    return Sheet(
        tuple(read), money(totals["price"]), money(totals["interest"]), money(totals["value"]), text
    )
