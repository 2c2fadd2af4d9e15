"""Files of rates and bonds, and the registration of an inventory of any length."""
from __future__ import annotations

import csv
import hashlib
import logging
from typing import Any, Callable, Dict, Iterator, List, NamedTuple, Optional, Sequence

from .answers import compact
from .counter import Counter
from .errors import BadFile, BadValue, Fault, Refused
from .lookups import Path, path_of
from .plausible import doubts_of_bond, question
from .results import Added
from .spelling import MOST_ROWS, Json, rate_row_of
from .typed import bond_of, serial_of

LOG = logging.getLogger("ee_counter_client")


class Registered(NamedTuple):
    """What a registration did: how many bonds were new, how many the counter had already, and how many an earlier run had done (`before`)."""

    new: int
    same: int
    before: int


def records_of(path: Path, headers: Sequence[List[str]]) -> List[List[str]]:
    """Reads the records of a CSV file, the header first. Each has a field for every column."""
    name = path_of(path, "a file")
    try:
        with open(name, "rb") as begun:
            named = other_kind(begun.read(1000))
        with open(name, encoding="utf-8-sig", newline="") as file:
            records = (
                [] if named else [record for record in csv.reader(file, strict=True) if record]
            )
    except IsADirectoryError:
        raise BadFile(1, "it is a folder: name a file in it") from None
    except (csv.Error, ValueError, OSError) as fault:
        raise BadFile(1, f"the file can't be read: {fault}") from None
    if named:
        raise BadFile(1, f"it is {named}: save it as CSV, in UTF-8 and with commas")
    if not records or records[0] not in headers:
        raise BadFile(1, f"the header isn't {','.join(headers[0])}{separated(records[:1])}")
    for row, record in enumerate(records[1:], 2):
        if len(record) != len(records[0]):
            fields = f"it has {len(record)} fields, and not {len(records[0])}"
            raise BadFile(row, fields + separated([record]))
    return records


#: What files are that begin so, and are no CSV.
OTHERS = {
    b"PK": "a zip, or a workbook as .xlsx and .ods",
    b"\xd0\xcf\x11\xe0": "a workbook as .xls",
    b"\xff\xfe": "UTF-16",
    b"\xfe\xff": "UTF-16",
    b"\x1f\x8b": "compressed by gzip",
    b"%PDF": "a PDF",
    b"SQLite format 3": "a database",
    b"<": "HTML or XML",
}


def other_kind(begun: bytes) -> Optional[str]:
    """What a file is that is no CSV, by how it begins."""
    other = next((kind for first, kind in OTHERS.items() if begun.startswith(first)), None)
    return "UTF-16" if other is None and b"\0" in begun else other


def separated(records: Sequence[List[str]]) -> str:
    """Says by what a row's fields are separated, if that isn't commas."""
    whole = "".join(records[0]) if records and len(records[0]) == 1 else ""
    signs = [name for sign, name in ((";", "semicolons"), ("\t", "tabs")) if sign in whole]
    return f": its fields are separated by {signs[0]}" if signs else ""


def rows_of(path: Path, headers: Sequence[List[str]], read: Callable[[object], Json]) -> List[Json]:
    """Reads the rows of a CSV file. BadFile names the first that is wrong."""
    records = records_of(path, headers)
    rows = []
    for row, record in enumerate(records[1:], 2):
        try:
            rows.append(read(dict(zip(records[0], record))))
        except BadValue as fault:
            raise BadFile(row, str(fault)) from None
    return rows


def rates_in(path: Path) -> List[Json]:
    """Reads a file of rates."""
    return rows_of(path, [["from", "rate"], ["from", "rate", "extension"]], rate_row_of)


def bonds_in(path: Path) -> List[Json]:
    """Reads the bonds of an inventory, with every serial number once."""
    bonds = rows_of(path, [["serial", "denom", "issued", "owner", "coowner"]], bond_of)
    seen: Dict[str, int] = {}
    for row, bond in enumerate(bonds, 2):
        if bond["serial"] in seen:
            raise BadFile(row, f"{bond['serial']} stands in row {seen[bond['serial']]} already")
        seen[bond["serial"]] = row
    return bonds


def digests(rows: Sequence[Json]) -> Iterator[str]:
    """Yields the digest of every front of the rows, from none to all."""
    digest = hashlib.sha256()
    yield digest.hexdigest()
    for row in rows:
        digest.update(compact(row).encode() + b"\n")
        yield digest.hexdigest()


def place_in(marks: Sequence[str], bookmark: Any) -> int:
    """Counts the rows that were done before, if the file still begins with them."""
    if (
        not isinstance(bookmark, dict)
        or set(bookmark) != {"registered", "digest"}
        or bookmark["registered"] >= len(marks)
    ):
        return 0
    return int(bookmark["registered"]) if marks[bookmark["registered"]] == bookmark["digest"] else 0


def register(
    counter: Counter,
    path: Path,
    progress: Callable[[int, int], None] = lambda done, of: None,
    *,
    even_so: bool = False,
) -> Registered:
    """Registers the bonds of an inventory file in requests of 500, and continues where an earlier call was stopped. `progress` is called with the rows that are done,
    and with all rows. Raises Implausible, before a row is sent, for rows as Counter.add_bonds does, unless `even_so`. A refusal names the rows of its request (`rows`),
    and the line of the bond (`line`).
    """
    bonds = bonds_in(path)
    marks = list(digests(bonds))
    if not even_so:
        question(doubts_in(bonds, sent_of(counter, bonds, marks)))
    finish_other(counter, bonds, marks)
    begun = place = place_in(marks, counter.bookmark)
    new = same = 0
    progress(place, len(bonds))
    while place < len(bonds):
        end = min(place + MOST_ROWS, len(bonds))
        try:
            added = counter._act(
                "/bonds",
                {"bonds": bonds[place:end]},
                {"registered": end, "digest": marks[end]},
                None,
                Added,
            )
        except (Refused, Fault) as refusal:
            refusal.rows = (place + 2, end + 1)
            if isinstance(refusal, Refused):
                refusal.line = line_of(path, refusal.details.get("serial"))
            raise
        new, same, place = new + added.new, same + added.same, end
        progress(place, len(bonds))
    return Registered(new, same, begun)


def sent_of(counter: Counter, bonds: Sequence[Json], marks: Sequence[str]) -> int:
    """Counts the rows that an earlier run has sent: those that are done, and those of an open request."""
    place = place_in(marks, counter.bookmark)
    request = counter.open_request
    rows = bonds[place : place + MOST_ROWS]
    return (
        place + len(rows)
        if request is not None and (request.path, request.fields) == ("/bonds", {"bonds": rows})
        else place
    )


def doubts_in(bonds: Sequence[Json], sent: int) -> Iterator[str]:
    """Yields what is implausible about the rows that are yet to be sent."""
    for row, bond in enumerate(bonds[sent:], sent + 2):
        for doubt in doubts_of_bond(bond):
            yield f"row {row}: {doubt}"


def line_of(path: Path, serial: object) -> Optional[int]:
    """Finds the line of a bond in an inventory file, which can differ from its row: rows don't count empty lines. None if the bond isn't found."""
    try:
        with open(path, encoding="utf-8-sig", newline="") as file:
            reader = csv.reader(file)
            next(reader)
            return next(
                (reader.line_num for record in reader if record and serial_of(record[0]) == serial),
                None,
            )
    except (csv.Error, ValueError, OSError, StopIteration):
        return None


def finish_other(counter: Counter, bonds: Sequence[Json], marks: Sequence[str]) -> None:
    """Finishes an open request that isn't the next one of this file, as after the file was changed. What it did counts."""
    place = place_in(marks, counter.bookmark)
    request = counter.open_request
    if (
        request is not None
        and request.path == "/bonds"
        and request.fields != {"bonds": list(bonds[place : place + MOST_ROWS])}
    ):
        try:
            counter.finish()
        except Refused as refusal:
            LOG.warning("the rows that were open before were refused: %s", refusal)
