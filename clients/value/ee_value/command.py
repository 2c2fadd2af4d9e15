"""The command ee-value: values a list of bonds in a month, a row for each bond.

The list and the rates are CSV files in the form that the counter imports. Of the list, only the columns
`serial`, `denom` and `issued` are read. A bond has the rate of its own issue period; if the rates have
none for it, the bond is refused.
"""

from __future__ import annotations

import argparse
import csv
import importlib
import os
import re
import sys
import typing

import ee_value

COLUMNS = ("serial", "denom", "issued")
VALUES = ("rate", "extension", "price", "interest", "value", "payable", "note", "next", "final")
DENOMINATIONS = ("50", "75", "100", "200", "500", "1000", "5000", "10000")
#: The line of a sheet (docs/FORMATS.md): serial, series, denomination, three months, and the sums.
SHEET = "{:13} {:6} {:>6} {:7} {:7} {:7} {:>12} {:>14} {:>6} {:>14} {}"
HEADINGS = "Serial Series Denom Issued Next Final Price Interest Rate Value Note".split()
FIRST_MONTH, LAST_ISSUE, LAST_MONTH = 200505, 209912, 219912

#: The fixed rate and the rate of extended maturity, in hundredths of a percent.
Terms = typing.Tuple[int, int]
#: The number of a record, and its fields.
Record = typing.Tuple[int, typing.List[str]]


class Faulty(Exception):
    """A file can't be used, and why."""


class Bond(typing.NamedTuple):
    """A record of the list: its fields in their printed spelling, and its row, or why it is refused."""

    record: int  # its number in the file; the header is 1
    serial: str
    denom: str
    issued: str
    terms: typing.Optional[Terms]
    row: typing.Optional[ee_value.Row]
    refusal: str


def month_in(text: str, last: int) -> typing.Optional[int]:
    """Return a month from 2005-05 to `last` as the number YYYYMM."""
    number = ee_value.month_number(text)
    return number if FIRST_MONTH <= number <= last and 1 <= number % 100 <= 12 else None


def month_text(month: int) -> str:
    return f"{month // 100}-{month % 100:02}"


def rate_in(text: str) -> typing.Optional[int]:
    """Return a rate in hundredths of a percent, up to 2000."""
    rate = ee_value.hundredths(text)
    return rate if rate <= 2000 else None


def rate_text(rate: int) -> str:
    return f"{ee_value.dollars_and_cents(rate)}%"


def serial_in(text: str) -> typing.Optional[str]:
    """Return a serial number in its printed spelling."""
    found = re.fullmatch(r"([A-Z])-?([0-9]{1,10})-?EE", text)
    return f"{found[1]}{int(found[2])}EE" if found and int(found[2]) else None


def period_of(issued: int) -> int:
    """Return the latest May or November that isn't after an issue month."""
    year, month = divmod(issued, 100)
    return 100 * year + (11 if month >= 11 else 5 if month >= 5 else 11 - 100)


def records_of(path: str) -> typing.Iterator[Record]:
    """Yield the records of a CSV file; the header is 1."""
    try:
        with open(0 if path == "-" else path, newline="", encoding="utf-8-sig") as file:
            yield from enumerate(filter(None, csv.reader(file)), 1)
    except OSError as fault:
        raise Faulty(f"{path}: {fault.strerror}") from None
    except (UnicodeDecodeError, csv.Error) as fault:
        raise Faulty(f"{path}: {fault}") from None


def opened(path: str) -> typing.Tuple[typing.List[str], typing.Iterator[Record]]:
    """Return the header of a CSV file, empty if there is none, and the records after it."""
    records = records_of(path)
    for _, header in records:
        return header, records
    return [], records


def read_rates(path: str) -> typing.Dict[int, Terms]:
    """Return the terms by the month from which they apply."""
    header, records = opened(path)
    if header not in (["from", "rate"], ["from", "rate", "extension"]):
        raise Faulty(f"{path}: row 1: the header isn't from,rate or from,rate,extension")
    found: typing.Dict[int, Terms] = {}
    for number, fields in records:
        if len(fields) != len(header):
            raise Faulty(f"{path}: row {number}: {len(fields)} fields in place of {len(header)}")
        month, rate = month_in(fields[0], LAST_ISSUE), rate_in(fields[1])
        extension = rate_in(fields[2]) if fields[2:] and fields[2] else rate
        if month is None or month != period_of(month):
            raise Faulty(
                f"{path}: row {number}: {fields[0]!r} isn't a May or November from 2005-05"
            )
        if rate is None or extension is None:
            raise Faulty(f"{path}: row {number}: a rate isn't from 0.00% to 20.00%")
        if found.setdefault(month, (rate, extension)) != (rate, extension):
            raise Faulty(f"{path}: row {number}: {month_text(month)} has another rate above")
    return found


def read_bonds(path: str, rates: typing.Mapping[int, Terms]) -> typing.Iterator[Bond]:
    """Yield the bonds of a list with their terms. If a serial number comes again, it is refused."""
    header, records = opened(path)
    lacking = ", ".join(name for name in COLUMNS if name not in header)
    if lacking:
        raise Faulty(f"{path}: row 1: there is no column {lacking}")
    places = [header.index(name) for name in COLUMNS]
    first: typing.Dict[str, int] = {}
    for number, fields in records:
        if len(fields) != len(header):
            refusal = f"{len(fields)} fields in place of {len(header)}"
            yield Bond(number, "", "", "", None, None, refusal)
            continue
        bond = bond_of(number, [fields[place] for place in places], rates)
        if bond.terms and first.setdefault(bond.serial, number) != number:
            refusal = f"serial {bond.serial} is in row {first[bond.serial]} too"
            bond = bond._replace(terms=None, refusal=refusal)
        yield bond


def bond_of(number: int, fields: typing.Sequence[str], rates: typing.Mapping[int, Terms]) -> Bond:
    """Return the bond of a record, with its terms or its first fault from the left."""
    serial, denom, issued = fields
    printed, month = serial_in(serial), month_in(issued, LAST_ISSUE)
    terms, refusal = None, ""
    if printed is None:
        refusal = f"serial {serial!r} isn't a letter, a number and EE"
    elif denom not in DENOMINATIONS:
        refusal = f"denom {denom!r} isn't one of {', '.join(DENOMINATIONS)}"
    elif month is None:
        refusal = f"issued {issued!r} isn't a month from 2005-05 to 2099-12"
    else:
        issued, terms = month_text(month), rates.get(period_of(month))
        refusal = "" if terms else f"the rates have none from {month_text(period_of(month))}"
    return Bond(number, printed or serial, denom, issued, terms, None, refusal)


def valued(bonds: typing.Iterable[Bond], month: int) -> typing.Iterator[Bond]:
    """Yield the bonds with their rows in a month."""
    listed = list(bonds)
    questions = ((int(it.denom), it.issued, month, *it.terms) for it in listed if it.terms)
    rows = iter(ee_value.rows(questions))
    for bond in listed:
        row = next(rows) if bond.terms else None
        if isinstance(row, ee_value.Refused):
            yield bond._replace(refusal=str(row))
        else:
            yield bond._replace(row=row)


def write_csv(bonds: typing.Iterable[Bond], output: typing.TextIO) -> None:
    writer = csv.writer(output, lineterminator="\n")
    writer.writerow([*COLUMNS, *VALUES, "refused"])
    for bond in bonds:
        values = [""] * len(VALUES)
        if bond.row and bond.terms:
            row = bond.row
            cents = (row.price_cents, row.interest_cents, row.value_cents, row.payable_cents)
            values = [*map(rate_text, bond.terms), *map(ee_value.dollars_and_cents, cents)]
            values += [row.note, row.next_accrual or "", row.final_maturity or ""]
        writer.writerow([bond.serial, bond.denom, bond.issued, *values, bond.refusal])


def write_table(bonds: typing.Iterable[Bond], month: int, output: typing.TextIO) -> None:
    """Write a sheet in the form of the counter's. A refused bond has a line without sums."""
    totals = [0, 0, 0]
    print(SHEET.format(*HEADINGS), file=output)
    for bond in bonds:
        row = bond.row
        if row is None or bond.terms is None:
            name = bond.serial if bond.serial.isprintable() else ascii(bond.serial)
            print(f"{name:13.13} refused: row {bond.record}", file=output)
            continue
        age = 12 * (month // 100 - int(bond.issued[:4])) + month % 100 - int(bond.issued[5:])
        rate = "" if row.note in ("NI", "MA") else rate_text(bond.terms[age >= 240])
        months = [it and f"{it[5:]}/{it[:4]}" or "" for it in (bond.issued, *row[-2:])]
        cents = [row.price_cents, row.interest_cents, row.value_cents]
        totals = [total + amount for total, amount in zip(totals, cents)]
        price, interest, value = map(ee_value.dollars_and_cents, cents)
        texts = (bond.serial, "EE", bond.denom, *months, price, interest, rate, value, row.note)
        print(SHEET.format(*texts).rstrip(), file=output)
    price, interest, value = map(ee_value.dollars_and_cents, totals)
    texts = ("Total", *[""] * 5, price, interest, "", value, "")
    print(SHEET.format(*texts).rstrip(), file=output)


def draw(bond: Bond, month: int, path: str) -> None:
    """Draw what a bond pays in each month of its life, and its value in the month asked for."""
    try:
        figure = importlib.import_module("matplotlib.figure").Figure(figsize=(8, 4.5))
    except ImportError:
        raise Faulty("--plot needs matplotlib, as in Debian's python3-matplotlib") from None
    assert bond.terms
    first = 12 * int(bond.issued[:4]) + int(bond.issued[5:]) - 1
    months = [100 * (it // 12) + it % 12 + 1 for it in range(first, first + 361)]
    months = [it for it in months if it <= LAST_MONTH]
    asked = [(int(bond.denom), bond.issued, it, *bond.terms) for it in months]
    values = [it.value_cents / 100 for it in ee_value.rows(asked) if isinstance(it, ee_value.Row)]
    years = [it // 100 + (it % 100 - 1) / 12 for it in months]
    axes = figure.add_subplot(title=f"{bond.serial}: {bond.denom} dollars of {bond.issued}")
    axes.step(years, values, where="post", label="value")
    axes.axvspan(years[0], years[12], alpha=0.15, label="not payable")
    if bond.row:
        place = month // 100 + (month % 100 - 1) / 12
        text = f"{month_text(month)}: {ee_value.dollars_and_cents(bond.row.value_cents)}"
        axes.plot([place], [bond.row.value_cents / 100], "o", label=text)
    axes.set(xlabel="year", ylabel="dollars")
    axes.legend(loc="upper left")
    axes.grid(alpha=0.3)
    try:
        figure.savefig(path, dpi=120, bbox_inches="tight")
    except (OSError, ValueError) as fault:
        raise Faulty(f"{path}: {getattr(fault, 'strerror', None) or fault}") from None


def line_of(words: typing.Optional[typing.Sequence[str]]) -> argparse.Namespace:
    parser = argparse.ArgumentParser(
        "ee-value",
        description="Values the bonds of a list in a month: a row for each bond, as CSV, or as a"
        " table on a terminal. Refused bonds are named on standard error.",
        epilog="The status is 0 if each bond has its row, 1 if a bond was refused, 2 if the command"
        " line is wrong, and 3 if a file can't be used.",
    )
    add = parser.add_argument
    add("bonds", metavar="BONDS", help="a CSV file with the columns serial, denom and issued, or -")
    add("month", metavar="MONTH", help="YYYY-MM or MM/YYYY")
    add(
        "--rates",
        metavar="RATES",
        required=True,
        help="a CSV file: from,rate or from,rate,extension",
    )
    form = parser.add_mutually_exclusive_group()
    form.add_argument("--csv", action="store_true", help="print CSV on a terminal too")
    form.add_argument("--table", action="store_true", help="print the table into files too")
    words_of_plot = ("SERIAL", "FILE")
    add("--plot", metavar=words_of_plot, nargs=2, help="draw the life of one bond, by matplotlib")
    found = parser.parse_args(words)
    month = month_in(found.month, LAST_MONTH)
    if month is None:
        parser.error(f"MONTH {found.month!r} isn't a month from 2005-05 to 2199-12")
    found.month = month
    return found


def run(line: argparse.Namespace) -> int:
    """Print a row for each bond, and name the refused ones. Return the exit status."""
    bonds = list(valued(read_bonds(line.bonds, read_rates(line.rates)), line.month))
    if line.table or not line.csv and sys.stdout.isatty():
        write_table(bonds, line.month, sys.stdout)
    else:
        write_csv(bonds, sys.stdout)
    sys.stdout.flush()
    refused = [bond for bond in bonds if bond.refusal]
    for bond in refused:
        print(f"ee-value: {line.bonds}: row {bond.record}: {bond.refusal}", file=sys.stderr)
    if refused:
        print(f"ee-value: {len(refused)} of {len(bonds)} bonds refused", file=sys.stderr)
    if line.plot:
        serial, path = line.plot
        named = [bond for bond in bonds if bond.terms and bond.serial == serial_in(serial)]
        if not named:
            raise Faulty(f"--plot: {line.bonds} has no bond {serial} with a rate")
        draw(named[0], line.month, path)
    return 1 if refused else 0


def main(words: typing.Optional[typing.Sequence[str]] = None) -> int:
    line = line_of(words)
    try:
        return run(line)
    except Faulty as fault:
        print(f"ee-value: {fault}", file=sys.stderr)
    except BrokenPipeError:  # as before head: nobody reads the rest
        os.dup2(os.open(os.devnull, os.O_WRONLY), sys.stdout.fileno())
    except OSError as fault:
        print(f"ee-value: standard output: {fault.strerror}", file=sys.stderr)
    return 3
