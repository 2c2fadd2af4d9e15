"""Lists of bonds as people have them: sheets with Excel's number formats, which LibreOffice writes as text, and tables as TreasuryDirect's calculator shows them."""

import datetime
import random
import subprocess
import tomllib
from pathlib import Path
from typing import Any

from tests.clients.calculator_data import SHIPPED_MONTHS
from tests.conftest import TOP
from tests.shared import exact
from tests.shared.hostile.spelling import FIRST_MONTH as FIRST
from tests.shared.hostile.spelling import sheet_month_text as month

FORMS: dict[str, Any] = tomllib.loads((TOP / "tests/clients/lists.toml").read_text())
#: The letter with which the serial numbers of each denomination begin, by the Treasury's numbering.
LETTERS = {50: "L", 75: "K", 100: "C", 200: "R", 500: "D", 1000: "M", 5000: "V", 10000: "X"}
#: A serial number or "", dollars, and the issue month.
Bond = tuple[str, int, int]
#: A cell's value and its format.
Cell = tuple[object, str]
#: A list's text and its bonds.
Made = tuple[str, list[Bond]]
EMPTY: Cell = ("", "General")
#: Words of TreasuryDirect's table, as they are generally known; the page itself isn't asked.
TREASURY_DIRECT = "Serial #|Series|Denom|Issue Date|Next Accrual|Final Maturity|Issue Price|Interest|Interest Rate|Value|Note"
ABOVE = (
    "Savings Bond Calculator\n",
    "Calculator Results for Redemption Date 11/2026\nTotal Price\tTotal Value\tTotal Interest\tYTD Interest\n$525.00\t$539.00\t$14.00\t$1.28\n",
)


def random_bonds(dice: random.Random, is_numbered: bool = True) -> list[Bond]:
    found = []
    for _ in range(dice.randrange(1, 9)):
        dollars = dice.choice(exact.DOLLARS)
        serial = f"{LETTERS[dollars]}{dice.randrange(1, 10**10)}EE" if is_numbered else ""
        found.append((serial, dollars, FIRST + dice.randrange(SHIPPED_MONTHS)))
    return found


def spelled(dice: random.Random, serial: str) -> str:
    if not serial:
        return dice.choice(("", "n/a", "none"))
    letter, number = serial[0], serial[1:-2]
    padded = f"{letter}{number.zfill(10)}EE"
    forms = (serial, f"{letter}-{number}-EE", f"{letter} {number} EE", padded, f" {serial} ")
    text = dice.choice(forms)
    return text.lower() if dice.random() < 0.3 else text


def cell_of(dice: random.Random, column: str, bond: Bond, formats: dict[str, str]) -> Cell:
    month = bond[2] + (360 if column == "matures" else 0)
    if column in ("issued", "matures"):
        return datetime.date(month // 12, month % 12 + 1, 1), formats["issued"]
    if column in ("denom", "price"):
        return bond[1] / (2 if column == "price" else 1), formats["denom"]
    if column == "serial":
        return spelled(dice, bond[0]), "General"
    notes = ("", "safe", "desk, drawer", 'Mary "M"')
    return ("EE" if column == "series" else dice.choice(notes)), "General"


def random_sheet(dice: random.Random) -> tuple[list[list[Cell]], list[Bond]]:
    is_numbered = dice.random() < 0.75
    bonds = random_bonds(dice, is_numbered)
    columns = ["denom", "issued", *(["serial"] if is_numbered else [])]
    columns += [column for column in ("series", "price", "matures") if dice.random() < 0.4]
    dice.shuffle(columns)
    columns += ["note"] if dice.random() < 0.4 else []
    formats = {"denom": dice.choice(FORMS["money"]), "issued": dice.choice(FORMS["dates"])}
    rows = [[cell_of(dice, column, bond, formats) for column in columns] for bond in bonds]
    if dice.random() < 0.6:
        rows.insert(0, [(dice.choice(FORMS["headings"][one]), "General") for one in columns])
        if dice.random() < 0.4:
            title = dice.choice(("Savings bonds", "Bonds of May 2010", "From the safe"))
            rows[:0] = [[(title, "General")], []]
    if dice.random() < 0.5 and (columns[0] != "denom" or len(bonds) > 1):
        cells: list[Cell] = [EMPTY for _ in columns]
        cells[columns.index("denom")] = (sum(bond[1] for bond in bonds), formats["denom"])
        if columns[0] != "denom":
            cells[0] = (dice.choice(FORMS["totals"]), "General")
        rows += [[], cells] if dice.random() < 0.5 else [cells]
    return rows, bonds


def sheets(dice: random.Random, folder: Path, count: int) -> list[Made]:
    """Sheets as LibreOffice writes their cells as they are shown, half by tabs and half by commas. It needs Debian's python3-openpyxl and libreoffice-calc."""
    import openpyxl

    found: list[Made] = []
    for delimiter in (9, 44):
        made, book = [random_sheet(dice) for _ in range(count // 2)], openpyxl.Workbook()
        for place, (rows, _) in enumerate(made, 1):
            page = book.create_sheet(f"L{place}")
            for row, cells in enumerate(rows, 1):
                for column, (value, form) in enumerate(cells, 1):
                    cell = page.cell(row, column, value)
                    cell.number_format = form
        out = folder / str(delimiter)
        book.save(folder / "lists.xlsx")
        form = f"csv:Text - txt - csv (StarCalc):{delimiter},34,76,1,,1033,false,false,true,false,false,-1"
        own = f"-env:UserInstallation={(folder / 'profile').as_uri()}"
        words = ["soffice", own, "--headless", "--convert-to", form, "--outdir", str(out)]
        subprocess.run([*words, str(folder / "lists.xlsx")], capture_output=True, check=True)
        for place, (_, bonds) in enumerate(made, 1):
            text = (out / f"lists-L{place}.csv").read_text()
            found.append((text.replace("\n", dice.choice(("\n", "\r\n"))), bonds))
    return found


def table(dice: random.Random) -> Made:
    """A table as a browser copies it from TreasuryDirect's calculator: with its headings, perhaps with what stands around it, or rows alone."""
    bonds = random_bonds(dice, dice.random() < 0.75)
    text = ""
    for serial, dollars, issued in bonds:
        cells = [serial or "NA", "EE", f"${dollars:,}", month(issued), "12/2026"]
        prices = (dollars / 2, dice.randrange(9000) / 100)
        cells += [month(issued + 360), *(f"${one:,.2f}" for one in prices)]
        cells += ["1.40%", f"${dollars / 2 + 7:,.2f}", dice.choice(("", "P5"))]
        text += "\t".join(cells) + dice.choice(("\n", "\t\n"))
    if dice.random() < 0.8:
        headings = TREASURY_DIRECT.replace("|", "\t") + "\n"
        # A browser copies a heading of two lines as two lines.
        broken = headings.replace(" ", "\n").replace("Serial\n", "Serial ")
        sums = f"Totals for {len(bonds)} Bonds\t\t\t\t\t\t$525.00\t$14.00\t\t$539.00\n"
        below = dice.choice(("", sums, f"Bonds: 1-{len(bonds)} of {len(bonds)}\n"))
        text = dice.choice(("", *ABOVE)) + dice.choice((headings, broken)) + text + below
    return text, bonds
