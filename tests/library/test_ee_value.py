"""The command ee-value: what each bond of a list is worth, and which bonds it refuses."""

import csv
import importlib.util
import os
import pty
import subprocess
import sys
from pathlib import Path
from typing import Any

import pytest

from tests.conftest import TOP
from tests.shared import exact
from tests.shared.counter_calls import csv_rows, run

VALUE = TOP / "clients/value"
DATA = TOP / "crates/published_values/data"
LIBRARY = Path(os.environ.get("EE_VALUE_LIBRARY", VALUE / "out/libee_value.so.1"))
RATES = TOP / "samples/rates.csv"
HEADER = "serial,denom,issued,owner,coowner\n"
Ran = subprocess.CompletedProcess[str]

pytestmark = pytest.mark.skipif(
    not LIBRARY.exists(), reason="the library isn't there: clients/value/build makes it"
)

#: The sheet of the formats, with its rates and its inventory.
SHEET_RATES = "from,rate\n2010-05,2.00\n2010-11,3.50%\n"
SHEET_BONDS = f"{HEADER}K-0002-EE,75,10/2010,7,8\nL1EE,50,2010-11,7,\nX3EE,10000,2011-02,7,\n"
SHEET = """\
Serial        Series  Denom Issued  Next    Final          Price       Interest   Rate          Value Note
K2EE          EE         75 10/2010 03/2012 10/2040        37.50           0.84  2.00%          38.34 P5
L1EE          EE         50 11/2010 03/2012 11/2040        25.00           0.88  3.50%          25.88 P5
X3EE          EE      10000 02/2011 03/2012 02/2041      5000.00         132.00  3.50%        5132.00 P5
Total                                                    5062.50         133.72               5196.22
"""


def ran(*words: object, given: str = "", **more: Any) -> Ran:
    paths = {**os.environ, "PYTHONPATH": str(VALUE), "EE_VALUE_LIBRARY": str(LIBRARY)}
    more = {"stderr": subprocess.PIPE, "env": paths, **more}
    return run(sys.executable, "-m", "ee_value", *words, input=given, **more)


def rows(done: Ran) -> list[dict[str, str]]:
    return list(csv.DictReader(done.stdout.splitlines()))


def rates_of(folder: Path, text: str) -> tuple[object, ...]:
    (folder / "rates.csv").write_text(text)
    return "--rates", folder / "rates.csv"


@pytest.fixture
def sheet(folder: Path) -> tuple[object, ...]:
    (folder / "bonds.csv").write_text(SHEET_BONDS)
    return folder / "bonds.csv", "02/2012", *rates_of(folder, SHEET_RATES)


def test_table_is_the_sheet(sheet: tuple[object, ...]) -> None:
    done = ran(*sheet, "--table")
    assert (done.stdout, done.stderr, done.returncode) == (SHEET, "", 0)


def test_terminal_gets_the_table(sheet: tuple[object, ...]) -> None:
    parent, child = pty.openpty()
    assert ran(*sheet, stdout=child).returncode == 0
    os.close(child)
    assert os.read(parent, 1 << 16).decode().replace("\r\n", "\n") == SHEET
    os.close(parent)


def test_a_row_for_each_bond(folder: Path) -> None:
    """A bond before its issue, below 12 months, in extended maturity at another rate, and matured."""
    rates = rates_of(folder, "from,rate,extension\n2010-05,3.40%,4.00\n2010-11,3.5,\n")
    given = f"{HEADER}A1EE,50,2010-05,7,\n"
    for month, expected in {
        "2030-11": "25.00,26.00,51.00,51.00,,2030-12,2040-05,",
        "2010-04": "0.00,0.00,0.00,0.00,NI,,,",
        "2011-04": "25.00,0.00,25.00,0.00,NE,2011-05,2040-05,",
    }.items():
        done = ran("-", month, *rates, given=given)
        assert done.stdout.splitlines()[1:] == [f"A1EE,50,2010-05,3.40%,4.00%,{expected}"]
        assert (done.stderr, done.returncode) == ("", 0)
    assert rows(ran("-", "2045-01", *rates, given=given))[0]["note"] == "MA"


def published(month: str, *rates: object) -> None:
    listed = [it for it in csv_rows(DATA / "published-values.csv") if it["redeemed"] == month]
    bonds, wanted = "", []
    for place, row in enumerate(listed):
        dollars = exact.DOLLARS[place % 8]
        bonds += f"A{place + 1}EE,{dollars},{row['issued']},7,\n"
        wanted.append(dollars // 25 * int(row["unit_cents"]))
    done = ran("-", month, *rates, given=HEADER + bonds)
    assert len(wanted) > 90
    assert [int(row["payable"].replace(".", "")) for row in rows(done)] == wanted


@pytest.mark.parametrize("month", ["2014-04", "2016-12"])
def test_published_values(month: str) -> None:
    published(month, "--rates", DATA / "rates.csv")


def test_published_values_find_a_wrong_rate(folder: Path) -> None:
    text = (DATA / "rates.csv").read_text().replace("2008-05,1.40", "2008-05,1.50")
    with pytest.raises(AssertionError):
        published("2016-12", *rates_of(folder, text))


#: A faulty row, and what is said of it.
REFUSED = {
    "A1,50,2010-05,7,": "serial 'A1' isn't a letter, a number and EE",
    "A0EE,50,2010-05,7,": "serial 'A0EE' isn't a letter, a number and EE",
    "A1EE,60,2010-05,7,": "denom '60' isn't one of 50, 75, 100, 200, 500, 1000, 5000, 10000",
    "A1EE,50,2010-13,7,": "issued '2010-13' isn't a month from 2005-05 to 2099-12",
    "A1EE,50,2004-05,7,": "issued '2004-05' isn't a month from 2005-05 to 2099-12",
    "A1EE,50,2006-04,7,": "the rates have none from 2005-11",
    "A1EE,50,2012-05,7,": "the rates have none from 2012-05",
    "L0001EE,50,2010-05,7,": "serial L1EE is in row 2 too",
    "A1EE,50": "2 fields in place of 5",
}


@pytest.mark.parametrize("row", REFUSED)
def test_refused_rows(folder: Path, row: str) -> None:
    """A bond issued before the first row of rates is refused, and so is one after the last period."""
    rates = rates_of(folder, "from,rate\n2006-05,3.70\n2010-05,1.40\n2011-11,0.60\n")
    text = f"{HEADER}L1EE,50,2010-05,7,\n\n{row}\nK2EE,75,2010-10,7,8\n"
    done = ran("-", "2026-11", *rates, given=text)
    said = f"ee-value: -: row 3: {REFUSED[row]}\nee-value: 1 of 3 bonds refused\n"
    assert (done.stderr, done.returncode) == (said, 1)
    found = rows(done)
    assert [it["refused"] for it in found] == ["", REFUSED[row], ""]
    value = exact.row(50, 201005, 202611, 140, 140)[3]
    assert [it["value"] for it in found] == [f"{value / 100:.2f}", "", "46.95"]
    table = ran("-", "2026-11", *rates, "--table", given=text)
    assert (table.stderr, table.returncode) == (said, 1)
    assert table.stdout.splitlines()[2].endswith("refused: row 3")
    assert table.stdout.split()[-1] == f"{(value + 4695) / 100:.2f}"


@pytest.mark.parametrize("month", ["2026-13", "2005-04", "2200-01", "11/26", "November"])
def test_refused_months(month: str) -> None:
    done = ran(TOP / "samples/inventory.csv", month, "--rates", RATES)
    assert (done.stdout, done.returncode) == ("", 2)
    assert f"MONTH '{month}' isn't a month from 2005-05 to 2199-12" in done.stderr


#: Rates that can't be used, and what is said of them.
FAULTY = {
    "": "row 1: the header isn't from,rate or from,rate,extension",
    "from,rates\n": "row 1: the header isn't from,rate or from,rate,extension",
    "from,rate\n2010-06,1.40\n": "row 2: '2010-06' isn't a May or November from 2005-05",
    "from,rate\n2010-05,20.01\n": "row 2: a rate isn't from 0.00% to 20.00%",
    "from,rate\n2010-05,1.40\n2010-05,1.41\n": "row 3: 2010-05 has another rate above",
    "from,rate\n2010-05,1.40,\n": "row 2: 3 fields in place of 2",
    "from,rate,extension\n2010-05,1.40,none\n": "row 2: a rate isn't from 0.00% to 20.00%",
}


@pytest.mark.parametrize("text", FAULTY)
def test_faulty_rates(folder: Path, text: str) -> None:
    done = ran(TOP / "samples/inventory.csv", "2026-11", *rates_of(folder, text))
    assert (done.stdout, done.returncode) == ("", 3)
    assert done.stderr == f"ee-value: {folder}/rates.csv: {FAULTY[text]}\n"


def test_faulty_lists(folder: Path) -> None:
    missing = folder / "missing.csv"
    done = ran(missing, "2026-11", "--rates", RATES)
    said = f"ee-value: {missing}: No such file or directory\n"
    assert (done.returncode, done.stderr) == (3, said)
    done = ran("-", "2026-11", "--rates", RATES, given="serial,denom\nL1EE,50\n")
    assert (done.returncode, done.stderr) == (3, "ee-value: -: row 1: there is no column issued\n")
    (folder / "bytes.csv").write_bytes(HEADER.encode() + b"\xff1EE,50,2010-05,7,\n")
    done = ran(folder / "bytes.csv", "2026-11", "--rates", RATES)
    assert done.returncode == 3 and "'utf-8' codec can't decode byte 0xff" in done.stderr


def test_plot(folder: Path) -> None:
    """A picture of a bond's life, or what to install."""
    path = folder / "bond.png"
    line = (TOP / "samples/inventory.csv", "2026-11", "--rates", RATES, "--plot")
    done = ran(*line, "X3EE", path)
    if importlib.util.find_spec("matplotlib") is None:
        said = "ee-value: --plot needs matplotlib, as in Debian's python3-matplotlib\n"
        assert (done.stderr, done.returncode) == (said, 3)
    else:
        assert (done.stderr, done.returncode) == ("", 0)
        assert path.read_bytes().startswith(b"\x89PNG")
    done = ran(*line, "A1EE", path)
    assert done.returncode == 3 and "has no bond A1EE with a rate" in done.stderr
