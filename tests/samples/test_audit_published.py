"""`samples/audit/report --published` compares each payment with Treasury's table (parts/sb201112.asc, of Debian's gbonds-data, in the public domain), and takes no other file."""

import hashlib
import random
import re
from pathlib import Path
from typing import Any

import pytest
from reporting import making, published, texts

from tests.conftest import TOP
from tests.restore.counter_day import run
from tests.samples.books import changed
from tests.samples.books import REPORT, made
from tests.shared.counter_calls import apply, csv_rows, done, post, redeem

TABLE = Path(__file__).parent / "parts/sb201112.asc"
SHA256 = "f8581a0b980c6f823b996861d5958045e0d00e357e91b238f376ded82384658d"
GBONDS = Path("/usr/share/gbonds")
MONTHS = ["2011-12", "2012-01", "2012-02", "2012-03", "2012-04", "2012-05"]
LETTERS = {50: "L", 75: "K", 100: "C", 200: "R", 500: "D", 1000: "M", 5000: "V", 10000: "X"}
# Of the README's sheet for February 2012: what a 50-dollar bond of November 2010, a 75-dollar one of October 2010 and a 10,000-dollar one of February 2011 are worth, for 25 dollars of denomination.
BY_HAND = {(2010, 11): 2516 // 2, (2010, 10): 3807 // 3, (2006, 4): 601600 // 400}
#: The cents of a unit by redemption and issue month.
Units = dict[tuple[str, str], int]


def listed() -> Units:
    listed = csv_rows(TOP / "crates/published_values/data/published-values.csv")
    return {(row["redeemed"], row["issued"]): int(row["unit_cents"]) for row in listed}


def read(*paths: Path) -> Units:
    units = published.read_tables([str(path) for path in paths]).units
    return {
        (texts.month_text(redeemed), texts.month_text(issued)): cents
        for redeemed, found in units.items()
        for issued, cents in found.items()
        if cents is not None
    }


def test_real_table() -> None:
    wanted = {key: cents for key, cents in listed().items() if key[0] in MONTHS}
    assert hashlib.sha256(TABLE.read_bytes()).hexdigest() == SHA256, "Treasury's, byte for byte"
    assert read(TABLE) == wanted != {**wanted, ("2012-02", "2010-11"): 1259}


@pytest.mark.needs(f"file:{GBONDS}")
def test_all_tables() -> None:
    """From December 2005 on, when bonds of May 2005 are 12 months old for the first time."""
    tables = [path for path in sorted(GBONDS.glob("sb*.asc")) if path.name >= "sb200512.asc"]
    found = read(*tables)
    assert {key: found.get(key) for key in listed()} == listed()


def day_of(month: str) -> str:
    return {"2012-01": "2012-01-03", "2012-04": "2012-04-02"}.get(month, f"{month}-01")


class Paid:
    """A store in which eight bonds of each month, one of each denomination, are paid by two tickets, three and five."""

    def __init__(self, program: Path, path: Path) -> None:
        dice, self.path = random.Random(7), path
        self.bonds: dict[str, list[dict[str, Any]]] = {}
        self.rows: dict[str, str] = {}
        rates = csv_rows(TOP / "samples/rates.csv")
        messages = [post("/rates", {"number": 1, "rates": rates}, b"")]
        for nth, month in enumerate([*MONTHS, "2012-06"]):
            found = self.bonds[month] = []
            for at, (dollars, letter) in enumerate(LETTERS.items()):
                issued = dice.randrange(texts.MONTHS["2005-05"], texts.MONTHS[month] - 11)
                fields = {"denom": dollars, "issued": texts.month_text(issued), "owner": 7}
                found.append({"serial": f"{letter}{nth + 1}EE", **fields})
                place = (2 * nth + 1, at + 1) if at < 3 else (2 * nth + 2, at - 2)
                self.rows[f"{letter}{nth + 1}EE"] = "ticket %d place %d" % place
            serials, day, number = [one["serial"] for one in found], day_of(month), 10 * (nth + 1)
            messages += [
                post("/bonds", {"desk": 2, "number": number, "bonds": found}, b""),
                post("/day/open", {"number": number, "day": day}, b""),
                redeem(0, number + 1, day, 7, *serials[:3]),
                redeem(0, number + 2, day, 7, *serials[3:]),
                post("/day/close", {"number": number + 3, "day": day}, b""),
            ]
        assert {status for status, _ in apply(program, path, messages)} == {200}


@pytest.fixture(scope="module")
def paid(program: Path, place: Path) -> Paid:
    return Paid(program, place / "day.db")


def compared(path: Path, to: Path, *tables: Path) -> tuple[int, str, making.TestRow]:
    ran, found = made(path, to, "--published", *tables)
    (test,) = [test for test in found["tests"] if test["name"] == "published"]
    return ran.returncode, ran.stdout, test


def test_nothing_differs(paid: Paid, tmp_path: Path) -> None:
    """The month without a table is named, with its payments counted; a table may come twice; without the option there is no such test."""
    for tables in ((TABLE,), (TABLE, TABLE)):
        status, _, test = compared(paid.path, tmp_path, *tables)
        assert status == 0 and (test["tested"], test["differing"]) == (48, 0)
        assert test["remarks"][0] == f"sb201112.asc, 46750 bytes, SHA-256 {SHA256}"
        assert test["remarks"][-1] == "Payments of months that no table has: 8, in 2012-06 (8)."
    assert "published" not in [test["name"] for test in made(paid.path, tmp_path)[1]["tests"]]


def changed_table(path: Path, redeemed: str, issued: str, cents: int) -> Path:
    data = TABLE.read_bytes()
    line = data.index(f"N{redeemed.replace('-', '')}{issued[:4]}".encode())
    at = line + 11 + 6 * (int(issued[5:]) - 1)
    path.write_bytes(data[:at] + f"{cents:06}".encode() + data[at + 6 :])
    return path


@pytest.mark.parametrize("nth", range(12))
def test_changed_value(paid: Paid, tmp_path: Path, nth: int) -> None:
    """Of one changed value just the payments of that bond's months differ, with both sums."""
    dice, units = random.Random(nth), listed()
    month = MONTHS[nth % 6]
    issued = dice.choice(paid.bonds[month])["issued"]
    was = units[month, issued]
    cents = was + dice.choice((-1, 1, 10, 1000))
    table = changed_table(tmp_path / "changed.asc", month, issued, cents)
    status, _, test = compared(paid.path, tmp_path / "to", table)
    hit = [one for one in paid.bonds[month] if one["issued"] == issued]
    sums = [[texts.money(one["denom"] // 25 * of) for of in (was, cents)] for one in hit]
    wanted = [(paid.rows[one["serial"]], *both) for one, both in zip(hit, sums)]
    found = [(row["row"], row["found"], row["wanted"]) for row in test["differences"]]
    assert status == 1 and sorted(found) == sorted(wanted) != []


def test_changed_payment(paid: Paid, tmp_path: Path) -> None:
    statement = "UPDATE paid SET cents = cents + 1 WHERE ticket = 3 AND place = 2"
    store = changed(paid.path, tmp_path / "cent.db", statement)
    status, said, test = compared(store, tmp_path / "to", TABLE)
    assert status == 1 and [row["row"] for row in test["differences"]] == ["ticket 3 place 2"]
    assert "published: paid, ticket 3 place 2" in said


def by_hand(units: dict[tuple[int, int], int]) -> str:
    """The lines of Series EE for February 2012: those values, and 99.99 for others that can be cashed."""

    def cell(year: int, month: int) -> str:
        age, value = 12 * (2012 - year) + 2 - month, units.get((year, month), 9999)
        return " " * 6 if age < 0 else "NO PAY" if age < 12 else f"{value:06}"

    years = range(2012, 1979, -1)
    lines = ["".join(cell(year, month) for month in range(1, 13)) for year in years]
    return "".join(f"N201202{year}{cells}\n" for year, cells in zip(years, lines))


def test_table_by_hand(program: Path, tmp_path: Path) -> None:
    """The bonds of samples/ are paid as it says. Control: with a cent more in it a payment differs."""
    path, table = tmp_path / "samples.db", tmp_path / "hand.asc"
    for number, kind in ((1, "rates"), (2, "inventory")):
        words = ["import", kind, TOP / f"samples/{kind}.csv", "--db", path, "--number", number]
        done(program, *words)
    serials = [row["serial"] for row in csv_rows(TOP / "samples/inventory.csv")]
    opening = post("/day/open", {"number": 3, "day": "2012-02-06"}, b"")
    apply(program, path, [opening, redeem(0, 4, "2012-02-06", 7, *serials)])
    table.write_text(by_hand(BY_HAND))
    status, _, test = compared(path, tmp_path / "to", table)
    assert status == 0 and (test["tested"], test["differing"]) == (3, 0)
    table.write_text(by_hand({**BY_HAND, (2010, 11): 1259}))
    status, _, test = compared(path, tmp_path / "to", table)
    assert status == 1
    assert [(row["found"], row["wanted"]) for row in test["differences"]] == [("25.16", "25.18")]


DATA = TABLE.read_bytes()
LINES = DATA.split(b"\r\n")
AT = next(place for place, line in enumerate(LINES) if line.startswith(b"N2012022010"))
LINE = LINES[AT]


def with_lines(*lines: bytes) -> bytes:
    return b"\r\n".join([*LINES[:AT], *lines, *LINES[AT + 1 :]])


NO_TABLES = {
    "nothing": b"",
    "a list of rates": (TOP / "samples/rates.csv").read_bytes(),
    "bytes that are no text": b"\xff" * 1000,
    "a table that was cut": DATA[:30_000],
    "a table without its last line end": DATA[:-2],
    "no line of Series EE": b"".join(line + b"\r\n" for line in LINES if line.startswith(b"E")),
    "an issue year that is missing": with_lines(),
    "an issue year twice": with_lines(LINE, LINE),
    "an empty line": with_lines(LINE, b""),
    "a line of another series": with_lines(b"X" + LINE[1:]),
    "a month 13": with_lines(b"N201213" + LINE[7:]),
    "a short line": with_lines(LINE[:-6]),
    "a long line": with_lines(LINE + b"000000"),
    "a letter in a value": with_lines(LINE[:11] + b"00l258" + LINE[17:]),
    "a value of 0": with_lines(LINE[:11] + b"000000" + LINE[17:]),
    "NO PAY for a bond of two years": with_lines(LINE[:11] + b"NO PAY" + LINE[17:]),
    "spaces for a bond of two years": with_lines(LINE[:11] + b" " * 6 + LINE[17:]),
    "a value of a bond under 12 months": DATA.replace(b"NO PAY\r\n", b"001250\r\n", 1),
    "no month between two": re.sub(rb"(?m)^.201202.*\r\n", b"", DATA),
    "a line end alone in the midst": DATA.replace(b"\r\n", b"\r", 1),
    "more than a mebibyte": DATA * 23,
}


def refuses(path: Path, to: Path, *tables: Path) -> str:
    """It ends with status 2, a line, and nothing written."""
    ran = run(REPORT, path, "--to", to, "--published", *tables)
    assert (ran.returncode, ran.stdout) == (2, "") and not to.exists(), ran
    assert ran.stderr.count("\n") == 1, ran.stderr
    return ran.stderr


@pytest.mark.parametrize("what", NO_TABLES)
def test_no_table(paid: Paid, tmp_path: Path, what: str) -> None:
    bad = tmp_path / "bad.asc"
    bad.write_bytes(NO_TABLES[what])
    for tables in ((bad,), (TABLE, bad)):
        said = refuses(paid.path, tmp_path / "to", *tables)
        assert said.startswith(f"{bad} is no redemption table: ")


def test_no_file(paid: Paid, tmp_path: Path) -> None:
    refuses(paid.path, tmp_path / "to", tmp_path / "none.asc")
    refuses(paid.path, tmp_path / "to", tmp_path)
    other = changed_table(tmp_path / "other.asc", "2012-02", "2010-11", 1259)
    refuses(paid.path, tmp_path / "to", TABLE, other)
