"""The arithmetic of the report for auditors against the published values, exact arithmetic and the announced rates; and the names of docs/CONTROL_MATRIX.md."""

import random
import re
from collections import defaultdict
from operator import itemgetter
from pathlib import Path

from reporting import texts, values

from tests.conftest import TOP
from tests.shared import exact
from tests.shared.counter_calls import csv_rows

DATA = TOP / "crates/published_values/data"
#: Months of issue and redemption, and the cents of a unit.
Row = tuple[int, int, int]


def rates_in(path: Path) -> dict[int, int]:
    found = csv_rows(path)
    return {texts.MONTHS[row["from"]]: int(row["rate"].replace(".", "")) for row in found}


def published() -> list[Row]:
    found = csv_rows(DATA / "published-values.csv")
    months, columns = texts.MONTHS, itemgetter("issued", "redeemed", "unit_cents")
    return [(months[one], months[at], int(cents)) for one, at, cents in map(columns, found)]


def periods() -> dict[int, list[Row]]:
    found = defaultdict(list)
    for row in published():
        found[values.rate_period(row[0])].append(row)
    return found


RATES, ANNOUNCED = rates_in(DATA / "rates.csv"), rates_in(TOP / "samples/audit/announced-rates.csv")


def fits(rate: int, rows: list[Row]) -> bool:
    ages = ((redeemed - issued, unit) for issued, redeemed, unit in rows)
    return all(values.payable(50, age, (rate, rate)) == 2 * unit for age, unit in ages)


def test_published_values() -> None:
    assert len(published()) > 8000
    for issued, redeemed, unit in published():
        rate = RATES[values.rate_period(issued)]
        for denomination in values.DENOMINATIONS:
            paid = values.payable(denomination, redeemed - issued, (rate, rate))
            assert paid == denomination // 25 * unit, (issued, redeemed, denomination)
    assert not fits(351, periods()[texts.MONTHS["2005-05"]]), "control: another rate"


def test_where_rates_come_from() -> None:
    """The oldest value of a period leaves one rate in tenths of a percent, or two; all values leave one in hundredths, mostly; and the rates are the announced ones."""
    oldest = {p: max(rows, key=lambda row: row[1] - row[0]) for p, rows in periods().items()}
    tenths = range(0, 2001, 10)
    by_one = {p: [rate for rate in tenths if fits(rate, [row])] for p, row in oldest.items()}
    of_two = [texts.month_text(p) for p, rates in by_one.items() if len(rates) == 2]
    assert of_two == ["2012-05", "2014-05"]
    assert {len(rates) for rates in by_one.values()} == {1, 2}
    by_all = {p: sum(fits(rate, rows) for rate in range(2001)) for p, rows in periods().items()}
    sure = list(by_all.values()).count(1)
    assert (sure, len(published()) - len(by_all)) == (12, 8234)
    assert RATES.items() <= ANNOUNCED.items() and set(by_all) <= set(RATES)
    paper = range(texts.MONTHS["2005-05"], texts.MONTHS["2011-12"], 6)
    assert rates_in(TOP / "samples/rates.csv") == {period: ANNOUNCED[period] for period in paper}


def test_exact_arithmetic() -> None:
    dice, tried = random.Random(7), 0
    odd = ((350, 350), (0, 0), (2000, 0), (340, 400), (402, 1632))
    for _ in range(8_000):
        even = (dice.randrange(2001), dice.randrange(2001))
        terms = dice.choice((even, dice.choice(odd)))
        denomination = dice.choice(values.DENOMINATIONS)
        issued, age = dice.randrange(1136), dice.randrange(-5, 420)
        begun, at = (exact.number_of(12 * 2005 + 4 + month) for month in (issued, issued + age))
        if at >= 200505:
            paid, _, _, value, *_ = exact.row(denomination, begun, at, *terms)
            found = values.payable(denomination, age, terms) or 0
            shown = values.shown(denomination, age, terms)
            assert (found, shown) == (paid, value), (denomination, age, terms)
            tried += 1
    assert tried > 6_000


def test_never_unsettled() -> None:
    """No equal rates have a value so close to half a cent that code 22 would be right."""
    assert not any(values.may_be_unsettled(rate, rate) for rate in range(2001))
    assert not values.is_close(1250, 1, 5, values.grown(1250, 1, 5))
    assert values.is_close(1250, 402, 3, 1263), "control: a value on half a cent"


MATRIX = TOP / "docs/CONTROL_MATRIX.md"


def lacking(matrix: str) -> list[str]:
    """The rules, clauses, tests and tests of the report that the matrix names and that aren't there."""
    lines = [line.strip("| ").split(" | ") for line in matrix.splitlines() if line[:2] == "| "]
    rows = [row for row in lines if len(row) in (5, 6) and row[-1].strip() != "Report"]
    assert len(rows) == 24
    paths = (path for path in TOP.glob("crates/*/s*/**/*.*t*") if path.is_file())
    words = {word for path in paths for word in re.findall(r"\w+", path.read_text())}
    reporting = "".join(path.read_text() for path in (TOP / "samples/audit/reporting").glob("*.py"))
    rules = set(re.findall(r"^\| ([^|]+?) \|", (TOP / "docs/MODEL.md").read_text(), re.M))

    def is_there(name: str) -> bool:
        return name in words or (TOP / "crates" / name).is_dir()

    missing = []
    for *_, rule, clause, test, told in (map(str.strip, row) for row in rows):
        said = re.sub(r" \(.*?\)", "", rule).split(". ")[0].split(", ")
        named = [] if rule.startswith("[") else [name[:1].lower() + name[1:] for name in said]
        names = re.findall(r"`(?:\w+::)?(\w+)`", clause) + re.findall(r"`(\w+)`", test)
        files = re.findall(r"`(tests/[\w/.]+)`", test)
        missing += [name for name in named if name not in rules]
        missing += [name for name in names if not is_there(name)]
        missing += [path for path in files if not (TOP / path).exists()]
        missing += [name for name in re.findall(r"`(\w+)`", told) if f'"{name}"' not in reporting]
    return missing


def test_control_matrix() -> None:
    text = MATRIX.read_text()
    assert lacking(text) == []
    changed = text.replace("`conserved`", "`conserved_not`", 1)
    assert lacking(changed) == ["conserved_not"], "control"
