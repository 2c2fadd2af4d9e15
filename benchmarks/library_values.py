#!/usr/bin/env python3
"""Times the library of values from C and from Python, beside what one would write in Python oneself, and counts what the latter get wrong of the published values:

    PYTHONPATH=.:clients/value benchmarks/library_values.py

clients/value/build makes the library. A calculation takes a bond's dollars, its age in months and its rate in hundredths of a percent, and gives cents."""

from __future__ import annotations

import csv
import ctypes
import decimal
import subprocess
import tempfile
import time
from pathlib import Path
from typing import Callable, Iterator

import ee_value
from tests.shared import exact

TOP = Path(__file__).resolve().parents[1]
DATA = TOP / "crates/published_values/data"

D = decimal.Decimal
#: The months of issue and of redemption, the age, the rate, and the cents of a unit.
Published = tuple[int, int, int, int, int]
#: From the dollars of a bond, its age in months and its rate to its cents.
Form = Callable[[int, int, int], int]


def by_integers(dollars: int, age: int, rate: int) -> int:
    """Exact: whole-number sixth powers, half-year by half-year; nothing is kept between calls."""
    exact.grown.cache_clear()
    exact.first_starts.cache_clear()
    return by_kept_integers(dollars, age, rate)


def by_kept_integers(dollars: int, age: int, rate: int) -> int:
    """The same, with what was grown before kept for each rate."""
    return dollars // 25 * exact.accrued(rate, rate, age - 3 if age < 60 else age)


def by_decimal(dollars: int, age: int, rate: int, rounding: str = decimal.ROUND_HALF_UP) -> int:
    """28 digits, half-year by half-year."""
    age = min(age - 3 if age < 60 else age, 360)
    unit, growth, cent = D("12.50"), 1 + D(rate) / 20000, D("0.01")
    for half_year in range(age // 6):
        unit = (unit * growth).quantize(cent, rounding)
        if half_year == 39:
            unit = max(unit, D("25.00"))
    unit = (unit * growth ** (D(age % 6) / 6)).quantize(cent, rounding)
    return int(100 * unit) * (dollars // 25)


def by_decimal_even(dollars: int, age: int, rate: int) -> int:
    """The same with decimal's own rounding, to even."""
    return by_decimal(dollars, age, rate, decimal.ROUND_HALF_EVEN)


def by_floats(dollars: int, age: int, rate: int) -> int:
    """Floats, half-year by half-year."""
    age = min(age - 3 if age < 60 else age, 360)
    unit, growth = 12.50, 1 + rate / 20000
    for half_year in range(age // 6):
        unit = round(unit * growth, 2)
        if half_year == 39:
            unit = max(unit, 25.00)
    unit = round(unit * growth ** (age % 6 / 6), 2)
    return round(100 * unit) * (dollars // 25)


def by_one_power(dollars: int, age: int, rate: int) -> int:
    """Floats, one power of the price, rounded once for the bond."""
    age = min(age - 3 if age < 60 else age, 360)
    cents: int = round(50 * dollars * (1 + rate / 20000) ** (age / 6))
    return cents


def by_one_power_of_a_unit(dollars: int, age: int, rate: int) -> int:
    """Floats, one power of a unit, rounded once."""
    age = min(age - 3 if age < 60 else age, 360)
    cents: int = round(1250 * (1 + rate / 20000) ** (age / 6))
    return cents * (dollars // 25)


OWN: tuple[Form, ...] = (
    by_integers,
    by_kept_integers,
    by_decimal,
    by_decimal_even,
    by_floats,
    by_one_power_of_a_unit,
    by_one_power,
)


def published(values: str, rates: str) -> Iterator[Published]:
    """Return the months of issue and of redemption, the age, the rate and the cents of a unit of each published value."""
    with open(rates, newline="") as file:
        steps = [(it["from"], int(it["rate"].replace(".", ""))) for it in csv.DictReader(file)]
    with open(values, newline="") as file:
        rows = list(csv.DictReader(file))
    for it in rows:
        (y, m), (ry, rm) = (map(int, it[k].split("-")) for k in ("issued", "redeemed"))
        rate = [r for start, r in steps if start <= it["issued"]][-1]
        yield 100 * y + m, 100 * ry + rm, 12 * (ry - y) + rm - m, rate, int(it["unit_cents"])


def wrongs(table: list[Published]) -> None:
    for form in OWN:
        off = [abs(form(10000, age, rate) - 400 * unit) for _, _, age, rate, unit in table]
        print(
            f"{form.__name__}: {sum(map(bool, off))} of {len(table)} values of a 10,000-dollar bond wrong, by {sum(off)} cents in all and {max(off)} at most"
        )


def times(name: str, form: Callable[[], object], count: int, rounds: int = 3) -> None:
    """Prints the least processor time of some rounds; a form answers all the questions."""
    best = min(timed(form) for _ in range(rounds)) / count
    print(f"{name}: {best * 1e9:.0f} nanoseconds a value, {1 / best:.0f} a second", flush=True)


def over(table: list[Published], form: Form) -> Callable[[], object]:
    return lambda: [form(10000, age, rate) for _, _, age, rate, _ in table]


def timed(form: Callable[[], object]) -> float:
    begun = time.process_time()
    form()
    return time.process_time() - begun


def from_c(values: str, rates: str) -> None:
    """Prints what check.c of the tests measures."""
    with tempfile.TemporaryDirectory() as folder:
        program = f"{folder}/check"
        sources = [TOP / "tests/library/check.c", TOP / "clients/value/out/libee_value.a"]
        subprocess.run(["gcc", "-O2", f"-I{TOP}/include", *sources, "-o", program], check=True)
        ran = subprocess.run([program, values, rates, "times"], stdout=subprocess.PIPE, check=True)
        print(ran.stdout.decode().splitlines()[-1])


def main(values: str, rates: str) -> None:
    from_c(values, rates)
    table = list(published(values, rates))
    wrongs(table)
    library, count = ee_value._library, len(table)
    numbers = [(10000, issued, month, rate, rate) for issued, month, _, rate, _ in table]
    texts = [
        (10000, f"{i // 100}-{i % 100:02}", f"{m // 100}-{m % 100:02}", f"{r // 100}.{r % 100:02}")
        for _, i, m, r, _ in numbers
    ]
    questions, answers = (ee_value._Question * count)(
        *(ee_value._Question(*it) for it in numbers)
    ), (ee_value._Row * count)()
    cents, into, out = library.ee_value_cents, library.ee_value_row_into, ee_value._Row()
    pointer = ctypes.byref(out)
    times("the library's ee_value_cents, by ctypes", lambda: [cents(*it) for it in numbers], count)
    times(
        "the library's ee_value_row_into, by ctypes",
        lambda: [into(*it, pointer) for it in numbers],
        count,
    )
    times("cents(), numbers", lambda: [ee_value.cents(*it) for it in numbers], count)
    times("cents(), texts", lambda: [ee_value.cents(*it) for it in texts], count)
    times("row(), texts", lambda: [ee_value.row(*it) for it in texts], count)
    times("rows(), texts", lambda: ee_value.rows(texts), count)
    times("rows(), numbers", lambda: ee_value.rows(numbers), count)
    times("rows_into()", lambda: ee_value.rows_into(questions, answers), count)
    for form in OWN:
        times(form.__name__, over(table, form), count)


if __name__ == "__main__":
    main(str(DATA / "published-values.csv"), str(DATA / "rates.csv"))
