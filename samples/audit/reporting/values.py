"""What a bond is worth, worked out by whole numbers alone.

The rules are those of 31 CFR Part 351 for Series EE bonds issued from May 2005 on, in the words of
docs/MODEL.md, section "Value". Months are counted from May 2005, ages in months, rates in hundredths
of a percent, amounts in cents. No floating-point number and no root is used: two amounts are compared
by their sixth powers, which are whole numbers."""

import functools
import math

DENOMINATIONS = (50, 75, 100, 200, 500, 1000, 5000, 10000)
ISSUE_PRICE = 1250  # of one unit: 12.50 dollars of issue price, 25 dollars of denomination
FACE_VALUE = 2500  # what a unit is worth at least at 20 years
HOLD, NO_PENALTY, ORIGINAL_MATURITY, FINAL_MATURITY = 12, 60, 240, 360  # ages
PENALTY = 3  # months
MOST_RATE = 2000
PRECISION = 62  # binary places of the program's bounds; see `may_be_unsettled`


def grown(unit: int, rate: int, months: int) -> int:
    """A value after 0 to 6 months of a half-year: `unit (1 + rate/20000)^(months/6)`, rounded to the
    nearest cent, half a cent upwards.

    That is the greatest whole number c with `c - 1/2 <= value`, so with
    `(2c-1)^6 20000^months <= (2 unit)^6 (20000+rate)^months`. (Model: "Rounding rule", "Half a cent".)
    """
    scale, value = 20000**months, (2 * unit) ** 6 * (20000 + rate) ** months
    low, high = unit, 2 * unit  # a half-year adds at most 10 %
    while low < high:
        middle = (low + high + 1) // 2
        if (2 * middle - 1) ** 6 * scale <= value:
            low = middle
        else:
            high = middle - 1
    return low


@functools.lru_cache(maxsize=None)
def unit_values(fixed: int, extension: int) -> tuple[int, ...]:
    """The accrued value of one unit at every age from 0 to 360.

    Every half-year grows from the rounded value of the one before. At 20 years the unit is worth at
    least twice its price; from then on the rate of extended maturity counts; at 30 years interest
    stops. (Model: "Chain", "Doubling", "Accrued value", "Final maturity".)"""
    values, start = [], ISSUE_PRICE
    for first in range(0, FINAL_MATURITY, 6):
        rate = fixed if first < ORIGINAL_MATURITY else extension
        values += [grown(start, rate, months) for months in range(6)]
        start = grown(start, rate, 6)
        if first + 6 == ORIGINAL_MATURITY:
            start = max(start, FACE_VALUE)
    return (*values, start)


def rate_period(issued: int) -> int:
    """The latest May or November not after an issue month. (Model: "Period".)"""
    return issued - issued % 6


def counted_age(age: int) -> int:
    """The age that a payment counts: three months less below five years, and 360 at most. (Model:
    "Penalty", "Final maturity".)"""
    return min(age - PENALTY if age < NO_PENALTY else age, FINAL_MATURITY)


def payable(denomination: int, age: int, terms: tuple[int, int]) -> int | None:
    """What a bond pays at an age, or None below 12 months. (Model: "Hold", "Penalty", "Unit".)"""
    if age < HOLD:
        return None
    return denomination // 25 * unit_values(*terms)[counted_age(age)]


def shown(denomination: int, age: int, terms: tuple[int, int]) -> int:
    """The value that a calculator shows: nothing before issue, the price below 12 months, then what
    the bond pays. (Model: "Columns".)"""
    if age < 0:
        return 0
    paid = payable(denomination, age, terms)
    return 50 * denomination if paid is None else paid


def note(age: int) -> str:
    """The calculator's note. (Model: "Note".)"""
    if age < 0:
        return "NI"
    if age < HOLD:
        return "NE"
    if age < NO_PENALTY:
        return "P5"
    return "" if age < FINAL_MATURITY else "MA"


@functools.lru_cache(maxsize=None)
def may_be_unsettled(fixed: int, extension: int) -> tuple[int, ...]:
    """The ages at which the program may refuse these terms with code 22.

    It works with 62 binary places, and may refuse a value only if it lies within `32 unit / 2^62`
    cents of half a cent, and never one that is a fraction. (Model: "Close to a half cent", "Exact
    cases".) No terms that were tried have such an age."""
    values, ages = unit_values(fixed, extension), []
    for age in range(FINAL_MATURITY):
        start, months = values[age - age % 6], age % 6
        rate = fixed if age < ORIGINAL_MATURITY else extension
        if (
            months
            and rate
            and not is_fraction(rate, months)
            and is_close(start, rate, months, values[age])
        ):
            ages.append(age)
    return tuple(ages)


def is_fraction(rate: int, months: int) -> bool:
    """Whether the growth of three months is a fraction, since `(20000 + rate)/20000` is the square of one."""
    square = 2 * (20000 + rate)
    return months == 3 and math.isqrt(square) ** 2 == square


def is_close(start: int, rate: int, months: int, cents: int) -> bool:
    """Whether the value that `cents` rounds lies that close to the half cent below it or above it."""
    scale, value = 20000**months, (2 ** (PRECISION + 1) * start) ** 6 * (20000 + rate) ** months
    below = ((2 * cents - 1) * 2**PRECISION + 64 * start) ** 6 * scale
    above = ((2 * cents + 1) * 2**PRECISION - 64 * start) ** 6 * scale
    return bool(value <= below or above <= value)
