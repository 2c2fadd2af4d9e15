"""What the library is to answer, by whole-number arithmetic of the tests' own: the rule of
rounding by sixth powers, the chain of half-years, the calculator's notes. It shares nothing with
the library."""
import functools
import random

DOLLARS = (50, 75, 100, 200, 500, 1000, 5000, 10000)
DONE, BAD_DENOMINATION, BAD_ISSUE_MONTH, BAD_MONTH, BAD_RATE, BAD_EXTENSION = range(6)
NOT_ISSUED, NOT_ELIGIBLE = 6, 7
PLAIN, NI, NE, P5, MA = range(5)
SENSELESS = [0, 1, 49, 51, 2001, 2000, 200504, 201000, 201013, 209912, 210001, 219912, 220001]
SENSELESS += [2**31, 2**32 - 1]
#: What is payable, price, interest, value, status, note, next accrual and final maturity.
Row = tuple[int, int, int, int, int, int, int, int]


@functools.lru_cache(maxsize=None)
def grown(unit: int, rate: int, months: int) -> int:
    have = (2 * unit) ** 6 * (20000 + rate) ** months
    scale: int = 20000**months
    c: int = round(unit * (1 + rate / 20000) ** (months / 6))
    while (2 * c - 1) ** 6 * scale > have:
        c -= 1
    while (2 * c + 1) ** 6 * scale <= have:
        c += 1
    return c


@functools.lru_cache(maxsize=None)
def first_starts(rate: int) -> list[int]:
    starts = [1250]
    for _ in range(40):
        starts.append(grown(starts[-1], rate, 6))
    return [*starts[:40], max(starts[40], 2500)]


def accrued(rate: int, extension: int, age: int) -> int:
    """Return the accrued value of one unit in cents at an age in months, without penalty."""
    age = min(age, 360)
    half_year, months = divmod(age, 6)
    if half_year < 40:
        return grown(first_starts(rate)[half_year], rate, months)
    start = first_starts(rate)[40]
    for _ in range(40, half_year):
        start = grown(start, extension, 6)
    return grown(start, extension, months)


def count_of(month: int, last: int) -> int | None:
    year, of_year = divmod(month, 100)
    return 12 * year + of_year - 1 if 1 <= of_year <= 12 and 200505 <= month <= last else None


def number_of(count: int) -> int:
    return 100 * (count // 12) + count % 12 + 1


def refusal(dollars: int, issued: int, month: int, rate: int, extension: int) -> int:
    """Return the status of the first field that stands for nothing, or DONE."""
    if dollars not in DOLLARS:
        return BAD_DENOMINATION
    if count_of(issued, 209912) is None:
        return BAD_ISSUE_MONTH
    if count_of(month, 219912) is None:
        return BAD_MONTH
    if not 0 <= rate <= 2000:
        return BAD_RATE
    return DONE if 0 <= extension <= 2000 else BAD_EXTENSION


def row(dollars: int, issued: int, month: int, rate: int, extension: int) -> Row:
    """Return payable, price, interest, value, status, note, next accrual and final maturity."""
    status = refusal(dollars, issued, month, rate, extension)
    if status:
        return (0, 0, 0, 0, status, 0, 0, 0)
    begun, at = count_of(issued, 209912), count_of(month, 219912)
    assert begun is not None and at is not None
    age, price, units = at - begun, 50 * dollars, dollars // 25
    if age < 0:
        return (0, 0, 0, 0, DONE, NI, 0, 0)
    last, after = number_of(begun + 360), number_of(at + 1)
    if age < 12:
        return (0, price, 0, price, DONE, NE, after, last)
    value = units * accrued(rate, extension, age - 3 if age < 60 else age)
    note, after = (P5, after) if age < 60 else (PLAIN, after) if age < 360 else (MA, 0)
    return (value, price, value - price, value, DONE, note, after, last)


def cents(dollars: int, issued: int, month: int, rate: int, extension: int) -> int:
    """Return what is paid, or the status of a refusal below zero."""
    paid, _, _, _, status, note, _, _ = row(dollars, issued, month, rate, extension)
    if status:
        return -status
    return -NOT_ISSUED if note == NI else -NOT_ELIGIBLE if note == NE else paid


def random_question(dice: random.Random) -> tuple[int, ...]:
    """Return the numbers of a question of which some are senseless, now and then."""
    begun = dice.randrange(12 * 2005 + 4, 12 * 2100)
    at = begun + (dice.randrange(0, 400) if dice.random() < 0.9 else dice.randrange(-30, 1300))
    some = (0, 10, 402, 350, 340, 360, 2000)
    rate = dice.choice(some) if dice.random() < 0.2 else dice.randrange(2001)
    extension = rate if dice.random() < 0.2 else dice.randrange(2001)
    question = [dice.choice(DOLLARS), number_of(begun), number_of(at), rate, extension]
    while dice.random() < 0.2:
        by_chance = (dice.randrange(2**32), dice.randrange(300000))
        question[dice.randrange(5)] = dice.choice((*SENSELESS, *by_chance))
    return tuple(question)
