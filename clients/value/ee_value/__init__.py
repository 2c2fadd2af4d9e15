"""What paper Series EE savings bonds pay, to the cent: the proved library libee_value, by ctypes.

    >>> import ee_value
    >>> ee_value.cents(50, "2010-05", "2026-11", "1.40")
    3148
    >>> row = ee_value.row(50, "2005-11", "2026-11", "3.20", "4.00")  # an invented extension
    >>> row.note, row.interest_cents, row.next_accrual, row.final_maturity
    ('', 2702, '2026-12', '2035-11')

A bond is told by its denomination in dollars, its month of issue and its rates: the fixed rate of its issue period and the
rate of extended maturity, which is the fixed rate again where none is given. A month is a text YYYY-MM or MM/YYYY, a date, or
an int YYYYMM. A rate is a text or a Decimal in percent ("3.50"), or an int in hundredths of a percent (350); a float is
refused by TypeError, since 3.55 is none. Amounts are ints, in cents. A refused call raises Refused, a ValueError with the
status and its text.

The library is found where the variable EE_VALUE_LIBRARY says, or with the module: in its folder, where pip installs it, or in
the folder out/ beside that one, into which the script `build` puts it, or among the system's libraries. Without it, importing
raises ImportError.
"""

from __future__ import annotations

import ctypes
import datetime
import decimal
import operator
import os
import pathlib
import re
import struct
import typing

__all__ = [
    "BAD_DENOMINATION",
    "BAD_EXTENSION",
    "BAD_ISSUE_MONTH",
    "BAD_MONTH",
    "BAD_RATE",
    "DONE",
    "NOTES",
    "NOT_ELIGIBLE",
    "NOT_ISSUED",
    "QUESTION_FIELDS",
    "ROW",
    "ROW_FIELDS",
    "Refused",
    "Row",
    "UNSETTLED",
    "VERSION",
    "cents",
    "dollars_and_cents",
    "hundredths",
    "month_number",
    "row",
    "rows",
    "rows_into",
    "status_text",
]

#: The version of the library that this module is for: 10000 times the first part, 100 times the second, and the third.
VERSION = 10000

(
    DONE,
    BAD_DENOMINATION,
    BAD_ISSUE_MONTH,
    BAD_MONTH,
    BAD_RATE,
    BAD_EXTENSION,
    NOT_ISSUED,
    NOT_ELIGIBLE,
    UNSETTLED,
) = range(9)

#: The notes of a row by their number, as the Savings Bond Calculator prints them.
NOTES = ("", "NI", "NE", "P5", "MA")

#: The layouts of what rows_into reads and writes, as numpy.dtype takes them.
QUESTION_FIELDS: list[tuple[str, str]] = [
    (name, "u4") for name in ("dollars", "issued", "month", "rate", "extension")
]
ROW_FIELDS: list[tuple[str, str]] = [
    *((name, "u8") for name in ("payable_cents", "price_cents", "interest_cents", "value_cents")),
    *((name, "u4") for name in ("status", "note", "next_accrual", "final_maturity")),
]

#: A row's fields in a buffer, by struct: the four amounts, the status, the number of the note (NOTES), and two months YYYYMM or 0.
ROW = struct.Struct("=4Q4I")

_TYPES: dict[str, type[ctypes.c_uint32] | type[ctypes.c_uint64]] = {
    "u4": ctypes.c_uint32,
    "u8": ctypes.c_uint64,
}

# A number that the library refuses in every place.
_NO_NUMBER = 2**32 - 1

#: What stands for a whole number: an int, or an integer of numpy.
Whole = typing.SupportsIndex
#: What stands for a month, and for a rate.
MonthLike = typing.Union[str, datetime.date, typing.SupportsIndex]
RateLike = typing.Union[str, decimal.Decimal, typing.SupportsIndex]
#: A question of `rows`: dollars, issued, month, rate and perhaps the rate of extended maturity.
Question = typing.Union[
    typing.Tuple[Whole, MonthLike, MonthLike, RateLike],
    typing.Tuple[Whole, MonthLike, MonthLike, RateLike, typing.Optional[RateLike]],
]
#: What rows_into reads and writes: whatever has the buffer protocol, as arrays of numpy, array.array and bytearray.
Buffer = typing.Any


class _Question(ctypes.Structure):
    _fields_ = [(name, _TYPES[form]) for name, form in QUESTION_FIELDS]


class _Row(ctypes.Structure):
    _fields_ = [(name, _TYPES[form]) for name, form in ROW_FIELDS]
    payable_cents: int
    price_cents: int
    interest_cents: int
    value_cents: int
    status: int
    note: int
    next_accrual: int
    final_maturity: int


def _opened() -> tuple[ctypes.CDLL, str]:
    """Open the library: where the variable says, with the module, or where the system has its libraries."""
    named = os.environ.get("EE_VALUE_LIBRARY")
    here = pathlib.Path(__file__).resolve().parent
    places = (
        [pathlib.Path(named)]
        if named
        else [here / "libee_value.so.1", here.parent / "out" / "libee_value.so.1"]
    )
    found = next((str(it.resolve()) for it in places if it.exists()), None)
    missing = f"the library is missing: there is no {' and no '.join(map(str, places))}; clients/value/build makes it"
    if found is None and named:
        raise ImportError(missing)
    try:
        library = ctypes.CDLL(found or "libee_value.so.1")
        library.ee_value_version
    except (OSError, AttributeError) as fault:
        raise ImportError(
            missing
            if found is None
            else f"{found} is no library for this module on this machine: {fault}"
        ) from None
    return library, found or "libee_value.so.1"


def _load() -> ctypes.CDLL:
    library, found = _opened()
    numbers = [ctypes.c_uint32] * 5
    library.ee_value_version.argtypes, library.ee_value_version.restype = [], ctypes.c_uint32
    library.ee_value_cents.argtypes, library.ee_value_cents.restype = numbers, ctypes.c_int64
    library.ee_value_row.argtypes, library.ee_value_row.restype = numbers, _Row
    library.ee_value_row_into.argtypes = [*numbers, ctypes.POINTER(_Row)]
    library.ee_value_row_into.restype = ctypes.c_uint32
    library.ee_value_rows.argtypes = [
        ctypes.c_void_p,
        ctypes.c_size_t,
        ctypes.c_void_p,
        ctypes.c_size_t,
    ]
    library.ee_value_rows.restype = ctypes.c_size_t
    library.ee_value_status_text.argtypes = [ctypes.c_uint32, ctypes.c_char_p, ctypes.c_size_t]
    library.ee_value_status_text.restype = ctypes.c_size_t
    version = library.ee_value_version()
    if version // 10000 != VERSION // 10000:
        raise ImportError(f"{found} has version {version}, and this module is for {VERSION}")
    return library


_library = _load()


def status_text(status: int) -> str:
    """Return what a status says, as the library words it."""
    buffer = ctypes.create_string_buffer(64)
    _library.ee_value_status_text(_number(status), buffer, len(buffer))
    return buffer.value.decode("ascii")


class Refused(ValueError):
    """A call has no answer. The attribute status says why, by one of this module's constants."""

    def __init__(self, status: int) -> None:
        super().__init__(status)
        self.status = status

    def __str__(self) -> str:
        return status_text(self.status)


class Row(typing.NamedTuple):
    """A bond's row of the Savings Bond Calculator in a month, and what the bond pays then."""

    payable_cents: int  # 0 under the notes NI and NE
    price_cents: int
    interest_cents: int
    value_cents: int
    note: str  # one of NOTES
    next_accrual: typing.Optional[str]  # YYYY-MM
    final_maturity: typing.Optional[str]


def _number(value: int) -> int:
    """Return the number as the library takes it: what no 32 bits hold is a number that it refuses."""
    return value if 0 <= value < _NO_NUMBER else _NO_NUMBER


def _whole(value: object, what: str) -> int:
    """Return what stands for a whole number, as int or numpy's do, as the library takes it."""
    if type(value) is int:  # the check of a protocol takes long
        return _number(value)
    if isinstance(value, bool) or not isinstance(value, typing.SupportsIndex):
        raise TypeError(what)
    try:
        return _number(operator.index(value))
    except TypeError:
        raise TypeError(what) from None


def _dollars(value: Whole) -> int:
    return _whole(value, "dollars are an int")


def month_number(value: MonthLike) -> int:
    """Return a month as the number YYYYMM that the library takes; what is no month becomes a number that it refuses."""
    if isinstance(value, datetime.date):
        return 100 * value.year + value.month
    if isinstance(value, str):
        found = re.fullmatch(r"([0-9]{4})-([0-9]{2})", value)
        if found:
            return int(found[1] + found[2])
        found = re.fullmatch(r"([0-9]{2})/([0-9]{4})", value)
        return int(found[2] + found[1]) if found else _NO_NUMBER
    return _whole(value, "a month is a text YYYY-MM or MM/YYYY, a date, or an int YYYYMM")


def hundredths(value: RateLike) -> int:
    """Return a rate as the hundredths of a percent that the library takes; what is no rate becomes a number that it refuses."""
    if isinstance(value, str):
        found = re.fullmatch(r"([0-9]{1,2})(?:\.([0-9]{1,2}))?%?", value)
        return 100 * int(found[1]) + int((found[2] or "").ljust(2, "0")) if found else _NO_NUMBER
    if isinstance(value, decimal.Decimal):
        if not value.is_finite() or not 0 <= value <= 20:
            return _NO_NUMBER
        whole, part = divmod(value, 1)
        part *= 100
        return 100 * int(whole) + int(part) if part == int(part) else _NO_NUMBER
    return _whole(
        value, "a rate is a text or a Decimal in percent, or an int in hundredths of a percent"
    )


def _numbers(
    dollars: Whole,
    issued: MonthLike,
    month: MonthLike,
    rate: RateLike,
    extension: typing.Optional[RateLike] = None,
) -> tuple[int, int, int, int, int]:
    fixed = hundredths(rate)
    extended = fixed if extension is None else hundredths(extension)
    return _dollars(dollars), month_number(issued), month_number(month), fixed, extended


def _text(month: int) -> typing.Optional[str]:
    return f"{month // 100}-{month % 100:02}" if month else None


def _row(answer: _Row) -> Row:
    return Row(
        answer.payable_cents,
        answer.price_cents,
        answer.interest_cents,
        answer.value_cents,
        NOTES[answer.note],
        _text(answer.next_accrual),
        _text(answer.final_maturity),
    )


def cents(
    dollars: Whole,
    issued: MonthLike,
    month: MonthLike,
    rate: RateLike,
    extension: typing.Optional[RateLike] = None,
) -> int:
    """Return what a bond pays in a month, in cents.

    Raise Refused where it pays nothing: before issue (NOT_ISSUED), below 12 months of age (NOT_ELIGIBLE), and where an
    argument is no denomination, month or rate.
    """
    answer: int = _library.ee_value_cents(*_numbers(dollars, issued, month, rate, extension))
    if answer < 0:
        raise Refused(-answer)
    return answer


def row(
    dollars: Whole,
    issued: MonthLike,
    month: MonthLike,
    rate: RateLike,
    extension: typing.Optional[RateLike] = None,
) -> Row:
    """Return a bond's Row in a month. Raise Refused where an argument is no denomination, month or rate."""
    answer: _Row = _library.ee_value_row(*_numbers(dollars, issued, month, rate, extension))
    if answer.status:
        raise Refused(answer.status)
    return _row(answer)


def rows(questions: typing.Iterable[Question]) -> list[typing.Union[Row, Refused]]:
    """Return the answer to each (dollars, issued, month, rate) or (dollars, issued, month, rate, extension) of a list: its Row,
    or a Refused, which is not raised.

    One call of the library answers them all.
    """
    asked: typing.Any = [
        _numbers(*question) for question in questions
    ]  # ctypes makes a structure of a tuple
    if not asked:
        return []
    answers = (_Row * len(asked))()
    _library.ee_value_rows((_Question * len(asked))(*asked), len(asked), answers, len(answers))
    return [Refused(it.status) if it.status else _row(it) for it in answers]


def rows_into(questions: Buffer, answers: Buffer) -> int:
    """Answer many questions in one call, from a buffer to a buffer; refusals are rows with their status. Return how many rows were written.

    The questions are an array of QUESTION_FIELDS, as of numpy, or an array.array("I") with the five numbers of one after those of another;
    the answers are an array of ROW_FIELDS, or a bytearray of ROW.size for every question. Neither has gaps.
    """
    asked, given = memoryview(questions), memoryview(answers)
    if not (asked.c_contiguous and given.c_contiguous) or given.readonly:
        raise ValueError("the buffers are without gaps, and the answers can be written")
    count, rest = divmod(asked.nbytes, ctypes.sizeof(_Question))
    if rest or given.nbytes != count * ctypes.sizeof(_Row):
        raise ValueError("there is a place for every question, and no other")
    if not count:
        return 0
    if asked.itemsize not in (4, ctypes.sizeof(_Question)) or given.itemsize not in (
        1,
        ctypes.sizeof(_Row),
    ):
        raise ValueError(
            "the buffers are of QUESTION_FIELDS or numbers, and of ROW_FIELDS or bytes"
        )
    into = (_Row * count).from_buffer(given)
    written: int = _library.ee_value_rows(
        (_Question * count).from_buffer_copy(asked), count, into, count
    )
    return written


def dollars_and_cents(amount: int) -> str:
    """Return an amount of cents as its text, as 29.74."""
    return f"{amount // 100}.{amount % 100:02}"
