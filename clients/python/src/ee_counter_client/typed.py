"""What people type from the paper of a bond, beside the spellings of spelling.py. The tellers' page and the calculator read the same (clients/teller/typed.js). Every function returns the printed
spelling, or raises BadValue, which names another series, a month before May 2005, and one that can be read in two ways."""
from __future__ import annotations

import re
import unicodedata
from typing import Optional, Tuple

from . import spelling
from .errors import BadValue
from .spelling import Json

#: The savings bonds and notes that aren't of Series EE.
OTHER_SERIES = ("E", "F", "G", "H", "HH", "I", "J", "K")
#: A year of two digits is of this century below this number. Savings bonds of an earlier year 41, and later ones, are of the last.
FIRST_SERIES_E = 41
LAST_ISSUE = "2099-12"
MONTHS = "january february march april may june july august september october november december"
MIDNIGHT = r"[ T](?:0?0:00(?::00(?:\.0+)?)?|12:00(?::00)? ?AM)Z?$"
WEEKDAY = r"^[^\W\d_]+day, "
NAME = r"([^\W\d_]{3,})\.?"
YEAR = "((?:19|2[01])[0-9]{2})"
#: The parts of every spelling of a month, or of the first day of one: Year, Month by its number or name, Day.
DATES = (
    (r"([0-9]{4})[-/.]([0-9]{1,2})(?:[-/.]([0-9]{1,2}))?", "YMD"),
    (r"([0-9]{1,2})[-/., ]+([0-9]{4})", "MY"),
    (r"([0-9]{1,2})([-/ ])([0-9]{1,2})\2([0-9]{4}|[0-9]{2})", "M-DY"),
    (r"([0-9]{1,2})\.([0-9]{1,2})\.([0-9]{4}|[0-9]{2})", "DMY"),
    (YEAR + r"([0-9]{2})([0-9]{2})?", "YMD"),
    (r"([0-9]{1,2})" + YEAR, "MY"),
    (r"([0-9]{2})([0-9]{2})" + YEAR, "MDY"),
    (NAME + r"[ ,/.-]*(?:([0-9]{1,2}),? )?([0-9]{4})", "MDY"),
    (NAME + "(?:-| ?['\u2019])([0-9]{2})", "MY"),
    (r"([0-9]{1,2})[- ]" + NAME + r"[- ,]+([0-9]{4}|[0-9]{2})", "DMY"),
)
#: Digits of a month whose year is cut short or has no sign before it: 510, 0510, 05/10, May 10.
UNCLEAR = r"[0-9]{3,8}|(?:[0-9]{1,2}|[^\W\d_]{3,}\.?)[-/., ]+[0-9]{1,2}"
DOLLARS = (
    r"(?:USD?)? ?\$? ?([0-9]{1,3}(?:[, ][0-9]{3})+|[0-9]{1,6})(?:\.0{0,2})?(?: ?USD| dollars)?"
)
#: What is said of genuine paper that isn't paid here.
NOT_PAID = "this counter can't pay such a bond; send it to Treasury with FS Form 1522"


def plain(text: str) -> str:
    """The text without spaces around it, with plain spaces alone, and with its wide letters and digits as others are."""
    return re.sub(r"[\s\u200b\ufeff]+", " ", unicodedata.normalize("NFKC", text)).strip()


def serial_of(value: object) -> str:
    """Reads a serial number. It may have small letters, spaces, points, commas and any dashes, and lack its EE."""
    if not isinstance(value, str):
        return spelling.serial_of(value)
    signs = "".join(
        sign
        for sign in plain(value).upper()
        if sign not in " .,\u2212" and unicodedata.category(sign) != "Pd"
    )
    parts = re.fullmatch(r"([A-Z][0-9]{1,10})([A-Z]{0,2})", signs)
    if parts is not None and parts[2] in OTHER_SERIES:
        raise BadValue(f"{value!r} is of another series than EE: {NOT_PAID}")
    is_whole = parts is not None and parts[2] in ("", "EE")
    return spelling.serial_of(f"{parts[1]}EE" if parts is not None and is_whole else value)


def denom_of(value: object) -> int:
    """Reads a denomination: 1000, 1,000, $1,000.00."""
    parts = re.fullmatch(DOLLARS, plain(value), re.IGNORECASE) if isinstance(value, str) else None
    return spelling.denom_of(value if parts is None else re.sub("[, ]", "", parts[1]))


def month_number(text: str) -> int:
    """The number of a month by its number, or by the first three letters or more of its name. 0 if there is none."""
    if text.isdigit():
        return int(text)
    name = "september" if text.lower() == "sept" else text.lower()
    return next((n for n, month in enumerate(MONTHS.split(), 1) if month.startswith(name)), 0)


def whole_year(text: str) -> str:
    """A year of four digits."""
    return text if len(text) == 4 else f"{20 if int(text) < FIRST_SERIES_E else 19}{text}"


def parts_of(date: str) -> Optional[Tuple[str, str, str]]:
    """Year, month and day of a date. A date without a day has the first. None if it has no known form."""
    for pattern, order in DATES:
        found = re.fullmatch(pattern, date, re.IGNORECASE)
        if found is not None:
            year, month, day = (
                found[order.index(name) + 1] if name in order else None for name in "YMD"
            )
            return whole_year(year or ""), month or "", day or "1"
    return None


def month_of(value: object, last: str = "2199-12") -> str:
    """Reads a month up to `last`. If it is typed with a day, that is the first. Numbers are in the American order, month before day."""
    if not isinstance(value, str):
        return spelling.month_of(value, last)
    date = re.sub(WEEKDAY, "", re.sub(MIDNIGHT, "", plain(value), flags=re.I), flags=re.I)
    parts = parts_of(date)
    is_unclear = re.fullmatch(UNCLEAR, date) is not None if parts is None else int(parts[2]) != 1
    if is_unclear:
        raise BadValue(f"{value!r} is unclear: write the month as 05/2010")
    month = "" if parts is None else f"{parts[0]}-{month_number(parts[1]):02}"
    if "01" <= month[5:] <= "12" and month < "2005-05":
        raise BadValue(f"{value!r} is before May 2005: {NOT_PAID}")
    return spelling.month_of(month or value, last)


def issue_of(value: object) -> str:
    """Reads a month in which a bond is issued."""
    return month_of(value, LAST_ISSUE)


def bond_of(bond: object) -> Json:
    """Reads a bond to register, as spelling.py does."""
    return spelling.bond_of(bond, serial_of, denom_of, issue_of)
