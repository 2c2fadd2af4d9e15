"""Values as docs/FORMATS.md spells them: what a text stands for, or None, and how each is
printed. Months are counted from year 0, days from 1970-01-01."""
import datetime
import re

#: The letter of a serial from 1 to 26, and its number.
Serial = tuple[int, int]
FIRST_MONTH = 12 * 2005 + 4
LAST_MONTH = 12 * 2199 + 11
LAST_ISSUE = 12 * 2099 + 11
DENOMINATIONS = (50, 75, 100, 200, 500, 1000, 5000, 10000)
LAST_NUMBER = 2**63 - 1
EPOCH = datetime.date(1970, 1, 1).toordinal()


def whole(text: str, form: str, flags: int = re.ASCII) -> re.Match[str] | None:
    return re.fullmatch(form, text, flags | re.DOTALL)


def rate(text: str) -> int | None:
    found = whole(text, r"(\d{1,2})(?:\.(\d{1,2}))?%?")
    if not found:
        return None
    hundredths = 100 * int(found[1]) + int((found[2] or "0").ljust(2, "0"))
    return hundredths if hundredths <= 2000 else None


def month(text: str, last: int = LAST_MONTH) -> int | None:
    found = whole(text, r"(?P<y>\d{4})-(?P<m>\d\d)") or whole(text, r"(?P<m>\d\d)/(?P<y>\d{4})")
    if not found or not 1 <= int(found["m"]) <= 12:
        return None
    count = 12 * int(found["y"]) + int(found["m"]) - 1
    return count if FIRST_MONTH <= count <= last else None


def issue(text: str) -> int | None:
    return month(text, LAST_ISSUE)


def day(text: str) -> int | None:
    found = whole(text, r"(\d{4})-(\d\d)-(\d\d)")
    try:
        date = datetime.date(*map(int, found.groups())) if found else None
    except ValueError:
        return None
    if date is None or not datetime.date(2005, 5, 1) <= date <= datetime.date(2199, 12, 31):
        return None
    return date.toordinal() - EPOCH


def serial(text: str) -> Serial | None:
    """A letter from 1 to 26, and a number."""
    found = whole(text, r"([A-Z])-?(\d{1,10})-?EE")
    return (ord(found[1]) - 64, int(found[2])) if found and int(found[2]) else None


def denomination(text: str) -> int | None:
    return next((dollars for dollars in DENOMINATIONS if str(dollars) == text), None)


def customer(text: str) -> int | None:
    return int(text) if whole(text, r"\d{1,9}") and int(text) else None


def ticket(text: str) -> int | None:
    return int(text) if whole(text, r"\d{1,19}") and 1 <= int(text) <= LAST_NUMBER else None


def rate_text(hundredths: int) -> str:
    return f"{hundredths // 100}.{hundredths % 100:02}%"


def month_text(count: int) -> str:
    return f"{count // 12:04}-{count % 12 + 1:02}"


def sheet_month_text(count: int) -> str:
    return f"{count % 12 + 1:02}/{count // 12:04}"


def day_text(count: int) -> str:
    return datetime.date.fromordinal(count + EPOCH).isoformat()


def month_of_day(count: int) -> int:
    date = datetime.date.fromordinal(count + EPOCH)
    return 12 * date.year + date.month - 1


def serial_text(pair: Serial) -> str:
    return f"{chr(64 + pair[0])}{pair[1]}EE"


def money(cents: int) -> str:
    return f"{cents // 100}.{cents % 100:02}"
