"""The tests of the tables alone: what docs/MODEL.md calls sound books, every part by SQL and by the
arithmetic of values.py. The kept requests are replayed in replay.py.

A test takes the store and the findings that it adds to. `TESTS` has all of them in order."""

import array
import itertools
import operator
import sqlite3
import sys
from typing import Callable, NamedTuple

from . import texts, values
from .findings import Findings
from .store import FORMS, Store

MOST_TICKETS_OF_A_DAY, MOST_BONDS_OF_A_TICKET = 1000, 100
#: The columns that name a row.
Key = tuple[int, ...]


class Range(NamedTuple):
    """The least and the most of a column, and whether it may be NULL."""

    least: int
    most: int
    or_null: bool = False


DAY, NUMBER = Range(texts.FIRST_DAY, texts.LAST_DAY), Range(1, texts.LAST_NUMBER)
CUSTOMER, LETTER, SERIAL = Range(1, texts.LAST_CUSTOMER), Range(1, 26), Range(1, texts.LAST_SERIAL)
MONTH, RATE, SUM = (
    Range(0, texts.LAST_ISSUE),
    Range(0, values.MOST_RATE),
    Range(0, texts.LAST_NUMBER),
)
PLACE = Range(1, MOST_BONDS_OF_A_TICKET)

# Of every table: the columns that name a row, and the range of every column.
RANGES = {
    "desk": (
        ("id",),
        {
            "id": Range(1, 1),
            "version": Range(1, 2),
            "day": Range(*DAY[:2], True),
            "last_day": Range(*DAY[:2], True),
        },
    ),
    "rates": (("period",), {"period": MONTH, "rate": RATE}),
    "named_extensions": (("period",), {"period": MONTH, "rate": RATE}),
    "bonds": (
        ("letter", "number"),
        {
            "letter": LETTER,
            "number": SERIAL,
            "denom": Range(50, 10000),
            "issued": MONTH,
            "owner": CUSTOMER,
            "coowner": Range(*CUSTOMER[:2], True),
            "ticket": Range(*NUMBER[:2], True),
        },
    ),
    "tickets": (
        ("ticket",),
        {"ticket": NUMBER, "day": DAY, "payee": CUSTOMER, "bonds": PLACE, "total": SUM},
    ),
    "paid": (
        ("ticket", "place"),
        {"ticket": NUMBER, "place": PLACE, "letter": LETTER, "number": SERIAL, "cents": SUM},
    ),
    "batches": (
        ("day",),
        {"day": DAY, "tickets": Range(0, MOST_TICKETS_OF_A_DAY), "bonds": SUM, "total": SUM},
    ),
    "kept": (("desk", "number"), {"desk": Range(0, 999), "number": NUMBER}),
}


def name_of(table: str, key: Key) -> str:
    """How a report names a row."""
    if table == "bonds":
        return (
            texts.serial_text(key[0], key[1])
            if 1 <= key[0] <= 26
            else f"letter {key[0]} number {key[1]}"
        )
    if table == "paid":
        return f"ticket {key[0]} place {key[1]}"
    if table in ("rates", "extensions", "named_extensions"):
        return texts.month_text(key[0]) if 0 <= key[0] <= texts.LAST_MONTH else f"period {key[0]}"
    if table == "batches":
        return texts.day_text(key[0]) if DAY.least <= key[0] <= DAY.most else f"day {key[0]}"
    if table in ("kept", "answers"):
        return f"desk {key[0]} number {key[1]}"
    return f"ticket {key[0]}" if table == "tickets" else str(key[0])


def of_table(table: str) -> str:
    """The table that a view of this report shows."""
    return {"named_extensions": "extensions", "kept": "answers"}.get(table, table)


# ---- the file


def is_whole_file(store: Store, findings: Findings) -> None:
    findings.tested = store.one("PRAGMA page_count")[0]
    for (line,) in store.rows("PRAGMA integrity_check"):
        if line != "ok":
            findings.differs("file", "page", "what SQLite says", line, "ok")


def checksum_weights(words: int) -> tuple[list[int], list[int]]:
    """By how much every word of a page counts in its two sums, modulo 2^32.

    SQLite's cksumvfs adds the words in turn: `s1 += word + s2`, then `s2 += word + s1`. So a word counts
    by a number that only its place decides."""
    firsts: list[int] = []
    seconds: list[int] = []
    of_first, of_second = (1, 1), (0, 1)
    for _ in range(words // 2):
        for weights, place in ((firsts, 0), (seconds, 1)):
            weights += [of_second[place], of_first[place]]
        of_first, of_second = after(of_first), after(of_second)
    return firsts[::-1], seconds[::-1]


def after(sums: tuple[int, int]) -> tuple[int, int]:
    """The two sums after two more words that are 0."""
    first = (sums[0] + sums[1]) % 2**32
    return first, (sums[1] + first) % 2**32


def page_checksums(store: Store, findings: Findings) -> None:
    size = store.one("PRAGMA page_size")[0]
    with open(store.path, "rb") as file:
        if file.read(21)[20:] != b"\x08":
            findings.remarks.append("The pages of this store have no checksums.")
            return
        file.seek(0)
        weights = checksum_weights((size - 8) // 4)
        for number in itertools.count(1):
            page = file.read(size)
            if not page:
                return
            findings.tested += 1
            words = array.array("I", page)
            if sys.byteorder == "big":
                words.byteswap()
            sums = tuple(sum(map(operator.mul, words, weight)) % 2**32 for weight in weights)
            findings.compare(
                "file",
                f"page {number}",
                "checksum",
                "%08x %08x" % tuple(words[-2:]),
                "%08x %08x" % sums,
            )


def tables_are_those(store: Store, findings: Findings) -> None:
    forms = FORMS[1 if store.version == 1 else 2]
    wanted = next((form for form in forms if form == store.statements), forms[0])
    findings.tested = len(wanted)
    for place, (found, right) in enumerate(itertools.zip_longest(store.statements, wanted), 1):
        findings.compare("sqlite_schema", f"statement {place}", "text", found, right)
    findings.compare("desk", "1", "rows", store.count("desk"), 1)
    for mark in ("application_id", "user_version"):
        findings.compare("file", "header", mark, store.one(f"PRAGMA {mark}")[0], 0)


def values_are_in_range(store: Store, findings: Findings) -> None:
    for table, (key, ranges) in RANGES.items():
        findings.tested += store.count(table)
        for column, limits in ranges.items():
            may_be_null = f"{column} IS NOT NULL AND " if limits.or_null else ""
            outside = (
                f"{may_be_null}(typeof({column}) <> 'integer' OR {column} NOT BETWEEN ? AND ?)"
            )
            for *named, found in store.rows(
                f"SELECT {', '.join(key)}, {column} FROM {table} WHERE {outside}",
                limits.least,
                limits.most,
            ):
                findings.differs(
                    of_table(table),
                    name_of(table, tuple(named)),
                    column,
                    found,
                    f"{limits.least} to {limits.most}",
                )
    marks = ", ".join(map(str, values.DENOMINATIONS))
    for letter, number, found in store.rows(
        f"SELECT letter, number, denom FROM bonds WHERE denom NOT IN ({marks})"
    ):
        findings.differs(
            "bonds", name_of("bonds", (letter, number)), "denom", found, f"one of {marks}"
        )


# ---- rates and bonds


def rates_are_announced(store: Store, findings: Findings) -> None:
    findings.tested = store.count("rates") + store.count("named_extensions")
    for (period,) in store.rows("SELECT period FROM rates WHERE period % 6 <> 0"):
        findings.differs(
            "rates", name_of("rates", (period,)), "period", "another month", "a May or November"
        )
    alone = "SELECT x.period, x.rate, r.rate FROM named_extensions AS x LEFT JOIN rates AS r ON r.period = x.period WHERE r.rate IS NULL OR r.rate = x.rate"
    for period, found, fixed in store.rows(alone):
        wanted = (
            "a fixed rate of that period" if fixed is None else "another rate than the fixed one"
        )
        findings.differs("extensions", name_of("extensions", (period,)), "rate", found, wanted)


def bonds_have_terms(store: Store, findings: Findings) -> None:
    findings.tested = store.count("bonds")
    for letter, number, issued in store.rows(
        "SELECT letter, number, issued FROM bonds WHERE issued - issued % 6 NOT IN (SELECT period FROM rates)"
    ):
        findings.differs(
            "bonds",
            name_of("bonds", (letter, number)),
            "issued",
            texts.month_text(issued),
            "a month whose period has a rate",
        )
    for letter, number, owner in store.rows(
        "SELECT letter, number, owner FROM bonds WHERE coowner = owner"
    ):
        findings.differs(
            "bonds",
            name_of("bonds", (letter, number)),
            "coowner",
            owner,
            "another customer than the owner",
        )


# ---- tickets and lines


def tickets_are_in_order(store: Store, findings: Findings) -> None:
    open_day = store.open_day()
    closed = {day for (day,) in store.rows("SELECT day FROM batches")}
    before, last = texts.FIRST_DAY, 0
    for ticket, day in store.rows("SELECT ticket, day FROM tickets ORDER BY ticket"):
        findings.tested += 1
        row = name_of("tickets", (ticket,))
        findings.compare("tickets", row, "number", ticket, last + 1)
        if day < before:
            findings.differs(
                "tickets",
                row,
                "day",
                texts.day_text(day),
                f"no day before {texts.day_text(before)}",
            )
        if day not in closed and day != open_day:
            findings.differs(
                "tickets", row, "day", texts.day_text(day), "a closed day or the open day"
            )
        before, last = max(day, before), ticket
    for day, count in store.rows(
        "SELECT day, count(*) FROM tickets GROUP BY day HAVING count(*) > ?", MOST_TICKETS_OF_A_DAY
    ):
        findings.differs(
            "tickets",
            texts.day_text(day),
            "tickets of the day",
            count,
            f"{MOST_TICKETS_OF_A_DAY} at most",
        )


def tickets_are_their_lines(store: Store, findings: Findings) -> None:
    findings.tested = store.count("tickets")
    sums = "SELECT ticket, count(*) AS lines, min(place) AS first, max(place) AS last, sum(cents) AS cents FROM paid GROUP BY ticket"
    found = f"SELECT t.ticket, t.bonds, t.total, coalesce(s.lines, 0), s.first, s.last, coalesce(s.cents, 0) FROM tickets AS t LEFT JOIN ({sums}) AS s ON s.ticket = t.ticket"
    for ticket, bonds, total, lines, first, last, cents in store.rows(found):
        row = name_of("tickets", (ticket,))
        findings.compare("tickets", row, "bonds", bonds, lines)
        findings.compare("tickets", row, "total", texts.money(total), texts.money(cents))
        if lines and (first, last) != (1, lines):
            findings.differs("paid", row, "places", f"{first} to {last}", f"1 to {lines}")
    for ticket, place in store.rows(
        "SELECT ticket, place FROM paid WHERE ticket NOT IN (SELECT ticket FROM tickets)"
    ):
        findings.differs(
            "paid", name_of("paid", (ticket, place)), "ticket", "no such ticket", "a ticket"
        )


def bonds_are_paid_once(store: Store, findings: Findings) -> None:
    findings.tested = store.count("bonds")
    for letter, number, count in store.rows(
        "SELECT letter, number, count(*) FROM paid GROUP BY letter, number HAVING count(*) > 1"
    ):
        findings.differs("paid", name_of("bonds", (letter, number)), "lines", count, "1 at most")
    marks = "SELECT b.letter, b.number, b.ticket, p.ticket FROM bonds AS b LEFT JOIN paid AS p ON p.letter = b.letter AND p.number = b.number WHERE b.ticket IS NOT p.ticket"
    for letter, number, mark, ticket in store.rows(marks):
        findings.differs("bonds", name_of("bonds", (letter, number)), "ticket", mark, ticket)


def payees_hold_the_bonds(store: Store, findings: Findings) -> None:
    findings.tested = store.count("paid")
    held = "SELECT p.ticket, p.place, p.letter, p.number, t.payee, b.owner, b.coowner FROM paid AS p JOIN tickets AS t ON t.ticket = p.ticket LEFT JOIN bonds AS b ON b.letter = p.letter AND b.number = p.number"
    for ticket, place, letter, number, payee, owner, coowner in store.rows(
        f"{held} WHERE b.owner IS NULL OR NOT (t.payee = b.owner OR t.payee IS b.coowner)"
    ):
        wanted = (
            "a registered bond"
            if owner is None
            else f"{owner}" + (f" or {coowner}" if coowner else "")
        )
        findings.differs(
            "paid",
            name_of("paid", (ticket, place)),
            f"payee of {name_of('bonds', (letter, number))}",
            payee,
            wanted,
        )


def payments_are_the_values(store: Store, findings: Findings) -> None:
    terms = {
        period: (fixed, extension)
        for period, fixed, extension in store.rows("SELECT period, fixed, extension FROM terms")
    }
    lines = "SELECT p.ticket, p.place, p.cents, t.day, b.denom, b.issued FROM paid AS p JOIN tickets AS t ON t.ticket = p.ticket JOIN bonds AS b ON b.letter = p.letter AND b.number = p.number"
    for ticket, place, cents, day, denomination, issued in store.rows(lines):
        findings.tested += 1
        age, pair = texts.month_of_day(day) - issued, terms.get(values.rate_period(issued))
        wanted = None if pair is None else values.payable(denomination, age, pair)
        if cents != wanted:
            row = name_of("paid", (ticket, place))
            findings.differs(
                "paid",
                row,
                f"cents at age {age}",
                texts.money(cents),
                "not payable" if wanted is None else texts.money(wanted),
            )


# ---- days and batches


def batches_are_their_tickets(store: Store, findings: Findings) -> None:
    findings.tested = store.count("batches")
    sums = "SELECT t.day, count(DISTINCT t.ticket) AS tickets, count(p.place) AS bonds, sum(p.cents) AS total FROM tickets AS t LEFT JOIN paid AS p ON p.ticket = t.ticket GROUP BY t.day"
    rows = f"SELECT b.day, b.tickets, b.bonds, b.total, coalesce(s.tickets, 0), coalesce(s.bonds, 0), coalesce(s.total, 0) FROM batches AS b LEFT JOIN ({sums}) AS s ON s.day = b.day"
    for day, tickets, bonds, total, of_tickets, of_bonds, of_total in store.rows(rows):
        row = name_of("batches", (day,))
        findings.compare("batches", row, "tickets", tickets, of_tickets)
        findings.compare("batches", row, "bonds", bonds, of_bonds)
        findings.compare("batches", row, "total", texts.money(total), texts.money(of_total))


def days_follow(store: Store, findings: Findings) -> None:
    findings.tested = store.count("batches") + 1
    # If the desk has no row, the test of the tables says so.
    (open_day, last_day), (latest,) = store.one("SELECT day, last_day FROM desk") or (
        None,
        None,
    ), store.one("SELECT max(day) FROM batches")
    findings.compare("desk", "1", "last_day", last_day, latest)
    if open_day is not None and latest is not None and open_day <= latest:
        findings.differs(
            "desk", "1", "day", texts.day_text(open_day), f"a day after {texts.day_text(latest)}"
        )


def sums_are_conserved(store: Store, findings: Findings) -> None:
    findings.tested = store.count("paid")
    (batches,) = store.one("SELECT coalesce(sum(total), 0) FROM batches")
    (today,) = store.one(
        "SELECT coalesce(sum(total), 0) FROM tickets WHERE day = (SELECT day FROM desk)"
    )
    (lines,) = store.one("SELECT coalesce(sum(cents), 0) FROM paid")
    findings.compare(
        "batches",
        "all",
        "batches and the open day's tickets",
        texts.money(batches + today),
        texts.money(lines),
    )


TESTS = (
    (
        "file",
        "The file is whole, as SQLite sees it",
        "FORMATS, The tables of a store",
        is_whole_file,
    ),
    (
        "checksums",
        "Every page ends in its checksum",
        "FORMATS, The tables of a store",
        page_checksums,
    ),
    (
        "tables",
        "The tables are those of the program, and the desk has its one row",
        "FORMATS, The tables of a store",
        tables_are_those,
    ),
    (
        "ranges",
        "Every value is in its range",
        "FORMATS, Spellings that are read",
        values_are_in_range,
    ),
    (
        "rates",
        "Rates stand at a May or November, and an extension differs from its fixed rate",
        "MODEL, Sound books; 31 CFR Part 351",
        rates_are_announced,
    ),
    (
        "bonds",
        "Every bond has rates for its issue month, and a coowner is another customer",
        "MODEL, Sound books",
        bonds_have_terms,
    ),
    (
        "tickets",
        "Tickets are numbered 1, 2, 3 and on, and their days never fall",
        "MODEL, Sound books",
        tickets_are_in_order,
    ),
    (
        "lines",
        "Every ticket has as many bonds, and the total, as its lines",
        "MODEL, Sound books",
        tickets_are_their_lines,
    ),
    (
        "once",
        "Every bond is paid once, and names the ticket that paid it",
        "MODEL, Paid pairs",
        bonds_are_paid_once,
    ),
    (
        "payees",
        "Every bond was paid to its owner or its coowner",
        "MODEL, Refusals; 31 CFR Part 353",
        payees_hold_the_bonds,
    ),
    (
        "values",
        "Every payment is the value of its bond in its month, 12 months after issue at the earliest",
        "MODEL, Value; 31 CFR Part 351",
        payments_are_the_values,
    ),
    (
        "batches",
        "Every batch is the sums of its day's tickets and lines",
        "MODEL, Sound books",
        batches_are_their_tickets,
    ),
    (
        "days",
        "The last closed day is the latest batch, and the open day is later",
        "MODEL, Sound books",
        days_follow,
    ),
    (
        "conservation",
        "All batches and the open day's tickets come to what was paid",
        "MODEL, Conservation",
        sums_are_conserved,
    ),
)


def ran(
    store: Store, name: str, title: str, source: str, test: Callable[[Store, Findings], None]
) -> Findings:
    """What one test found. A test that the store's rows stop is a difference too."""
    findings = Findings(name, title, source)
    try:
        test(store, findings)
    except (sqlite3.Error, ValueError, TypeError, KeyError, OverflowError, IndexError) as fault:
        findings.differs(
            "store",
            "all",
            "the test can't go on",
            f"{type(fault).__name__}: {fault}",
            "rows that can be read",
        )
    return findings


def run_all(store: Store) -> list[Findings]:
    return [ran(store, *test) for test in TESTS]
