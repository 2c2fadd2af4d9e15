#!/usr/bin/env python3
"""Four of the counter's answers as one would write them in Python with its standard library alone, `http.server` and `sqlite3`, over the tables of a store
(a copy of one that is at rest): a value, a redemption, the same again, and an owner's inventory, on connections that stay (HTTP/1.1), one after the other.
Usage: server.py STORE PORT. `beside_python.py` runs it, and tests that its answers are the counter's, byte by byte.

A redemption does the reads and writes of the counter's, one after the other in one transaction, with one synchronous commit (a log, synchronous=FULL). What
is left out favours Python: rows of the store are believed as they are, a request is believed to have the right fields, and of the rules only those are tested
that need no more reading (what they refuse is a status of 500 here). Terms are read for each value, as the counter does; the values of a unit are made
once for a pair of rates, by `decimal`, and then looked up, as the counter does too. An answer is one write, and nothing is logged."""
from __future__ import annotations

import decimal, json, sqlite3, sys
from datetime import date
from functools import cache
from http.server import BaseHTTPRequestHandler, HTTPServer
from typing import TypedDict

HEAD = "HTTP/1.1 %s\r\nContent-Type: %s\r\nContent-Length: %d\r\n\r\n"
HEADING = "Serial        Series  Denom Issued  Next    Final          Price       Interest   Rate          Value Note\n"
store = sqlite3.connect(sys.argv[1], isolation_level=None)
store.execute("PRAGMA journal_mode = WAL")
store.execute("PRAGMA synchronous = FULL")


#: Price, interest and value in cents, the rate, the months of the next accrual and of final maturity, and the note.
Row = tuple[int, int, int, int | None, int | None, int | None, str]


class Redemption(TypedDict, total=False):
    """The body of a request."""

    desk: int
    number: int
    day: str
    payee: int
    serials: list[str]


def compact(value: object) -> str:
    return json.dumps(value, separators=(",", ":"), sort_keys=True)


def month(text: str) -> int:
    return int(text[:4]) * 12 + int(text[5:]) - 2005 * 12 - 5


def dollars(cents: int) -> str:
    return f"{cents // 100}.{cents % 100:02}"


def rounded(cents: decimal.Decimal) -> int:
    return int(cents.quantize(decimal.Decimal(1), decimal.ROUND_HALF_UP))


@cache
def unit_values(rate: int, extension: int) -> list[int]:
    """The cents of one unit at each age, 0 to 360: half-years are rounded to the cent and grow on, and at 20 years it has doubled."""
    start = 1250
    values: list[int] = []
    for half in range(60):
        growth = 1 + decimal.Decimal(rate if half < 40 else extension) / 20000
        *within, start = [
            rounded(start * growth ** (decimal.Decimal(months) / 6)) for months in range(7)
        ]
        values += within
        if half == 39:
            start = max(start, 2500)
    return values + [start]


def terms(issued: int) -> tuple[int, int]:
    """The fixed rate and that of extended maturity of the bonds that are issued in a month."""
    period = issued - issued % 6
    found = store.execute("SELECT rate FROM rates WHERE period = ?", (period,)).fetchone()
    named = store.execute("SELECT rate FROM extensions WHERE period = ?", (period,)).fetchone()
    return found[0], named[0] if named else found[0]


def row(denom: int, issued: int, now: int, rates: tuple[int, int]) -> Row:
    """What a sheet shows of a bond: its price, interest and value in cents, its rate, the months of its next accrual and final maturity, and its note."""
    age, price = now - issued, denom * 50
    if age < 0:
        return 0, 0, 0, None, None, None, "NI"
    value = (
        price
        if age < 12
        else unit_values(*rates)[min(age - 3 if age < 60 else age, 360)] * denom // 25
    )
    if age >= 360:
        return price, value - price, value, None, None, issued + 360, "MA"
    return (
        price,
        value - price,
        value,
        rates[age >= 240],
        now + 1,
        issued + 360,
        "NE" if age < 12 else "P5" if age < 60 else "",
    )


def month_text(count: int | None) -> str:
    return "" if count is None else f"{2005 + (count + 4) // 12}-{(count + 4) % 12 + 1:02}"


def sheet_month(count: int | None) -> str:
    return "" if count is None else f"{(count + 4) % 12 + 1:02}/{2005 + (count + 4) // 12}"


def value(denom: str, issued: str, now: str) -> str:
    price, interest, paid, rate, following, final, note = row(
        int(denom), month(issued), month(now), terms(month(issued))
    )
    return compact(
        {
            "denom": int(denom),
            "final": month_text(final),
            "interest": dollars(interest),
            "issued": issued,
            "next": month_text(following),
            "note": note,
            "price": dollars(price),
            "rate": "" if rate is None else dollars(rate) + "%",
            "value": dollars(paid),
        }
    )


def line(
    serial: str,
    series: str,
    denom: int | str,
    issued: str,
    following: str,
    final: str,
    price: str,
    interest: str,
    rate: str,
    paid: str,
    note: str,
) -> str:
    text = f"{serial:13} {series:6} {denom:>6} {issued:7} {following:7} {final:7} {price:>12} {interest:>14} {rate:>6} {paid:>14}"
    return f"{text} {note}\n" if note else text + "\n"


def inventory(customer: str, shown: str) -> str:
    now, lines, sums = month(shown), [HEADING], [0, 0, 0]
    rates: dict[int, tuple[int, int]] = {}
    bonds = store.execute(
        "SELECT letter, number, denom, issued FROM bonds WHERE owner = ? AND ticket IS NULL ORDER BY letter, number",
        (int(customer),),
    )
    for letter, number, denom, issued in bonds.fetchall():
        period = issued - issued % 6
        if period not in rates:
            rates[period] = terms(issued)
        price, interest, paid, rate, following, final, note = row(denom, issued, now, rates[period])
        sums = [sums[0] + price, sums[1] + interest, sums[2] + paid]
        lines.append(
            line(
                f"{chr(64 + letter)}{number}EE",
                "EE",
                denom,
                sheet_month(issued),
                sheet_month(following),
                sheet_month(final),
                dollars(price),
                dollars(interest),
                "" if rate is None else dollars(rate) + "%",
                dollars(paid),
                note,
            )
        )
    lines.append(
        line(
            "Total",
            "",
            "",
            "",
            "",
            "",
            dollars(sums[0]),
            dollars(sums[1]),
            "",
            dollars(sums[2]),
            "",
        )
    )
    return "".join(lines)


def pay(request: Redemption, act: str) -> str:
    """A new redemption, within a transaction: its reply, which is kept."""
    day, payee, serials = (
        (date.fromisoformat(request["day"]) - date(1970, 1, 1)).days,
        request["payee"],
        request["serials"],
    )
    _, open_day, _ = store.execute(
        "SELECT version, day, last_day FROM desk WHERE id = 1"
    ).fetchone()
    assert open_day == day and len(set(serials)) == len(serials) <= 100
    now = (int(request["day"][:4]) - 2005) * 12 + int(request["day"][5:7]) - 5
    found: list[tuple[tuple[int, int], str, int, int]] = []
    rates: dict[int, tuple[int, int]] = {}
    lines: list[tuple[tuple[int, int], str, int]] = []
    for serial in serials:
        key = ord(serial[0]) - 64, int(serial[1:-2])
        denom, issued, owner, coowner, ticket = store.execute(
            "SELECT denom, issued, owner, coowner, ticket FROM bonds WHERE letter = ? AND number = ?",
            key,
        ).fetchone()
        assert ticket is None and payee in (owner, coowner) and now - issued >= 12
        found.append((key, serial, denom, issued))
    for _, _, _, issued in found:
        if issued - issued % 6 not in rates:
            rates[issued - issued % 6] = terms(issued)
    last = store.execute("SELECT ticket FROM tickets ORDER BY ticket DESC LIMIT 1").fetchone()
    first = store.execute(
        "SELECT ticket FROM tickets WHERE day = ? ORDER BY ticket LIMIT 1", (day,)
    ).fetchone()
    ticket = last[0] + 1 if last else 1
    assert not first or ticket - first[0] < 1000
    for key, serial, denom, issued in found:
        lines.append((key, serial, row(denom, issued, now, rates[issued - issued % 6])[2]))
    total = sum(cents for _, _, cents in lines)
    store.execute(
        "INSERT INTO tickets (ticket, day, payee, bonds, total) VALUES (?, ?, ?, ?, ?)",
        (ticket, day, payee, len(lines), total),
    )
    store.executemany(
        "INSERT INTO paid (ticket, place, letter, number, cents) VALUES (?, ?, ?, ?, ?)",
        [(ticket, place, *key, cents) for place, (key, _, cents) in enumerate(lines, 1)],
    )
    store.executemany(
        "UPDATE bonds SET ticket = ? WHERE letter = ? AND number = ?",
        [(ticket, *key) for key, _, _ in lines],
    )
    reply = compact(
        {
            "day": request["day"],
            "lines": [{"paid": dollars(cents), "serial": serial} for _, serial, cents in lines],
            "payee": payee,
            "ticket": ticket,
            "total": dollars(total),
        }
    )
    store.execute(
        "INSERT INTO answers (desk, number, act, reply) VALUES (?, ?, ?, ?)",
        (request.get("desk", 0), request["number"], act, reply),
    )
    return reply


def redeem(body: bytes) -> str:
    request: Redemption = json.loads(body)
    act = compact(
        {
            "act": "redeem",
            "day": request["day"],
            "payee": request["payee"],
            "serials": request["serials"],
        }
    )
    store.execute("BEGIN")
    try:
        kept = store.execute(
            "SELECT act, reply FROM answers WHERE desk = ? AND number = ?",
            (request.get("desk", 0), request["number"]),
        ).fetchone()
        assert not kept or kept[0] == act
        reply: str = kept[1] if kept else pay(request, act)
        store.execute("COMMIT")
        return reply
    except BaseException:
        store.execute("ROLLBACK")
        raise


class Counter(BaseHTTPRequestHandler):
    protocol_version, wbufsize, disable_nagle_algorithm = "HTTP/1.1", -1, True

    def log_message(self, format: str, *_: object) -> None:
        pass

    def answer(self, text: str, kind: str = "application/json", status: str = "200 OK") -> None:
        body = text.encode()
        self.wfile.write((HEAD % (status, kind, len(body))).encode() + body)

    def do_GET(self) -> None:
        parts = self.path.split("/")[1:]
        if parts[0] == "value":
            self.answer(value(*parts[1:]))
        else:
            self.answer(inventory(*parts[1:]), "text/plain")

    def do_POST(self) -> None:
        try:
            self.answer(redeem(self.rfile.read(int(self.headers["Content-Length"]))))
        except (AssertionError, TypeError, ValueError, KeyError) as why:
            self.answer(compact({"failed": repr(why)}), status="500 Internal Server Error")


if __name__ == "__main__":
    HTTPServer(("127.0.0.1", int(sys.argv[2])), Counter).serve_forever()
