"""A small counter in memory, over HTTP, for the tests of a program that uses this package.

It answers as the counter does: the same routes, texts, refusals in their order, and one reply to every request number. What differs:

- Values are those of rates of 0.00 %, whatever rates are entered: a bond pays its issue price (half of its denomination), and from 20 years on its denomination.
  `values` gives bonds other values.
- A month without rates has 0.00 %, so NoRate (30) and RateUnsettled (22) come only if `refusals` says so.
- Its faults are NoRoute, BadMethod, BadJson and BadField; it doesn't test how a message is framed.
"""
from __future__ import annotations

import http.server
import json
import re
import threading
from types import TracebackType
from typing import Any, Callable, Dict, List, Mapping, Optional, Tuple, Type

from ..archive import act_text, terms_of
from ..answers import compact
from ..errors import BadValue
from ..sheets import HEADING, sheet_line
from ..spelling import (
    MOST_NUMBER,
    MOST_ROWS,
    MOST_SERIALS,
    Json,
    bond_of,
    cents_of,
    customer_of,
    day_of,
    denom_of,
    issue_of,
    month_of,
    rate_row_of,
    serial_of,
    whole,
)

MOST_TICKETS = 1000


class Refusal(Exception):
    """The reply of a refusal."""

    def __init__(self, code: int, name: str, **named: Any) -> None:
        super().__init__(name)
        self.reply = dict(sorted({"code": code, "refused": name, **named}.items()))


class Misfit(Exception):
    """A fault of a message: its status and its answer."""

    def __init__(self, status: int, code: int, name: str, field: Optional[str] = None) -> None:
        super().__init__(name)
        self.status, self.answer = status, {
            "code": code,
            "fault": name,
            **({"field": field} if field else {}),
        }


def printed(cents: int) -> str:
    """Dollars and cents."""
    return f"{cents // 100}.{cents % 100:02}"


def months(text: str) -> int:
    """A month as a count of months."""
    return int(text[:4]) * 12 + int(text[5:7]) - 1


def month_text(count: int) -> str:
    """A count of months as a month."""
    return f"{count // 12:04}-{count % 12 + 1:02}"


def sheet_month(text: str) -> str:
    """A month as a sheet prints it."""
    return f"{text[5:]}/{text[:4]}" if text else ""


def first_twice(serials: List[str]) -> Optional[str]:
    """The first serial number that stands earlier in the list."""
    return next((serial for place, serial in enumerate(serials) if serial in serials[:place]), None)


def by_serial(bond: Json) -> Tuple[str, int]:
    """The place of a bond on a sheet."""
    return bond["serial"][0], int(bond["serial"][1:-2])


class FakeCounter:
    """Listens on a port of its own (`port`, `address`). Its books can be looked at and changed: `bonds`, `paid`, `tickets`, `batches`, `day`.

    `values` are dollars as texts, by serial number. `refusals` are replies that the next acts get, whatever they ask for, such as
    {"code": 30, "refused": "NoRate", "serial": "L1EE"}."""

    def __init__(self, values: Optional[Mapping[str, str]] = None) -> None:
        self.values: Dict[str, int] = {}
        for serial, text in (values or {}).items():
            cents = cents_of(text)
            if cents is None:
                raise BadValue(f"a value is dollars and cents, as 25.16, and not {text!r}")
            self.values[serial_of(serial)] = cents
        self.rates: Dict[str, Json] = {}
        self.bonds: Dict[str, Json] = {}
        self.paid: Dict[str, int] = {}
        self.day: Optional[str] = None
        self.closed: Optional[str] = None
        self.tickets: List[Json] = []
        self.batches: Dict[str, Json] = {}
        self.kept: Dict[Tuple[int, int], Tuple[str, Json]] = {}
        self.refusals: List[Mapping[str, Any]] = []
        self.lock = threading.Lock()
        self.server = http.server.ThreadingHTTPServer(("127.0.0.1", 0), handler_of(self))
        self.server.daemon_threads = True
        self.port: int = self.server.server_address[1]
        self.address = f"http://127.0.0.1:{self.port}"
        threading.Thread(
            target=self.server.serve_forever, kwargs={"poll_interval": 0.05}, daemon=True
        ).start()

    def __enter__(self) -> "FakeCounter":
        return self

    def __exit__(
        self,
        kind: Optional[Type[BaseException]],
        error: Optional[BaseException],
        trace: Optional[TracebackType],
    ) -> None:
        self.close()

    def close(self) -> None:
        """Stops listening."""
        self.server.shutdown()
        self.server.server_close()

    # ---- messages

    def answered(self, method: str, path: str, body: bytes) -> Tuple[int, str]:
        """The status and the text that a message is answered."""
        with self.lock:
            try:
                if path in ACTS:
                    return self.acted(method, path, body)
                return self.looked_up(method, path)
            except Misfit as fault:
                return fault.status, compact(fault.answer)

    def acted(self, method: str, path: str, body: bytes) -> Tuple[int, str]:
        """The answer to a request: its kept reply, or that of its act."""
        if method != "POST":
            raise Misfit(405, 67, "BadMethod")
        desk, number, fields = fields_of(path, body)
        act = act_text(path, fields)
        if (desk, number) in self.kept:
            first, reply = self.kept[desk, number]
            reply = reply if first == act else Refusal(10, "NumberReused").reply
        else:
            reply = self.replied(path, fields)
            self.kept[desk, number] = act, reply
        return 409 if "refused" in reply else 200, compact(reply)

    def replied(self, path: str, fields: Json) -> Json:
        """The reply to a new request."""
        if self.refusals:
            return dict(sorted(self.refusals.pop(0).items()))
        try:
            return ACTS[path](self, fields)
        except Refusal as refusal:
            return refusal.reply

    def looked_up(self, method: str, path: str) -> Tuple[int, str]:
        """The answer to a look-up."""
        found = ROUTES.fullmatch(path)
        if found is None:
            raise Misfit(404, 66, "NoRoute")
        if method != "GET":
            raise Misfit(405, 67, "BadMethod")
        parts: Dict[str, str] = {
            name: text for name, text in found.groupdict().items() if text is not None
        }
        if "ticket" in parts:
            number = part("ticket", lambda: whole(parts["ticket"], 1, MOST_NUMBER, "a ticket"))
            return found_or_not(self.tickets[number - 1] if number <= len(self.tickets) else None)
        if "day" in parts:
            return found_or_not(self.batches.get(part("day", lambda: day_of(parts["day"]))))
        if "customer" in parts:
            customer, month = part("customer", lambda: customer_of(parts["customer"])), part(
                "month", lambda: month_of(parts["month"])
            )
            return 200, self.sheet(customer, month)
        denom, issued = part("denom", lambda: denom_of(parts["denom"])), part(
            "issued", lambda: issue_of(parts["issued"])
        )
        row = self.row(
            {"serial": "", "denom": denom, "issued": issued},
            part("month", lambda: month_of(parts["of"])),
        )
        return 200, compact(dict(sorted(row.items())))

    # ---- acts

    def add_rates(self, fields: Json) -> Json:
        """Enters rates."""
        rows = [terms_of(row) for row in counted(fields["rates"], MOST_ROWS)]
        for row in rows:
            if row["from"][5:] not in ("05", "11"):
                raise Refusal(20, "NotAnnouncementMonth", month=row["from"])
        known = dict(self.rates)
        for row in rows:
            if known.setdefault(row["from"], row) != row:
                raise Refusal(21, "RateConflict", month=row["from"])
        new = len(known) - len(self.rates)
        self.rates = known
        return {"new": new, "same": len(rows) - new}

    def add_bonds(self, fields: Json) -> Json:
        """Registers bonds."""
        rows = counted(fields["bonds"], MOST_ROWS)
        twice = first_twice([row["serial"] for row in rows])
        if twice is not None:
            raise Refusal(13, "Repeated", serial=twice)
        for row in rows:
            if row["owner"] == row.get("coowner"):
                raise Refusal(14, "SameCoowner", serial=row["serial"])
        known = dict(self.bonds)
        for row in rows:
            if known.setdefault(row["serial"], row) != row:
                raise Refusal(31, "SerialConflict", serial=row["serial"])
        new = len(known) - len(self.bonds)
        self.bonds = known
        return {"new": new, "same": len(rows) - new}

    def open_day(self, fields: Json) -> Json:
        """Opens a day."""
        if self.day is not None:
            raise Refusal(40, "DayOpen")
        if self.closed is not None and fields["day"] <= self.closed:
            raise Refusal(41, "DayNotLater")
        self.day = str(fields["day"])
        return {"opened": self.day}

    def of_today(self, fields: Json) -> List[Json]:
        """The tickets of the open day, if the request names it."""
        if self.day is None:
            raise Refusal(42, "NoOpenDay")
        if self.day != fields["day"]:
            raise Refusal(43, "DayIsOther")
        return [ticket for ticket in self.tickets if ticket["day"] == self.day]

    def redeem(self, fields: Json) -> Json:
        """Pays bonds."""
        serials: List[str] = counted(fields["serials"], MOST_SERIALS)
        twice = first_twice(serials)
        if twice is not None:
            raise Refusal(13, "Repeated", serial=twice)
        if len(self.of_today(fields)) >= MOST_TICKETS:
            raise Refusal(44, "DayFull")
        sums = [self.payment(serial, fields["payee"]) for serial in serials]
        ticket = {
            "day": self.day,
            "lines": [
                {"paid": printed(cents), "serial": serial} for serial, cents in zip(serials, sums)
            ],
            "payee": fields["payee"],
            "ticket": len(self.tickets) + 1,
            "total": printed(sum(sums)),
        }
        self.tickets.append(ticket)
        self.paid.update((serial, len(self.tickets)) for serial in serials)
        return ticket

    def payment(self, serial: str, payee: int) -> int:
        """What a bond pays on the open day, in cents."""
        bond = self.bonds.get(serial)
        if bond is None:
            raise Refusal(50, "UnknownSerial", serial=serial)
        if payee not in (bond["owner"], bond.get("coowner")):
            raise Refusal(51, "NotPayee", serial=serial)
        if serial in self.paid:
            raise Refusal(52, "AlreadyPaid", serial=serial, ticket=self.paid[serial])
        row = self.row(bond, str(self.day)[:7])
        if row["note"] in ("NI", "NE"):
            raise Refusal(53, "NotIssued", serial=serial) if row["note"] == "NI" else Refusal(
                54, "NotEligible", serial=serial
            )
        return cents_of(row["value"]) or 0

    def close_day(self, fields: Json) -> Json:
        """Closes the open day."""
        today = self.of_today(fields)
        total = sum(cents_of(ticket["total"]) or 0 for ticket in today)
        batch = {
            "bonds": sum(len(ticket["lines"]) for ticket in today),
            "day": self.day,
            "tickets": len(today),
            "total": printed(total),
        }
        self.batches[str(self.day)] = batch
        self.day, self.closed = None, self.day
        return batch

    # ---- rows

    def row(self, bond: Json, month: str) -> Json:
        """The row of a bond in a month, at rates of 0.00 %."""
        age, price = months(month) - months(bond["issued"]), bond["denom"] * 50
        value = 0 if age < 0 else self.values.get(bond["serial"], price * (2 if age >= 240 else 1))
        note = (
            "NI"
            if age < 0
            else "NE"
            if age < 12
            else "P5"
            if age < 60
            else "MA"
            if age >= 360
            else ""
        )
        is_earning = 0 <= age < 360
        return {
            "denom": bond["denom"],
            "final": month_text(months(bond["issued"]) + 360) if age >= 0 else "",
            "interest": printed(value - (price if age >= 0 else 0)),
            "issued": bond["issued"],
            "next": month_text(months(month) + 1) if is_earning else "",
            "note": note,
            "price": printed(price if age >= 0 else 0),
            "rate": self.rate(bond["issued"], age) if is_earning else "",
            "value": printed(value),
        }

    def rate(self, issued: str, age: int) -> str:
        """The rate that was entered for an issue month."""
        begins = max((month for month in self.rates if month <= issued), default=None)
        if begins is None:
            return "0.00%"
        row = self.rates[begins]
        return str(row.get("extension", row["rate"]) if age >= 240 else row["rate"])

    def sheet(self, customer: int, month: str) -> str:
        """The sheet of a customer's unpaid bonds."""
        lines, totals = [HEADING], {"price": 0, "interest": 0, "value": 0}
        for bond in sorted(
            (
                bond
                for serial, bond in self.bonds.items()
                if bond["owner"] == customer and serial not in self.paid
            ),
            key=by_serial,
        ):
            row = self.row(bond, month)
            cells = {**row, "serial": bond["serial"], "series": "EE", "denom": str(row["denom"])}
            lines.append(
                sheet_line(
                    {
                        **cells,
                        **{name: sheet_month(row[name]) for name in ("issued", "next", "final")},
                    }
                )
            )
            totals = {name: cents + (cents_of(row[name]) or 0) for name, cents in totals.items()}
        lines.append(
            sheet_line(
                {"serial": "Total", **{name: printed(cents) for name, cents in totals.items()}}
            )
        )
        return "\n".join(lines) + "\n"


ACTS: Dict[str, Callable[[FakeCounter, Json], Json]] = {
    "/rates": FakeCounter.add_rates,
    "/bonds": FakeCounter.add_bonds,
    "/day/open": FakeCounter.open_day,
    "/day/close": FakeCounter.close_day,
    "/redeem": FakeCounter.redeem,
}
ROUTES = re.compile(
    r"/ticket/(?P<ticket>[^/]+)|/batch/(?P<day>[^/]+)|/inventory/(?P<customer>[^/]+)/(?P<month>[^/]+)|/value/(?P<denom>[^/]+)/(?P<issued>[^/]+)/(?P<of>[^/]+)"
)


def counted(rows: List[Any], most: int) -> List[Any]:
    """The rows, if there are as many as a request may have."""
    if not rows:
        raise Refusal(11, "Empty")
    if len(rows) > most:
        raise Refusal(12, "TooMany")
    return rows


def found_or_not(value: Optional[Json]) -> Tuple[int, str]:
    """The answer that shows what was found."""
    if value is None:
        raise Misfit(404, 69, "NotFound")
    return 200, compact(value)


def part(name: str, read: Callable[[], Any]) -> Any:
    """Reads a field. What can't be read is the fault BadField."""
    try:
        return read()
    except (BadValue, KeyError, TypeError, AttributeError):
        raise Misfit(400, 65, "BadField", name) from None


def fields_of(path: str, body: bytes) -> Tuple[int, int, Json]:
    """Reads the body of an act: its desk, its number and its fields."""
    try:
        value = json.loads(body)
    except ValueError:
        raise Misfit(400, 64, "BadJson") from None
    if not isinstance(value, dict):
        raise Misfit(400, 65, "BadField", "body")
    desk = value.pop("desk", 0)
    desk = part("desk", lambda: number_in(0 if desk is None else desk, 0, 999))
    number = part("number", lambda: number_in(value.pop("number"), 1, MOST_NUMBER))
    fields: Json = {}
    for name, read in FIELDS[path].items():
        fields[name] = part(name, lambda: read(value.pop(name)))
    if value:
        raise Misfit(400, 65, "BadField", "other")
    return desk, number, fields


def number_in(value: object, least: int, most: int) -> int:
    """Reads a JSON number."""
    if type(value) is not int:
        raise BadValue("a number isn't a text")
    return whole(value, least, most, "a number")


def rows_in(read: Callable[[object], Any]) -> Callable[[object], List[Any]]:
    """Reads every row of a JSON list."""

    def rows(values: object) -> List[Any]:
        if not isinstance(values, list):
            raise BadValue("a list is wanted")
        return [read(value) for value in values]

    return rows


FIELDS: Dict[str, Dict[str, Callable[[Any], Any]]] = {
    "/rates": {"rates": rows_in(rate_row_of)},
    "/bonds": {"bonds": rows_in(bond_of)},
    "/day/open": {"day": day_of},
    "/day/close": {"day": day_of},
    "/redeem": {
        "day": day_of,
        "payee": lambda value: number_in(value, 1, 999_999_999),
        "serials": rows_in(serial_of),
    },
}


def handler_of(fake: FakeCounter) -> Type[http.server.BaseHTTPRequestHandler]:
    """The class that answers one connection."""

    class Handler(http.server.BaseHTTPRequestHandler):
        protocol_version = "HTTP/1.1"

        def answer(self) -> None:
            body = self.rfile.read(int(self.headers.get("Content-Length") or 0))
            status, text = fake.answered(self.command, self.path, body)
            self.send_response_only(status)
            self.send_header(
                "Content-Type", "application/json" if text.startswith("{") else "text/plain"
            )
            self.send_header("Content-Length", str(len(text.encode())))
            self.send_header("Connection", "close")
            self.end_headers()
            self.wfile.write(text.encode())
            self.close_connection = True

        do_GET = do_POST = answer

        def log_message(self, format: str, *args: Any) -> None:
            """Says nothing."""

    return Handler
