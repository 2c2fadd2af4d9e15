"""The desk by its rules (docs/MODEL.md, docs/STATUSES.md): books, acts, replies, queries, and
the rows that a store then has. Values are those of tests/shared/exact.py. It shares nothing with
the program."""
import copy
import json
from pathlib import Path
from typing import Any, Iterable, Mapping, Sequence, TypedDict

from .. import exact
from . import spelling
from .spelling import Serial, day_text, money, month_text, rate_text, serial_text

#: The desk and the number of a request.
Key = tuple[int, int]
#: The name of an act, and what `do_` of Books takes under that name.
Act = tuple[Any, ...]
Reply = dict[str, object]
#: A rate and its extension, in hundredths of a percent.
Terms = tuple[int, int]
#: Denomination, issue month, owner and co-owner of a bond.
Bond = tuple[int, int, int, int | None]
#: A row of the calculator by the names of its columns.
Columns = dict[str, Any]
#: The rows of each table.
Rows = dict[str, Any]


class Ticket(TypedDict):
    ticket: int
    day: int
    payee: int
    lines: list[tuple[Serial, int]]


MOST_ROWS, MOST_SERIALS, MOST_TICKETS = 500, 100, 1_000
API = json.loads((Path(__file__).parents[3] / "docs/openapi.json").read_text())
SCHEMAS = API["components"]["schemas"].items()
#: The name of each refusal by its code.
NAMES = {one["properties"]["code"]["const"]: name for name, one in SCHEMAS if "x-remedy" in one}
NOTES = {exact.PLAIN: "", exact.NI: "NI", exact.NE: "NE", exact.P5: "P5", exact.MA: "MA"}
COLUMNS = "<13 <6 >6 <7 <7 <7 >12 >14 >6 >14".split()
HEADINGS = "Serial Series Denom Issued Next Final Price Interest Rate Value".split()
MONTHS, SUMS = ("issued", "next", "final"), ("price", "interest", "value")


class Refused(Exception):
    """The code of a refusal, and what it names."""

    def __init__(self, code: int, **named: object) -> None:
        super().__init__(code)
        self.code, self.named = code, named


def compact(value: object) -> str:
    return json.dumps(value, separators=(",", ":"), sort_keys=True)


def period(issued: int) -> int:
    """The latest May or November not after a month."""
    return issued - (issued % 12 - 4) % 6


def exact_row(dollars: int, issued: int, month: int, terms: Terms) -> exact.Row:
    return exact.row(dollars, exact.number_of(issued), exact.number_of(month), *terms)


def first_twice(keys: Iterable[Serial]) -> Serial | None:
    """The first key that stands earlier in the list, or None."""
    seen = set()
    for key in keys:
        if key in seen:
            return key
        seen.add(key)
    return None


def count_is_right(count: int, most: int) -> None:
    if count == 0:
        raise Refused(11)
    if count > most:
        raise Refused(12)


class Books:
    def __init__(self) -> None:
        self.rates: dict[int, Terms] = {}
        self.bonds: dict[Serial, Bond] = {}
        self.paid_on: dict[Serial, int] = {}
        self.day: int | None = None
        self.last_day: int | None = None
        self.tickets: list[Ticket] = []
        self.batches: dict[int, tuple[int, int, int]] = {}
        self.kept: dict[Key, tuple[Act, Reply]] = {}

    def copy(self) -> "Books":
        return copy.deepcopy(self)

    # ---- acts

    def deliver(self, key: Key, act: Act) -> Reply:
        """The reply to a request: the kept one, or that of its act, which is kept."""
        if key in self.kept:
            first, reply = self.kept[key]
            return reply if first == act else refusal(Refused(10))
        try:
            reply = getattr(self, "do_" + act[0])(*act[1:])
        except Refused as refused:
            reply = refusal(refused)
        self.kept[key] = (act, reply)
        return reply

    def do_rates(self, rows: Sequence[tuple[int, int, int]]) -> Reply:
        count_is_right(len(rows), MOST_ROWS)
        for begins, *_ in rows:
            if begins % 12 not in (4, 10):
                raise Refused(20, month=month_text(begins))
        known = dict(self.rates)
        for begins, rate, extension in rows:
            if known.setdefault(begins, (rate, extension)) != (rate, extension):
                raise Refused(21, month=month_text(begins))
        return self.added(known, "rates", len(rows))

    def added(self, known: Mapping[Any, object], name: str, count: int) -> Reply:
        new = len(known) - len(getattr(self, name))
        setattr(self, name, known)
        return {"new": new, "same": count - new}

    def do_bonds(self, rows: Sequence[tuple[Serial, int, int, int, int | None]]) -> Reply:
        count_is_right(len(rows), MOST_ROWS)
        twice = first_twice(row[0] for row in rows)
        if twice:
            raise Refused(13, serial=serial_text(twice))
        for serial, _, _, owner, coowner in rows:
            if owner == coowner:
                raise Refused(14, serial=serial_text(serial))
        for serial, _, issued, *_ in rows:
            if period(issued) not in self.rates:
                raise Refused(30, serial=serial_text(serial))
        known = dict(self.bonds)
        for serial, dollars, issued, owner, coowner in rows:
            bond = (dollars, issued, owner, coowner)
            if known.setdefault(serial, bond) != bond:
                raise Refused(31, serial=serial_text(serial))
        return self.added(known, "bonds", len(rows))

    def do_open(self, day: int) -> Reply:
        if self.day is not None:
            raise Refused(40)
        if self.last_day is not None and day <= self.last_day:
            raise Refused(41)
        self.day = day
        return {"opened": day_text(day)}

    def day_is(self, day: int) -> None:
        if self.day is None:
            raise Refused(42)
        if self.day != day:
            raise Refused(43)

    def todays(self) -> list[Ticket]:
        return [ticket for ticket in self.tickets if ticket["day"] == self.day]

    def payment(self, serial: Serial, payee: int) -> int:
        named = {"serial": serial_text(serial)}
        if serial not in self.bonds:
            raise Refused(50, **named)
        dollars, issued, owner, coowner = self.bonds[serial]
        if payee not in (owner, coowner):
            raise Refused(51, **named)
        if serial in self.paid_on:
            raise Refused(52, ticket=self.paid_on[serial], **named)
        assert self.day is not None
        month = spelling.month_of_day(self.day)
        if month < issued:
            raise Refused(53, **named)
        if month - issued < 12:
            raise Refused(54, **named)
        return exact_row(dollars, issued, month, self.rates[period(issued)])[0]

    def do_redeem(self, day: int, payee: int, serials: Sequence[Serial]) -> Reply:
        count_is_right(len(serials), MOST_SERIALS)
        twice = first_twice(serials)
        if twice:
            raise Refused(13, serial=serial_text(twice))
        self.day_is(day)
        if len(self.todays()) >= MOST_TICKETS:
            raise Refused(44)
        lines = [(serial, self.payment(serial, payee)) for serial in serials]
        number = len(self.tickets) + 1
        ticket: Ticket = {"ticket": number, "day": day, "payee": payee, "lines": lines}
        self.tickets.append(ticket)
        self.paid_on.update((serial, number) for serial in serials)
        return ticket_told(ticket)

    def do_close(self, day: int) -> Reply:
        self.day_is(day)
        today = self.todays()
        lines = [cents for ticket in today for _, cents in ticket["lines"]]
        self.batches[day] = (len(today), len(lines), sum(lines))
        self.day, self.last_day = None, day
        return batch_told(day, self.batches[day])

    # ---- queries

    def ask_ticket(self, number: int) -> Reply | None:
        return ticket_told(self.tickets[number - 1]) if number <= len(self.tickets) else None

    def ask_batch(self, day: int) -> Reply | None:
        return batch_told(day, self.batches[day]) if day in self.batches else None

    def ask_value(self, dollars: int, issued: int, month: int) -> dict[str, object] | None:
        terms = self.rates.get(period(issued))
        return None if terms is None else row_told(columns(dollars, issued, month, terms))

    def unpaid(self, owner: int) -> list[tuple[Serial, int, int, int, int | None]]:
        unpaid = {serial: self.bonds[serial] for serial in self.bonds.keys() - self.paid_on.keys()}
        return sorted((serial, *bond) for serial, bond in unpaid.items() if bond[2] == owner)

    def ask_inventory(self, owner: int, month: int) -> str:
        bonds = [bond[:3] for bond in self.unpaid(owner)]
        terms = [(serial, denom, at, self.rates[period(at)]) for serial, denom, at in bonds]
        rows = [(serial, columns(denom, at, month, rate)) for serial, denom, at, rate in terms]
        return sheet(rows)

    def export(self, owner: int) -> str:
        text = "serial,denom,issued,owner,coowner\n"
        for serial, dollars, issued, _, coowner in self.unpaid(owner):
            row = (serial_text(serial), dollars, month_text(issued), owner, coowner or "")
            text += ",".join(map(str, row)) + "\n"
        return text


def refusal(refused: Refused) -> Reply:
    return {"code": refused.code, "refused": NAMES[refused.code], **refused.named}


def ticket_told(ticket: Ticket) -> Reply:
    lines = [{"serial": serial_text(one), "paid": money(cents)} for one, cents in ticket["lines"]]
    total = money(sum(cents for _, cents in ticket["lines"]))
    return {**ticket, "day": day_text(ticket["day"]), "lines": lines, "total": total}


def batch_told(day: int, batch: tuple[int, int, int]) -> Reply:
    tickets, bonds, total = batch
    return {"day": day_text(day), "tickets": tickets, "bonds": bonds, "total": money(total)}


def columns(dollars: int, issued: int, month: int, terms: Terms) -> Columns:
    """The row of the calculator: what a month shows of a bond."""
    _, price, interest, value, _, note, *_ = exact_row(dollars, issued, month, terms)
    age = month - issued
    is_earning = 0 <= age < 360
    found: Columns = {"denom": dollars, "issued": issued, "next": month + 1 if is_earning else None}
    found |= {"final": issued + 360 if age >= 0 else None, "note": NOTES[note]}
    found |= {"rate": terms[0 if age < 240 else 1] if is_earning else None}
    return {**found, "price": price, "interest": interest, "value": value}


def row_told(row: Columns) -> dict[str, object]:
    months = {name: "" if row[name] is None else month_text(row[name]) for name in MONTHS}
    rate = "" if row["rate"] is None else rate_text(row["rate"])
    return {**row, "rate": rate, **months, **{name: money(row[name]) for name in SUMS}}


def sheet_line(cells: Sequence[str], note: str) -> str:
    text = " ".join(format(cell, form) for cell, form in zip(cells, COLUMNS))
    return text + (" " + note if note else "") + "\n"


def sheet(rows: Sequence[tuple[Serial, Columns]]) -> str:
    text, totals = sheet_line(HEADINGS, "Note"), dict.fromkeys(SUMS, 0)
    for serial, row in rows:
        ms = ["" if row[name] is None else spelling.sheet_month_text(row[name]) for name in MONTHS]
        rate = "" if row["rate"] is None else rate_text(row["rate"])
        *sums, value = (money(row[name]) for name in SUMS)
        cells = [serial_text(serial), "EE", str(row["denom"]), *ms, *sums, rate, value]
        text += sheet_line(cells, row["note"])
        totals = {name: totals[name] + row[name] for name in SUMS}
    *sums, value = map(money, totals.values())
    return text + sheet_line(["Total", *[""] * 5, *sums, "", value], "")


def rate_named(row: tuple[int, int, int]) -> dict[str, object]:
    begins, rate, extension = row
    named = {} if rate == extension else {"extension": rate_text(extension)}
    return {"from": month_text(begins), "rate": rate_text(rate), **named}


def bond_named(row: tuple[Serial, int, int, int, int | None]) -> dict[str, object]:
    serial, dollars, issued, owner, coowner = row
    named: dict[str, object] = {} if coowner is None else {"coowner": coowner}
    named |= {"serial": serial_text(serial), "denom": dollars, "issued": month_text(issued)}
    return {**named, "owner": owner}


def act_named(act: Act) -> dict[str, object]:
    """The value whose compact text is the canonical text of an act."""
    name, *parts = act
    if name == "rates":
        return {"act": name, "rates": [rate_named(row) for row in parts[0]]}
    if name == "bonds":
        return {"act": name, "bonds": [bond_named(row) for row in parts[0]]}
    if name != "redeem":
        return {"act": name, "day": day_text(parts[0])}
    day, payee, serials = parts
    named = [serial_text(serial) for serial in serials]
    return {"act": name, "day": day_text(day), "payee": payee, "serials": named}


def rows_of(books: Books) -> Rows:
    """The rows of each table of version 2, in order of key."""
    first = spelling.FIRST_MONTH
    rates, tickets = sorted(books.rates.items()), books.tickets
    found: Rows = {
        "desk": [(1, 2, books.day, books.last_day)],
        "rates": [(begins - first, rate) for begins, (rate, _) in rates],
        "extensions": [(at - first, more) for at, (rate, more) in rates if rate != more],
        "batches": [(day, *batch) for day, batch in sorted(books.batches.items())],
    }
    found["bonds"] = [
        (*serial, bond[0], bond[1] - first, *bond[2:], books.paid_on.get(serial))
        for serial, bond in sorted(books.bonds.items())
    ]
    found["tickets"] = [
        (t["ticket"], t["day"], t["payee"], len(t["lines"]), sum(cents for _, cents in t["lines"]))
        for t in tickets
    ]
    lines = ((t["ticket"], *line) for t in tickets for line in enumerate(t["lines"], 1))
    found["paid"] = [(ticket, place, *serial, cents) for ticket, place, (serial, cents) in lines]
    kept = sorted(books.kept.items())
    found["answers"] = [(*key, compact(act_named(a)), compact(reply)) for key, (a, reply) in kept]
    return found
