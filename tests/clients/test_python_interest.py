"""The interest of paid bonds as CSV: over the program, beside arithmetic of the tests' own, and with each thing missing in turn."""

import csv
import datetime
import hashlib
import itertools
import json
import re
from decimal import Decimal
from pathlib import Path
from typing import Any, Callable, Iterable, Iterator
from unittest import mock

import pytest

import ee_counter_client as client
import ee_counter_client.interest as interest_module
from ee_counter_client.testing import FakeCounter, Gate
from tests.clients.desk import Desk, Part, TrueCounter, bonds_csv, by_process, command, controls
from tests.clients.desk import holds_not, ran
from tests.conftest import TOP
from tests.shared import exact

HEADER = "day,ticket,payee,serial,denom,issued,price,interest,value\n"
#: Each denomination, with issue months in several periods: younger and older than 5 years, and older than 20 years at the last day.
ROWS = """L1EE,50,2010-11,7, K1EE,75,2010-10,7,8 C1EE,100,2005-05,7, R1EE,200,2006-11,8,
D1EE,500,2009-07,9,7 M1EE,1000,2008-04,9, V1EE,5000,2011-02,8, X1EE,10000,2011-01,7,9
L2EE,50,2005-10,7, X2EE,10000,2006-05,8,""".split()
CELLS = [row.split(",") for row in ROWS]
BONDS = [client.Bond(s, int(d), i, int(o), int(c) if c else None) for s, d, i, o, c in CELLS]
#: What is paid on each day: payees with their bonds.
DAYS: dict[str, list[tuple[int, list[str]]]] = {
    "2012-02-06": [(7, ["L1EE", "K1EE"]), (9, ["D1EE"])],
    "2012-02-07": [],
    "2012-12-31": [(8, ["R1EE"])],
    "2013-01-02": [(7, ["C1EE", "X1EE"]), (9, ["M1EE"]), (8, ["V1EE"])],
    "2026-11-27": [(7, ["L2EE"]), (8, ["X2EE"])],
}
*CLOSED, OPEN = DAYS


def dollars(cents: int) -> str:
    return f"{cents // 100}.{cents % 100:02}"


def expected(is_wanted: Callable[[str, int, int], bool]) -> tuple[str, list[Decimal]]:
    """The CSV of the payments that are wanted by day, ticket and payee, by the tests' own arithmetic; and the sums of price, interest and value."""
    with open(TOP / "samples/rates.csv", encoding="utf-8", newline="") as file:
        rates = [(row["from"], int(Decimal(row["rate"]) * 100)) for row in csv.DictReader(file)]
    bonds = {bond.serial: bond for bond in BONDS}
    text, sums, ticket = HEADER, [0, 0, 0], 0
    for day, payments in DAYS.items():
        for payee, serials in payments:
            ticket += 1
            for serial in serials if is_wanted(day, ticket, payee) else ():
                denom, issued = bonds[serial].denom, str(bonds[serial].issued)
                rate = max(row for row in rates if row[0] <= issued)[1]
                at, on = (int(month.replace("-", "")) for month in (issued, day[:7]))
                value, price, interest = exact.row(denom, at, on, rate, rate)[:3]
                sums = [total + cents for total, cents in zip(sums, (price, interest, value))]
                found = ",".join(map(dollars, (price, interest, value)))
                text += f"{day},{ticket},{payee},{serial},{denom},{issued},{found}\n"
    return text, [Decimal(dollars(cents)) for cents in sums]


class Books:
    """The days over the program. The inventory has half of the bonds, the desk's archive the others."""

    def __init__(self, true: TrueCounter, place: Path) -> None:
        self.place, self.true = place, true
        self.half, self.whole = place / "half.csv", place / "whole.csv"
        self.half.write_text(bonds_csv(*ROWS[::2]))
        self.whole.write_text(bonds_csv(*ROWS))
        self.archive, self.of_store = place / "a.archive", place / "store.archive"
        self.of_store.mkdir()
        self.archive_store()
        with self.counter() as counter:
            counter.add_rates(client.rates_in(TOP / "samples/rates.csv"))
            client.register(counter, self.half)
            counter.add_bonds(BONDS[1::2])
            for day, payments in DAYS.items():
                counter.open_day(day, even_so=True)
                for payee, serials in payments:
                    counter.redeem(day, payee, serials)
                if day != OPEN:
                    counter.close_day(day)
        self.lookups = client.Lookups(true.address)
        self.known = client.bonds_known(self.archive)

    def archive_store(self) -> None:
        with self.true.stopped():
            words = (TOP / "samples/restore/archive", self.true.store, self.of_store)
            status, out, told = ran(*words)
        assert status == 0, out + told

    def counter(self) -> client.Counter:
        journal = self.place / "a.journal"
        return client.Counter(journal, self.true.address, desk=3, archive=self.archive)

    def of(self, kind: Any, *words: Any) -> client.Interest:
        call: Callable[..., client.Interest] = getattr(client, f"interest_of_{kind}")
        return call(self.lookups, *words, self.known)


@pytest.fixture
def books(true: TrueCounter, folder: Path) -> Books:
    return Books(true, folder)


def same(found: client.Interest, is_wanted: Callable[[str, int, int], bool]) -> None:
    text, sums = expected(is_wanted)
    assert found.text == text and [found.price, found.interest, found.value] == sums
    assert found.price + found.interest == found.value and found.missing == ()


SPANS = [("2012-01-01", "2012-12-31"), ("2012-02-06", "2013-01-02"), ("2013-01-01", "2026-11-26")]
SPANS += [("2012-02-07", "2012-12-30"), ("2005-05-01", "2012-02-05")]
FIRST = mock.patch.object(interest_module, "Month", lambda year, month: client.Month(year, 1))
SECOND = mock.patch.object(interest_module.Question, "first_of", lambda question, day: 2)


@controls(first_month_of_the_year=FIRST, tickets_from_the_second_on=SECOND)
def test_interest(books: Books, part: Part) -> None:
    """Each ticket, each day and several spans: the sums are those of the ticket and of the batch."""
    with holds_not(part):
        for number in range(1, 8):
            found = books.of("ticket", number)
            same(found, lambda day, ticket, payee: ticket == number)
            paid = books.lookups.ticket(number)
            assert paid and found.value == paid.total
        for wanted in CLOSED:
            found = books.of("day", wanted)
            same(found, lambda day, ticket, payee: day == wanted)
            batch = books.lookups.batch(wanted)
            assert batch and (found.value, len(found.rows)) == (batch.total, batch.bonds)
        for payee, (first, last) in itertools.product((7, 8, 9, 10), SPANS):
            found = books.of("payee", payee, first, last)
            same(found, lambda day, ticket, paid: paid == payee and first <= day <= last)
        row = books.of("ticket", 1).rows[1]
        bond = ("K1EE", 75, client.Month(2010, 10))
        money = (Decimal("37.50"), Decimal("0.57"), Decimal("38.07"))
        assert row == client.Paid(datetime.date(2012, 2, 6), 1, 7, *bond, *money)


def test_open_day(books: Books) -> None:
    """A day that isn't closed may lack tickets. Once it is closed, it is whole; the archive of the store has the same bonds."""
    for words in (("day", OPEN), ("payee", 7, "2013-01-01", "2026-12-31")):
        with pytest.raises(client.Incomplete) as raised:
            books.of(*words)
        lack = f"{OPEN} isn't closed, so its tickets may not be all"
        assert raised.value.missing == (lack,) and len(raised.value.interest.rows) >= 2
    with books.counter() as counter:
        counter.close_day(OPEN)
    same(books.of("day", OPEN), lambda day, *_: day == OPEN)
    books.archive_store()
    assert client.bonds_known(books.of_store) == books.known and len(books.known) == len(BONDS)


def test_command(books: Books) -> None:
    at = ("--at", books.true.address)
    wanted: dict[tuple[object, ...], Callable[[str, int, int], bool]] = {
        ("ticket", "4", books.whole): lambda day, ticket, payee: ticket == 4,
        ("day", "2013-01-02", books.archive): lambda day, ticket, payee: day == "2013-01-02",
        (
            "payee",
            "7",
            "2012-01-01",
            "2013-12-31",
            books.half,
            books.archive,
        ): lambda day, _, payee: (payee == 7 and day < "2014"),
    }
    for (kind, *words), is_wanted in wanted.items():
        assert command(*at, f"interest-{kind}", *words) == (0, expected(is_wanted)[0], "")
    status, out, told = command(*at, "interest-ticket", "4", books.half)
    assert (status, told) == (1, "missing: X1EE, on ticket 4, is in none of the files\n")
    whole = expected(lambda day, ticket, payee: ticket == 4)[0].splitlines()
    assert out.splitlines()[:2] == whole[:2]
    assert out.splitlines()[2] == f"2013-01-02,4,7,X1EE,,,,,{whole[2].split(',')[-1]}"
    lacks = [("day", day, f"{day} isn't closed") for day in ("2012-02-08", OPEN)]
    for kind, word, text in [("ticket", "99", "there is no ticket 99"), *lacks]:
        status, out, told = command(*at, f"interest-{kind}", word, books.whole)
        assert status == 1 and told.startswith(f"missing: {text}") and out.startswith(HEADER)
    for what, *more in (
        *(("ticket", "4"), ("ticket", "0", books.whole), ("ticket", "4", books.place / "none.csv")),
        ("payee", "7", "2013-01-01", "2012-01-01", books.whole),
        ("day", "2012-02-30", books.whole),
    ):
        assert command(*at, f"interest-{what}", *more)[:2] == (2, ""), more


def settles(books: Books, day: str, *sources: Path) -> tuple[int, str, str]:
    words = ("settlement", "--page", books.place / "page.html", day, *sources)
    return command("--at", books.true.address, *words)


def test_settlement(books: Books) -> None:
    """The bonds of a closed day for the cash letter. The store's archive has those that no inventory has; without it they are named, and what was paid is there all the same."""
    books.archive_store()
    whole, (*_, value) = expected(lambda on, *_: on == "2013-01-02")
    said = f"The batch has 3 tickets, 4 bonds, ${value:,}\n"
    assert settles(books, "2013-01-02", books.of_store) == (0, whole, said)
    page = (books.place / "page.html").read_text()
    assert "4 bonds" in page and page.count("<tr>") == 6 and "Not whole" not in page
    rows = [line.split(",") for line in whole.splitlines(keepends=True)]
    for row in rows:
        row[4:8] = [""] * 4 if row[3] in ("X1EE", "M1EE") else row[4:8]
    status, out, told = settles(books, "2013-01-02", books.half)
    assert (status, out) == (1, "".join(map(",".join, rows)))
    assert "missing: X1EE, on ticket 4, is in none of the files" in told
    assert "Not whole" in (books.place / "page.html").read_text()
    other = books.place / "other.csv"
    other.write_text(books.whole.read_text().replace("C1EE,100,", "C1EE,50,"))
    status, _, told = settles(books, "2013-01-02", other)
    assert status == 1 and f"C1EE, on ticket 4: {rows[1][8].strip()} was paid" in told
    status, _, told = settles(books, OPEN, books.of_store)
    assert status == 1 and f"{OPEN} isn't closed" in told


@pytest.mark.browser
def test_settlement_prints(books: Books) -> None:
    settles(books, "2013-01-02", books.whole)
    paper = books.place / "page.pdf"
    words = ["--headless", "--no-sandbox", "--disable-gpu", f"--print-to-pdf={paper}"]
    assert ran("chromium", *words, books.place / "page.html", env=None)[0] == 0
    assert len(re.findall(rb"/Type\s*/Page\b", paper.read_bytes())) == 1


class FakeBooks:
    """A fake counter, a desk's calls to which are given no number."""

    def __init__(self, fake: FakeCounter) -> None:
        self.fake, self.numbers = fake, itertools.count(1)

    def day(self, day: str, serials: Iterable[str]) -> None:
        for serial in serials:
            bond = {"serial": serial, "denom": 50, "issued": "2010-11", "owner": 7}
            self.fake.bonds[serial] = bond
        acts: list[tuple[str, dict[str, Any]]] = [("/day/open", {}), ("/day/close", {})]
        acts[1:1] = [("/redeem", {"payee": 7, "serials": [serial]}) for serial in serials]
        for path, fields in acts:
            body = json.dumps({"number": next(self.numbers), "day": day, **fields}).encode()
            assert self.fake.answered("POST", path, body)[0] == 200

    def known(self) -> dict[str, client.Bond]:
        return {serial: client.Bond(serial, 50, "2010-11", 7) for serial in self.fake.bonds}


@pytest.fixture
def fake_books() -> Iterator[FakeBooks]:
    with FakeCounter() as fake:
        yield FakeBooks(fake)


def trusting(question: interest_module.Question, ticket: object, line: object, bond: Any) -> Any:
    return question.lookups.value(bond.denom, bond.issued, "2012-02"), ""


@controls(
    file_is_taken_at_its_word=mock.patch.object(interest_module.Question, "row", trusting),
    batch_is_not_looked_at=mock.patch.object(interest_module.Question, "untied", lambda *_: []),
)
def test_missing(fake_books: FakeBooks, part: Part) -> None:
    """Each thing that isn't right is named, and raises Incomplete."""
    fake_books.day("2012-02-06", ("L1EE", "L2EE"))
    fake_books.day("2012-02-07", ("L3EE",))
    lookups, known = client.Lookups(fake_books.fake.address), fake_books.known()
    found = client.interest_of_payee(lookups, 7, "2012-02-06", "2012-02-07", known)
    row = "2012-02-07,3,7,L3EE,50,2010-11,25.00,0.00,25.00"
    assert found.text.splitlines()[3] == row and found.value == Decimal("75.00"), "control"
    other = client.Bond("L1EE", 100, "2010-11", 7)
    without = {serial: bond for serial, bond in known.items() if serial != "L1EE"}
    worth = "25.00 was paid, and the files' bond, of 100 dollars and 2010-11, is worth 50.00"
    with holds_not(part):
        for kept, sentence in (
            (without, "L1EE, on ticket 1, is in none of the files"),
            ({**without, "L1EE": other}, f"L1EE, on ticket 1: {worth} in 2012-02"),
        ):
            year = ("2012-01-01", "2012-12-31")
            for call, words in (
                (client.interest_of_day, ("2012-02-06",)),
                (client.interest_of_payee, (7, *year)),
                (client.interest_of_ticket, (1,)),
            ):
                with pytest.raises(client.Incomplete) as raised:
                    call(lookups, *words, kept)  # type: ignore[operator]
                first = raised.value.interest.rows[0]
                assert raised.value.missing == (sentence,) and first.value == Decimal("25.00")
                assert (first.price, first.interest, first.denom, first.issued) == (None,) * 4
        for name, value in {"total": "49.99", "bonds": 3, "tickets": 1}.items():
            with mock.patch.dict(fake_books.fake.batches["2012-02-06"], {name: value}):
                with pytest.raises(client.Incomplete) as raised:
                    client.interest_of_day(lookups, "2012-02-06", known)
                (lack,) = raised.value.missing
                assert "2012-02-06" in lack and str(value) in lack


@pytest.mark.parametrize("bond", ["L1EE,50,2010-11,7,", ""])
def test_full_disk(fake_books: FakeBooks, folder: Path, bond: str) -> None:
    """A CSV that can't be written whole has status 3."""
    fake_books.day("2012-02-06", ("L1EE",))
    file = folder / "bonds.csv"
    file.write_text(bonds_csv(bond))
    words = ("--at", fake_books.fake.address, "interest-day", "2012-02-06", file)
    with open("/dev/full", "w", encoding="utf-8") as full:
        status, _, told = by_process(*words, stdout=full)
    assert status == 3 and "No space left" in told
    assert command(*words)[0] == (0 if bond else 1), "control: with room"


ANY_SUM = mock.patch.object(hashlib, "sha256", lambda line: mock.Mock(hexdigest=lambda: mock.ANY))


@controls(chain_is_not_looked_at=ANY_SUM)
def test_sources(desk: Desk, part: Part) -> None:
    """Inventories and archives: what is refused, and what isn't taken."""
    two = [client.Bond("L1EE", 50, "2010-11", 7), client.Bond("K1EE", 75, "10/2010", 7, 8)]
    archive, other = desk.archive, desk.place / "b.archive"
    with holds_not(part):
        with desk.counter(archive=archive) as counter:
            counter.add_bonds(two)
            with pytest.raises(client.SerialConflict):
                counter.add_bonds([client.Bond(s, 50, "2010-10", 7) for s in ("L1EE", "L9EE")])
            counter.patience, desk.gate.faults = 0.3, ["lost request"] * 9
            with pytest.raises(client.NoReply):
                counter.add_bonds([client.Bond("L8EE", 50, "2010-11", 7)])
        known = client.bonds_known(archive)
        assert known == {"L1EE": two[0], "K1EE": client.Bond("K1EE", 75, "2010-10", 7, 8)}
        whole = archive.read_bytes()
        other.write_bytes(whole + b'{"before":"12')
        assert client.bonds_known(other) == known, "a last line that a stop cut is left out"
        lines = whole.split(b"\n")
        for changed in (
            whole.replace(b'"denom":50', b'"denom":75', 1),
            b"\n".join(lines[:1] + lines[2:]),
            b'{"archive":1,\n[]\n7\n',
        ):
            other.write_bytes(changed)
            with pytest.raises(client.BadFile, match="archive was changed"):
                client.bonds_known(other)
        for text, row in {
            "L1EE,51,2010-11,7,": 2,
            "L9EE,50,2010-11,7,\nL1EE,75,2010-11,7,": 3,
            "L1EE,50,2010-10,7,": 2,
        }.items():
            (desk.place / "b.csv").write_text(bonds_csv(text))
            with pytest.raises(client.BadFile) as raised:
                client.bonds_known(archive, desk.place / "b.csv")
            assert raised.value.row == row
        for junk in (None, 7, "", "a\0b", desk.place / "none"):
            with pytest.raises(client.BadCall):
                client.bonds_known(junk)  # type: ignore[arg-type]


def test_few_messages(fake_books: FakeBooks) -> None:
    """A day is found by doubling and halving, and not by reading all tickets."""
    for day in range(1, 29):
        fake_books.day(f"2012-02-{day:02}", [f"L{20 * day + count}EE" for count in range(20)])
    known = fake_books.known()
    with Gate(fake_books.fake) as gate:
        lookups = client.Lookups(gate.address)
        for day in (1, 14, 28):
            before = len(gate.heads)
            found = client.interest_of_day(lookups, f"2012-02-{day:02}", known)
            assert len(found.rows) == 20 and {row.day.day for row in found.rows} == {day}
            assert len(gate.heads) - before <= 20 + 1 + 1 + 1 + 21
        found = client.interest_of_payee(lookups, 7, "2012-01-01", "2012-12-31", known)
        assert len(found.rows) == 560 and found.value == Decimal("14000.00")
