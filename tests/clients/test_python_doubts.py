"""Implausible values, which the counter would take, are questioned before they are sent: letters, issue months, and days to open."""

import contextlib
import datetime
from typing import Callable, Iterator
from unittest import mock

import pytest

import ee_counter_client as client
import ee_counter_client.plausible as plausible
from ee_counter_client.testing import FakeCounter
from tests.clients.desk import Desk, Part, bonds_csv, command, controls, holds_not, within

#: The letters of paper bonds, from $50 to $10,000.
LETTERS = {"L": 50, "K": 75, "C": 100, "R": 200, "D": 500, "M": 1000, "V": 5000, "X": 10000}
TODAY = datetime.date(2026, 11, 27)


@pytest.fixture(autouse=True)
def today() -> Iterator[None]:
    with mock.patch.object(plausible, "today", lambda: TODAY):
        yield


def after(days: int) -> str:
    return (TODAY + datetime.timedelta(days=days)).isoformat()


def doubts_of(desk: Desk, call: Callable[[], object]) -> tuple[str, ...]:
    with desk.untouched(), pytest.raises(client.Implausible) as raised:
        call()
    assert not raised.value.may_be_done
    return tuple(raised.value.doubts)


def bond(letter: str, number: int, denom: int, issued: str = "2010-11") -> client.Bond:
    return client.Bond(f"{letter}{number}EE", denom, issued, 7)


@controls(
    another_letter=mock.patch.dict(plausible.LETTERS, {10000: "M"}),
    a_month_later=mock.patch.object(plausible, "LAST_PAPER", "2012-01"),
    a_month_less=mock.patch.object(plausible, "LAST_PAPER", "2011-11"),
)
def test_bonds(desk: Desk, part: Part) -> None:
    """Each letter with each denomination, and the issue months around the end of paper."""
    with holds_not(part), desk.counter() as counter:
        for letter in "ABCDEFGHIJKLMNOPQRSTUVWXYZ":
            for denom in LETTERS.values():
                one = bond(letter, 1000 + denom, denom)
                if LETTERS.get(letter) == denom:
                    assert counter.add_bonds([one]).new == 1
                    continue
                (doubt,) = doubts_of(desk, lambda: counter.add_bonds([one]))
                fits = next(fit for fit, dollars in LETTERS.items() if dollars == denom)
                assert one.serial in doubt and doubt.endswith(f"the letter {fits}")
        for month in ("2005-05", "2011-12", "12/2011"):
            assert counter.add_bonds([bond("L", 100 + len(desk.fake.bonds), 50, month)]).new == 1
        for month in ("2012-01", "01/2012", "2099-12"):
            late = [bond("L", 999, 50, month)]
            assert "L999EE" in doubts_of(desk, lambda: counter.add_bonds(late))[0]


def test_many_doubts(desk: Desk) -> None:
    """Every doubt is reported, the text has five, and what is meant even so is registered, also by a pool."""
    many = [bond("A", number, 50) for number in range(1, 501)]
    with desk.counter() as counter:
        three = [bond("C", 1, 100), bond("A", 1, 50, "2015-03"), bond("B", 1, 50)]
        found = doubts_of(desk, lambda: counter.add_bonds(three))
        assert [doubt[:4] for doubt in found] == ["A1EE", "A1EE", "B1EE"]
        with pytest.raises(client.Implausible, match="; and 495 more"):
            counter.add_bonds(many)
    with client.Pool(desk.place, desk.gate.address, desks=[4]) as pool:
        with pytest.raises(client.Implausible):
            pool.add_bonds(many)
        with pytest.raises(client.Implausible):
            pool.open_day("2121-02-06")
        assert desk.gate.bodies == [] and pool.add_bonds(many, even_so=True).new == 500


@controls(
    a_week_and_a_day=mock.patch.object(plausible, "MOST_DAYS", 8),
    less_than_a_week=mock.patch.object(plausible, "MOST_DAYS", 6),
)
def test_days_from_today(part: Part, desk: Desk) -> None:
    with holds_not(part):
        for days in (-5407, -30, -8, -7, -1, 0, 1, 7, 8, 30, 365):
            with FakeCounter() as fake, desk_at(desk, fake), desk.counter() as counter:
                day, is_near = after(days), abs(days) <= 7
                if not is_near:
                    (doubt,) = doubts_of(desk, lambda: counter.open_day(day))
                    assert day in doubt and f"{abs(days):,} days" in doubt and str(TODAY) in doubt
                opened = counter.open_day(day, even_so=not is_near)
                assert opened.day.isoformat() == fake.day == day


GAPLESS = mock.patch.object(client.Counter, "_question_gap", lambda *_: None)


@controls(last_day_not_looked_for=GAPLESS)
def test_days_from_the_last(desk: Desk, part: Part) -> None:
    """By the batches of the seven days before: a day without one is questioned, unless nothing was ever paid."""
    near, far = [(-1, True), (-3, False), (-7, True), (-60, False), (None, False)], (-8, -60)
    cases = [(*case, True) for case in near] + [(last, True, False) for last in far]
    with holds_not(part):
        for last, is_paid, is_near in cases:
            with FakeCounter() as fake, desk_at(desk, fake):
                desk.has("L1EE")
                with desk.counter() as other:
                    if last is not None:
                        other.open_day(after(last), even_so=True)
                        if is_paid:
                            other.redeem(after(last), 7, ["L1EE"])
                        other.close_day(after(last))
                    before = len(desk.gate.heads)
                    if not is_near:
                        (doubt,) = doubts_of(desk, lambda: other.open_day(after(0)))
                        assert "the last day that was opened" in doubt
                    assert other.open_day(after(0), even_so=not is_near).day == TODAY
                    assert len(desk.gate.heads) - before <= 10, "eight look-ups at most"


@contextlib.contextmanager
def desk_at(desk: Desk, fake: FakeCounter) -> Iterator[None]:
    desk.journal.unlink(missing_ok=True)
    true, desk.fake, desk.gate.to = desk.fake, fake, fake.port
    yield
    desk.fake, desk.gate.to = true, true.port


def test_asked_once(desk: Desk) -> None:
    """A request that was asked about, and has no reply yet, isn't questioned again; nor is one that has its reply."""
    closed = desk.fake.answered("POST", "/day/close", b'{"number":100,"day":"2012-02-06"}')
    assert closed[0] == 200
    with desk.known(patience=0.5) as counter:
        desk.gate.faults = ["lost answer"] * 30
        with pytest.raises(client.NoReply):
            counter.open_day("2012-02-07", key="open", even_so=True)
        desk.gate.faults = []
    with desk.counter() as counter:
        opened = counter.open_day("2012-02-07", key="open")
        assert opened.request and opened.request.sent > 1
        assert counter.open_day("2012-02-07", key="open") == opened


def test_look_ups_before_a_day(desk: Desk) -> None:
    """They end as look-ups do, and nothing is open."""
    with FakeCounter() as fake, desk_at(desk, fake), desk.known(patience=1) as counter:
        desk.gate.is_wide, desk.gate.faults = True, ["lost request"] * 90
        with within(2, 0.99), pytest.raises(client.NoAnswer) as raised:
            counter.open_day(after(0))
        assert counter.open_request is None and not raised.value.may_be_done
        desk.gate.faults = ["no certificate"] * 90
        with within(0.9), pytest.raises(client.CertificateRefused):
            counter.open_day(after(0))
        assert desk.gate.bodies == [] and counter.open_request is None
        desk.gate.faults = []
        assert counter.open_day(after(0)).day == TODAY, "control"


def test_open_command(desk: Desk) -> None:
    """It ends with status 2, names what it questions, and sends nothing; with --even-so it does."""
    with FakeCounter() as fake, desk_at(desk, fake):
        words = ("--journal", desk.journal, "--desk", "3", "--at", desk.gate.address)
        status, out, told = command(*words, "open", "2121-02-06")
        assert (status, out) == (2, "") and told.startswith("2121-02-06 is ")
        assert told.endswith("\nnothing was sent; with --even-so it is\n")
        assert desk.gate.bodies == []
        opened = command(*words, "open", "--even-so", "2121-02-06")
        assert opened[:2] == (0, '{"opened":"2121-02-06"}\n')
        assert command(*words, "close", "2121-02-06")[0] == 0
    with FakeCounter() as fake, desk_at(desk, fake):
        today = datetime.date.today()
        assert command(*words, "open", today)[:2] == (0, f'{{"opened":"{today}"}}\n'), "control"


def rows(letter: str, numbers: range) -> list[str]:
    return [f"{letter}{number}EE,50,2010-11,7," for number in numbers]


def test_register_command(desk: Desk) -> None:
    words = ("--journal", desk.journal, "--desk", "3", "--at", desk.gate.address, "register")
    file = desk.place / "bonds.csv"
    odd = ["A1EE,50,2010-11,7,", "L1601EE,50,2012-01,7,"]
    file.write_text(bonds_csv(*rows("L", range(1001, 1601)), *odd))
    status, out, told = command(*words, file)
    lines = told.splitlines()
    assert (status, out, len(lines)) == (2, "", 3)
    assert lines[0].startswith("row 602: A1EE: ") and lines[1].startswith("row 603: L1601EE: ")
    assert desk.gate.bodies == [], "not even the first 500 rows were sent"
    registered = '{"new":602,"same":0,"before":0}\n'
    assert command(*words, "--even-so", file)[:2] == (0, registered)
    assert command(*words, file)[:2] == (0, '{"new":0,"same":0,"before":602}\n')
    file.write_text(bonds_csv(*rows("A", range(1, 101))))
    status, _, told = command(*words, file)
    assert status == 2 and len(told.splitlines()) == 22 and "\nand 80 more\n" in told
    file.write_text(bonds_csv(*rows("L", range(2001, 2011))))
    assert command(*words, file)[:2] == (0, '{"new":10,"same":0,"before":0}\n'), "control"


def test_resumed_registration(desk: Desk) -> None:
    """What was sent isn't questioned again, what comes after is."""
    file = desk.place / "bonds.csv"
    file.write_text(bonds_csv(*rows("A", range(1, 501)), *rows("L", range(11, 21))))
    with desk.known(patience=0.5) as counter:
        desk.gate.faults = ["lost answer"] * 30
        with pytest.raises(client.NoReply):
            client.register(counter, file, even_so=True)
        desk.gate.faults = []
    with desk.counter() as counter:
        assert client.register(counter, file) == client.Registered(510, 0, 0)
        file.write_text(bonds_csv(*rows("L", range(1001, 1501)), "A1EE,50,2010-11,7,"))
        (doubt,) = doubts_of(desk, lambda: client.register(counter, file))
        assert doubt.startswith("row 502") and "L1001EE" not in desk.fake.bonds
