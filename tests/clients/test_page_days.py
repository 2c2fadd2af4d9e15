"""Days: what the page does over one, which days it opens after how many questions, what it asks the counter for, and who may."""

import json
import re

import pytest

from tests.browser.bank import DAY, USER, Bank
from tests.browser.page import EARLIER, VALUES, Page, dollars
from tests.clients.conftest import NewPage

pytestmark = [pytest.mark.browser, pytest.mark.nginx]
SUM = sum(VALUES.values())
JOURNAL = {"desk", "next", "open", "day", "closed", "last", "paid", "tally"}
TICKET = {"ticket", "bonds", "total", "number", "at", "teller", "printed"}


def keeps_nothing(page: Page) -> None:
    """No bond number and no customer in any storage of the browser, receipts apart."""
    page.settled()
    others, databases, address = page.calls("storages")
    assert others == [[], [], [], ""]
    assert databases == ["ladwenpik-receipts", "ladwenpik-teller"]
    assert re.search(r"/teller/(#[a-z]+)?$", address)
    journal = page.journal()
    assert set(journal) == JOURNAL and journal["open"] is None
    assert {name for entry in journal["paid"]["tickets"] for name in entry} == TICKET
    assert re.search(r"\d+EE", json.dumps(journal)) is None


def names_all(page: Page) -> None:
    """Each request of the page named its client, and each POST its type and a name of its own."""
    heard = page.run("return window.heard")
    paths = {"/day/open", "/redeem", "/inventory/7/2012-02", "/batch/2012-02-05"}
    assert paths <= {path for _, path, *_ in heard}
    assert {client for _, _, client, *_ in heard} == {"teller-page"}
    posts = [row for row in heard if row[0] == "POST"]
    assert {kind for _, _, _, kind, _ in posts} == {"application/json"} and len(posts) == 3
    names = {name for *_, name in posts}
    assert len(names) == 3 and None not in names


def test_a_day(bank: Bank, new_page: NewPage) -> None:
    bank.begin([7], day=None)
    page = new_page(3)
    page.calls("heard")
    page.open_day(DAY)
    page.waits_for("February 6, 2012 is open.")
    page.show_sheet(7)
    assert page.text().count("under 5 years: less three months' interest") == 1, "one legend"
    assert page.text().count("P5") == 4, "notes are badges"
    assert page.value("#month") == "2012-02"
    page.choose("L7EE", "M7EE")
    page.shows_sum(2, VALUES["L"] + VALUES["M"])
    page.pay()
    page.is_paid(1, VALUES["L"], VALUES["M"])
    assert EARLIER not in page.text()
    page.pays(2, 7, "K7EE", payee=8)
    assert "customer 8" in page.text("#ticket"), "a payment to the coowner"
    names_all(page)
    keeps_nothing(page)
    page.look_up(1)
    page.is_paid(1, VALUES["L"], VALUES["M"])
    page.look_up(77)
    page.waits_for("There is no ticket 77.")
    page.go("batches")
    page.type("#batch-day", DAY)
    page.press("#ask-batch button")
    page.waits_for("February 6, 2012 has no batch")
    page.reload()
    page.go("day")
    page.press("#desk-tickets tbody tr button")
    page.is_paid(2, VALUES["K"])
    page.closes()
    assert dollars(SUM) in page.text("#batch") and "3" in page.text("#batch dl")
    assert page.complaints() == []
    wanted = [(7, 2, VALUES["L"] + VALUES["M"]), (8, 1, VALUES["K"])]
    assert bank.books().tickets() == wanted


# ---- which days
ONCE, TWICE = "Open the day", "Continue"


def asks(page: Page, day: str, words: str, times: str) -> None:
    assert words in page.ask_to_open(day), page.question()
    assert page.text("#confirm-yes") == times
    page.press("#confirm-no")


def test_usual_day(bank: Bank, new_page: NewPage) -> None:
    """A day soon after the last closed one, and near today: its weekday, its distance, and one question."""
    bank.begin([7], day=None)
    bank.opens("2012-02-03")
    bank.closes("2012-02-03")
    page = new_page()
    page.calls("server_date", "Mon, 06 Feb 2012 14:00:00 GMT")
    distance = "3 days after the last closed day, Friday, February 3, 2012."
    asks(page, DAY, f"Open February 6, 2012?\nMonday, February 6, 2012: {distance}", ONCE)
    assert bank.gate.bodies == [] and page.journal()["open"] is None, "Back sends nothing"
    page.open_day(DAY)
    page.waits_for("February 6, 2012 is open.")
    page.closes()
    assert page.journal()["closed"] == DAY
    asks(page, "2012-02-07", "Tuesday, February 7, 2012: 1 day after the last closed day", ONCE)
    asks(page, "2012-02-13", "Monday, February 13, 2012: 7 days after", ONCE)
    asks(page, "2012-02-14", "Tuesday, February 14, 2012: 8 days after", TWICE)
    asks(page, DAY, "not later than the last closed day", ONCE)
    bank.opens("2012-02-10")
    bank.closes("2012-02-10")
    last = "the last closed day, Friday, February 10, 2012."
    asks(page, "2012-02-13", f"Monday, February 13, 2012: 3 days after {last}", ONCE)
    assert page.journal()["closed"] == "2012-02-10", "what another desk closed is remembered"
    page.write_journal("({ closed, ...earlier }) => earlier")
    page.reload()
    asks(page, "2012-02-13", f"3 days after {last}", ONCE)
    sent = len(bank.gate.bodies)
    with bank.gate.changes("/batch/", lambda text: b""):
        page.type("#open-date", "2012-02-14")
        page.press("#open-day button")
        silent = "The counter didn't answer: it is starting, or has too much to do."
        page.waits_for(silent, "#notices")
    assert len(bank.gate.bodies) == sent, "no day is opened blindly"
    assert not page.is_shown("#confirm")


CLOCK = "The server's clock says"


def test_far_from_today(bank: Bank, new_page: NewPage) -> None:
    """A day soon after the last closed one, and more than seven days from today by the server's clock, which isn't the machine's; and a clock from before the page's release."""
    bank.begin([7], day=None)
    bank.opens("2012-02-03")
    bank.closes("2012-02-03")
    page = new_page()
    for today, words, times in (
        ("Tue, 14 Feb 2012", "8 days before today, Tuesday, February 14, 2012.", TWICE),
        ("Sun, 29 Jan 2012", "8 days after today, Sunday, January 29, 2012.", TWICE),
        ("Sun, 06 Feb 2011", "365 days after today, Sunday, February 6, 2011.", TWICE),
        ("Mon, 13 Feb 2012", "Friday, February 3, 2012.", ONCE),
        ("Wed, 01 Feb 2012", "Friday, February 3, 2012.", ONCE),
        ("Tue, 31 Jan 2012", f"{CLOCK} January 31, 2012, which can't be right", TWICE),
    ):
        page.calls("server_date", f"{today} 14:00:00 GMT")
        asked = page.ask_to_open(DAY)
        assert words in asked and page.text("#confirm-yes") == times
        assert ("today" in asked or CLOCK in asked) == (times == TWICE)
        if times == TWICE:
            page.press("#confirm-yes")
            page.until(lambda: "Is the year 2012 right?" in page.question(), "it asks again")
            assert words in page.question()
        page.press("#confirm-no")
    assert bank.gate.bodies == []


def test_wrong_year(bank: Bank, new_page: NewPage) -> None:
    """A year mistyped: the page asks again, and Back leaves the books as they are. Confirmed twice, it does open."""
    bank.begin([7], day=None)
    bank.opens("2012-02-03")
    bank.closes("2012-02-03")
    page = new_page()
    far = "Thursday, February 6, 2121: no closed day was found in the 7 days before it."
    assert far in page.ask_to_open("2121-02-06")
    page.rested("#confirm-yes")
    page.calls("watch_rests")
    page.press("#confirm-yes")
    page.until(lambda: "Is the year 2121 right?" in page.question(), "it asks again")
    said = ("values in February 2121", "no earlier day can ever be opened", "mistyped, choose Back")
    assert all(words in page.question() for words in said)
    page.has_rested()
    page.press("#confirm-no")
    page.sleep(1.5)
    assert bank.gate.bodies == [] and page.journal()["open"] is None
    page.open_day(DAY)
    page.waits_for("February 6, 2012 is open.")
    page.closes()
    distance = "39,812 days after the last closed day, Monday, February 6, 2012."
    asks(page, "2121-02-06", distance, TWICE)
    page.open_day("2121-02-06")
    page.waits_for("February 6, 2121 is open.")
    query = "SELECT act FROM answers WHERE desk = 5 AND act LIKE '%\"open\"%' ORDER BY number"
    days = [json.loads(act)["day"] for (act,) in bank.books().rows(query)]
    assert days == [DAY, "2121-02-06"]


# ---- who may
#: The buttons in the order of the page, each with whether it is a main one.
DAY_BUTTONS = "return [...document.querySelectorAll('#day button')].filter((one) => one.checkVisibility()).map((one) => [one.textContent, !one.classList.contains('plain')])"


def test_supervisors_acts(bank: Bank, new_page: NewPage) -> None:
    """What a user may not do isn't the main button, and can't be pressed; the page learns the groups from nginx, and nginx still decides."""
    bank.begin([7], day=None)
    page = new_page()
    page.go("day")
    opens = [["Open the day", True], ["Join the day", False]]
    page.until(lambda: page.run(DAY_BUTTONS) == opens, "to open the day is a supervisor's main act")
    assert not page.is_shown("#open-barred")
    bank.nginx.regroup(USER, "teller")
    page.reload()
    joins = [["Join the day", True], ["Open the day", False]]
    page.until(lambda: page.run(DAY_BUTTONS) == joins, "to join it is a teller's")
    assert "This user may not open a day: ask a supervisor." in page.text("#open-day")
    assert not page.find("#open-day button").is_enabled()
    page.run("document.querySelector('#open-day button').disabled = false")  # control
    page.open_day(DAY)
    page.refuses("This user may not open a day. Nothing was done.")
    assert bank.gate.posts() == [], "nginx refuses it all the same"
    bank.opens(DAY)
    page.joins()
    assert "This user may not close the day: ask a supervisor." in page.text("#close-day")
    plain = [["Close the day", False], ["Choose another day", False]]
    assert page.run(DAY_BUTTONS)[-2:] == plain
    assert not page.find("#close-day button").is_enabled()
    page.show_sheet(7)
    page.choose("L7EE")
    assert page.find("#pay-button").is_enabled() and not page.is_shown("#pay-barred")
    bank.nginx.regroup(USER, "supervisor")
    page.reload()
    page.show_sheet(7)
    page.choose("L7EE")
    page.waits_for("This user may not pay bonds: ask a teller.", "#pay-barred")
    assert not page.find("#pay-button").is_enabled()
    page.go("day")
    assert page.find("#close-day button").is_enabled()


# ---- which sums
def test_sums_of_day(bank: Bank, page: Page) -> None:
    """The day's sums of this desk and of all desks; a ticket that another desk pays while the question is open."""
    bank.registers_many(60, 12)
    for number in range(1, 6):
        bank.pays(60, f"S{number}EE")
    for ticket, serial in ((6, "L7EE"), (7, "K7EE")):
        page.pays(ticket, 7, serial)
    own, all_of_them = VALUES["L"] + VALUES["K"], 6 * VALUES["L"] + VALUES["K"]
    assert f"This desk today: 2 tickets, 2 bonds, {dollars(own)}." in page.text("#notices")
    page.reload()
    page.go("day")
    page.waits_for(f"7 tickets, 7 bonds, {dollars(all_of_them)}", "#all-sum")
    assert page.text("#desk-sum") == f"2 tickets, 2 bonds, {dollars(own)}"
    rows = [row.text.split()[:2] for row in page.all("#desk-tickets tbody tr")]
    assert rows == [["Ticket", "7"], ["Ticket", "6"]], "the last one first"
    asked = len(bank.gate.heads)
    page.press("#count-day")
    page.sleep(1)
    assert len(bank.gate.heads) - asked <= 4, "a count goes on from where it was"
    assert f"with {dollars(all_of_them)}?" in page.ask_to_close()
    bank.pays(60, "S12EE")
    page.press("#confirm-yes")
    more = f"The batch has {dollars(all_of_them + VALUES['L'])}: another desk paid meanwhile."
    page.waits_for(more, "#notices")


def test_latest_first(bank: Bank, page: Page) -> None:
    """Tickets and batches begin with the latest, found by look-ups alone."""
    bank.registers_many(60, 23)
    for number in range(1, 24):
        bank.pays(60, f"S{number}EE")
    page.go("tickets")
    rows = "#ticket-list tbody tr"
    page.until(lambda: len(page.all(rows)) == 10, "ten tickets are listed")
    first = page.text(rows)
    assert "Ticket 23" in first and "customer 60" in first and dollars(VALUES["L"]) in first
    page.press("#ticket-list > button")
    page.until(lambda: len(page.all(rows)) == 20, "twenty tickets are listed")
    page.press(f"{rows}:nth-child(2) button")
    page.is_paid(22, VALUES["L"])
    bank.closes(DAY)
    for day, serial in (("2012-02-07", "L7EE"), ("2012-02-08", "K7EE")):
        bank.opens(day)
        bank.pays(7, serial, day=day)
        if serial == "L7EE":
            bank.closes(day)
    page.go("batches")
    batches = "#batch-list tbody tr"
    page.until(lambda: len(page.all(batches)) == 2, "two batches, and not that of the open day")
    texts = [row.text.replace("\n", " ") for row in page.all(batches)]
    assert texts[0].startswith("February 7, 2012") and texts[1].startswith("February 6, 2012")
    assert texts[1].endswith(f"23 23 {dollars(23 * VALUES['L'])}")
    page.press(f"{batches}:nth-child(2) button")
    page.waits_for("Tickets of February 6, 2012", "#batch")
    assert len(page.all("#batch .paper tbody tr")) == 23


def test_empty_states(bank: Bank, new_page: NewPage) -> None:
    """No day, no bonds, no tickets: the page says so, and nothing stands there to press."""
    bank.begin([7], day=None)
    page = new_page()
    assert "No business day is open" in page.text("#day")
    page.show_sheet(7, "2012-02")
    shown = [page.is_shown(part) for part in ("#no-day", "#pay-bonds", "#add-bond")]
    assert shown == [True, False, False]
    page.press("#no-day a")
    page.until(lambda: page.is_shown("#open-day"), "the way to open a day")
    page.go("tickets")
    page.waits_for("No ticket has been paid yet.", "#ticket-list")
    page.go("batches")
    page.waits_for("No closed day with tickets was found.", "#batch-list")
    page.open_day(DAY)
    page.waits_for("February 6, 2012 is open.")
    page.show_sheet(99)
    assert "Customer 99 owns no unpaid bonds." in page.text("#sheet")
    assert not page.is_shown("#pay-bonds")
    page.add(7, "K7EE")
    assert page.is_shown("#pay-bonds"), "a bond of another owner can be paid"
    page.show_sheet(7)
    assert page.is_shown("#pay-bonds") and not page.is_shown("#no-day")
