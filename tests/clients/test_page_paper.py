"""What is printed and saved: tickets and batches as PDF on Letter and A4, read by Debian's pdftotext, with all that a bank, a payee and the tax form need; and interest as CSV. Nothing is guessed."""

import re
import time
from typing import Iterable

import pytest

from tests.browser.bank import BANK, BRANCH, DAY, USER, Bank, bonds_of
from tests.browser.page import VALUES, Page, dollars
from tests.clients.conftest import NewPage

pytestmark = [pytest.mark.browser, pytest.mark.nginx, pytest.mark.needs("pdftotext")]
L, K, M = VALUES["L"], VALUES["K"], VALUES["M"]
LETTER, A4 = (8.5, 11.0), (8.27, 11.69)
#: Of each kind of bond, by docs/FIRST_DAY.md: denomination, issue month, price, interest and value in February 2012.
FACTS = {
    "K": ["$75", "10/2010", "$37.50", "$0.57", "$38.07"],
    "L": ["$50", "11/2010", "$25.00", "$0.16", "$25.16"],
    "M": ["$10,000", "02/2011", "$5,000.00", "$24.00", "$5,024.00"],
}
LACKS = "Without denominations, issue months, prices and interest"


def flat(text: str) -> str:
    return re.sub(r"\s+", " ", text)


def lines_of(text: str) -> list[list[str]]:
    lines = text.splitlines()
    return [line.split()[1:] for line in lines if re.match(r" *\d+ +[A-Z]\d+EE ", line)]


def has_heads(found: list[str], title: str) -> None:
    for place, text in enumerate(found, 1):
        assert title in text and f"Page {place} of {len(found)}" in text


# ---- tickets
def test_hundred_bonds(bank: Bank, page: Page) -> None:
    """A ticket of 100 bonds, then its copy; the total once, heads and pages on each sheet."""
    bank.registers_many(60, 100)
    page.show_sheet(60)
    page.press("#choose-all")
    page.pay()
    page.is_paid(1, 100 * L)
    page.until(lambda: len(page.all("#ticket tbody tr")) >= 100, "all lines are shown")
    total, title = dollars(100 * L), "Ticket 1, February 6, 2012, customer 60"
    first = page.printed()
    has_heads(first, title)
    whole = "\n".join(first)
    assert len(first) == 4 and whole.count(total) == 1 and whole.count("Total") == 1
    assert total in first[-1] and "COPY" not in whole
    numbers = [int(number) for number in re.findall(r"\bS(\d+)EE", whole)]
    assert sorted(numbers) == list(range(1, 101))
    number = page.journal()["paid"]["tickets"][0]["number"]
    heads = (BANK, BRANCH, "Desk 5", f"Teller {USER}", "Server's time", "Paid to customer 60")
    assert all(words in flat(first[0]) for words in (*heads, f"desk 5, number {number}"))
    ends = ("Two thousand five hundred sixteen dollars and 00/100", "Received by: the payee's name")
    assert all(words in first[-1] for words in (*ends, "Signature"))
    page.until(lambda: "COPY" in page.text("#ticket h2"), "it was printed")
    again = page.printed(*A4)
    has_heads(again, title)
    assert len(again) == 4 and all("COPY" in text for text in again) and "Printed" in again[0]
    assert "\n".join(again).count(total) == 1
    page.calls("total_in_each_foot")
    assert "\n".join(page.printed(*A4)).count(total) > 1, "control: a total in each foot"
    page.reload()
    page.go("tickets")
    page.press("#ticket-list tbody tr button")
    page.waits_for("COPY", "#ticket h2")


def test_originals(bank: Bank, page: Page) -> None:
    """A ticket that this desk paid prints as itself once, after a reload too; one of another desk is a copy. The button writes the mark before it prints."""
    page.pays(1, 7, "K7EE")
    assert page.text("#ticket .print") == "Print"
    page.reload()
    page.go("tickets")
    page.press("#ticket-list tbody tr button")
    page.is_paid(1, K)
    (one,) = page.printed()
    assert "COPY" not in one and "Page 1 of 1" in one
    page.until(lambda: page.journal()["paid"]["tickets"][0]["printed"], "it was printed")
    bank.registers_many(60, 3)
    bank.pays(60, "S1EE")
    page.look_up(2)
    page.is_paid(2, L)
    other = page.printed()[0]
    assert "COPY" in other and "Teller" not in other and "Request" not in other
    # The browser's own printing is counted.
    page.calls("prints")
    page.pays(3, 7, "L7EE")
    page.press("#ticket .print")
    page.until(lambda: page.run("return window.prints") == [False], "it prints, and no copy")
    (entry,) = [one for one in page.journal()["paid"]["tickets"] if one["ticket"] == 3]
    assert entry["printed"]


def test_batch(bank: Bank, page: Page) -> None:
    """The batch with the list of its tickets, the total once, and a line to sign."""
    bank.registers_many(60, 45)
    for number in range(1, 46):
        bank.pays(60, f"S{number}EE")
    page.close_day()
    page.waits_for("Tickets of February 6, 2012", "#batch")
    total = dollars(45 * L)
    for paper in (LETTER, A4):
        found = page.printed(*paper)
        has_heads(found, "Batch of February 6, 2012")
        whole = "\n".join(found)
        lines = re.findall(r"^ *(\d+) +customer 60 +1 +\$25\.16$", whole, re.M)
        assert lines == [str(number) for number in range(1, 46)]
        assert len(re.findall(rf"^ *Total +45 +{re.escape(total)}$", whole, re.M)) == 1
        assert "Settled by: name" in found[-1]
        assert "One thousand one hundred thirty-two dollars and 20/100" in found[-1]
        assert "Show the batch" not in whole, "nothing else of the page"
    assert len(page.all("#batch .print")) == 1


# ---- receipts
SERIES = "United States Savings Bonds, Series EE"


def test_receipt(bank: Bank, page: Page) -> None:
    """Twelve bonds on one sheet of either paper: each with what the sheet of its owner had of it, the sums, and the server's time; the machine's own clock says 1970."""
    bank.write_own(today=None)
    page.reload()
    page.run("Date.now = () => 0")
    before = time.time()
    kinds = bonds_of(60)
    serials = [f"{kinds[n % 3]['serial'][0]}{600 + n}EE" for n in range(12)]
    twelve = [{**kinds[n % 3], "serial": serial} for n, serial in enumerate(serials)]
    bank.registers(*twelve)
    page.show_sheet(60)
    page.press("#choose-all")
    page.pay()
    page.is_paid(1, 4 * (K + L + M))
    at = page.journal()["paid"]["tickets"][0]["at"] / 1000
    assert before - 2 <= at <= time.time() + 2
    wanted = sorted([one["serial"], *FACTS[one["serial"][0]]] for one in twelve)
    # Four of each kind: 4 x 5,062.50, 4 x 24.73, and 4 x 5,087.23.
    sums = ["Total", "$20,250.00", "$98.92", "$20,348.92"]
    for paper in (LETTER, A4):
        (text,) = page.printed(*paper)
        assert sorted(lines_of(text)) == wanted
        assert sums in [line.split() for line in text.splitlines()]
        facts = [SERIES, "Ticket 1", "Business day February 6, 2012", "Paid to customer 60"]
        assert all(fact in flat(text) for fact in (*facts, "Desk 5", f"Teller {USER}"))
        zone = r"Server's time [A-Z][a-z]+ \d{1,2}, 20\d\d, \d{1,2}:\d\d [AP]M [A-Z]{3}"
        assert re.search(zone, flat(text)) and "1970" not in text
    assert len(page.all("#ticket .paper tbody tr")) == 12
    assert SERIES in page.text("#ticket") and sums[2] in page.text("#ticket tfoot")
    page.pictured("receipt")


def next_day(bank: Bank, page: Page) -> None:
    page.closes()
    bank.opens("2012-02-07")
    page.joins("2012-02-07")


def test_receipt_after_reload(bank: Bank, page: Page) -> None:
    """The answer is lost and the page loaded again: the journal kept what the receipt needs. Later, on another day, it still has it."""
    bank.gate.faults = ["lost answer", "lost request", "lost request"]
    page.sends(7, "K7EE", "L7EE")
    page.waits_for("no reply yet", "#progress")
    kept_of = {"serial": "K7EE", "denom": 75, "issued": "2010-10", "price": "3750"}
    other = {"serial": "L7EE", "denom": 50, "issued": "2010-11", "price": "2500"}
    assert page.journal()["open"]["bonds"] == [kept_of, other], "what its ticket won't tell"
    page.reload()
    page.is_paid(1, K, L)
    wanted = [["K7EE", *FACTS["K"]], ["L7EE", *FACTS["L"]]]
    text = page.printed()[0]
    assert lines_of(text) == wanted and f"Teller {USER}" in flat(text)
    next_day(bank, page)
    page.pays(2, 7, "M7EE")
    page.reload()
    page.look_up(1)
    page.is_paid(1, K, L)
    text = page.printed()[0]
    assert "COPY" in text and lines_of(text) == wanted and f"Teller {USER}" in flat(text)
    records = page.calls("receipts")
    assert [one["ticket"] for one in records] == [1, 2]
    names = {"ticket", "day", "payee", "desk", "number", "at", "teller", "bonds"}
    assert set(records[0]) == names
    assert len(bank.books().tickets()) == 2


def test_receipt_unknown(bank: Bank, page: Page) -> None:
    """A ticket whose bonds this browser doesn't know: another desk's, another store's, one of an earlier version. The paper says so, and nothing is guessed."""
    bank.pays(9, "K9EE")
    page.look_up(1)
    page.is_paid(1, K)
    text = page.printed()[0]
    assert LACKS in text and "COPY" in text and "$37.50" not in text
    assert "Interest" not in text.replace(LACKS, "")
    page.write_journal("earlier_open")
    page.reload()
    page.is_paid(2, L)
    text = page.printed()[0]
    assert LACKS in text and "COPY" not in text and "$25.00" not in text
    page.pays(3, 7, "M7EE")
    for is_known in (True, False):
        page.reload()
        page.look_up(3)
        page.is_paid(3, M)
        told = page.text("#ticket")
        assert (LACKS not in told) == ("$24.00" in told) == is_known
        # As after a restore: the record's ticket isn't the counter's.
        bank.gate.changed = lambda _, text: text.replace(b'"payee":7', b'"payee":8')


# ---- interest
HEAD = "Day,Ticket,Payee,Serial number,Denomination,Issue month,Price,Interest,Value"
#: By hand, from docs/FIRST_DAY.md: the price is half of the denomination, and the interest is the value less the price.
FIRST = (
    "2012-02-06,1,7,K7EE,75,2010-10,37.50,0.57,38.07",
    "2012-02-06,1,7,L7EE,50,2010-11,25.00,0.16,25.16",
)
OTHER = ("2012-02-06,2,9,K9EE,,,,,38.07",)
THIRD = ("2012-02-06,3,8,K11EE,75,2010-10,37.50,0.57,38.07",)
LATER = ("2012-02-07,4,7,M7EE,10000,2011-02,5000.00,24.00,5024.00",)
WHOLE = "Nothing is missing: every ticket of this span was read."
SAVE = "#interest-of .save"


def text_of(*groups: Iterable[str]) -> str:
    return "\n".join([HEAD, *(row for group in groups for row in group)]) + "\n"


def interest_of_day(page: Page, day: str) -> str:
    page.go("interest")
    page.type("#interest-day", day)
    page.press("#ask-interest-day button")
    page.waits_for("Interest paid on", "#interest-of")
    return page.text("#interest-of")


def interest_of(page: Page, payee: int, first: str, last: str) -> str:
    page.go("interest")
    page.run("document.getElementById('interest-of').replaceChildren()")
    for name, text in (("payee", str(payee)), ("from", first), ("to", last)):
        page.type(f"#interest-{name}", text)
    page.press("#ask-interest-payee button")
    page.waits_for(f"Interest paid to customer {payee} ", "#interest-of")
    return page.text("#interest-of")


def pays_two_days(bank: Bank, page: Page) -> None:
    page.pays(1, 7, "K7EE", "L7EE")
    bank.pays(9, "K9EE")
    page.pays(3, 11, "K11EE", payee=8)
    next_day(bank, page)
    page.pays(4, 7, "M7EE")


def test_interest_files(bank: Bank, page: Page, new_page: NewPage) -> None:
    """Of a ticket, of a day and of a customer; after a reload too; and in another browser. What isn't known is named, and its columns are empty."""
    pays_two_days(bank, page)
    assert page.saved("interest-ticket-4.csv", "#ticket .save") == text_of(LATER)
    told = interest_of_day(page, DAY)
    assert "$0.57" in told and WHOLE not in told and "empty columns" in told
    assert "$1.30 of interest on 2 tickets with 3 bonds: price $100.00, value $101.30." in told
    gap = "Not known here: the interest of 1 ticket over $38.07 (number 2): another browser paid, or this one before it kept records."
    assert gap in told
    assert page.saved("interest-2012-02-06.csv", SAVE) == text_of(FIRST, OTHER, THIRD)
    page.reload()
    assert WHOLE in interest_of(page, 7, "2012-01-01", "2012-12-31")
    name = "interest-customer-7-2012-01-01-to-2012-12-31.csv"
    assert page.saved(name, SAVE) == text_of(FIRST, LATER)
    interest_of(page, 8, DAY, DAY)
    text = page.saved(f"interest-customer-8-{DAY}-to-{DAY}.csv", SAVE)
    assert text == text_of(THIRD), "the customer is the payee, not the owner"
    told = interest_of(page, 9, DAY, "2012-02-07")
    assert gap in told and "No interest is known here." in told
    assert "No ticket was paid then." in interest_of(page, 7, "2012-02-08", "2012-12-31")
    assert page.all(SAVE) == []
    page.type("#interest-to", "2012-02-07")
    page.press("#ask-interest-payee button")
    assert page.text("#interest-to-error").endswith("Enter a day that isn't before the first one")
    bank.gate.changed = lambda _, text: text.replace(b'"payee":7', b'"payee":8')
    page.reload()
    lost = "Not known here: the interest of 1 ticket over $5,024.00"
    assert lost in interest_of_day(page, "2012-02-07"), "a record whose ticket isn't the counter's"
    bank.gate.changed = None
    other = new_page(6)
    told = interest_of(other, 7, DAY, "2012-02-07")
    assert "(numbers 1, 4): another browser paid" in told
    rows = [row.split(",") for row in (*FIRST, *LATER)]
    unknown = [",".join([*row[:4], "", "", "", "", row[8]]) for row in rows]
    text = other.saved(f"interest-customer-7-{DAY}-to-2012-02-07.csv", SAVE)
    assert text == text_of(unknown)


def test_interest_of_a_long_span(bank: Bank, page: Page) -> None:
    """A span with more tickets than are read: what this browser has no record of is named."""
    bank.change_page("interest.js", ("MOST_TICKETS = 1000", "MOST_TICKETS = 3"))
    page.reload()
    pays_two_days(bank, page)
    told = interest_of(page, 7, DAY, "2012-02-07")
    assert "too many tickets to read all of them" in told and WHOLE not in told
    assert "paid to this customer: 2." in told
    text = page.saved(f"interest-customer-7-{DAY}-to-2012-02-07.csv", SAVE)
    assert text == text_of(FIRST, LATER)
    assert WHOLE in interest_of(page, 7, DAY, DAY), "of three tickets each is read"
    interest_of_day(page, DAY)
    page.pictured("interest")


# ---- records that are deleted
def kept(page: Page) -> list[int]:
    return [one["ticket"] for one in page.calls("receipts")]


def test_records_deleted(bank: Bank, page: Page) -> None:
    """Records of earlier days are deleted by a button, after a question, all or none; what is in use stays."""
    page.pays(1, 7, "K7EE")
    page.pays(2, 7, "L7EE")
    next_day(bank, page)
    page.pays(3, 7, "M7EE")
    page.go("interest")
    page.waits_for("3 records are kept.", "#records-kept")
    assert page.value("#records-to") == "2010-12-31", "the end of the year before the last"
    page.press("#delete-records button")
    page.waits_for("No record is of December 31, 2010 or an earlier day.", "#notices")
    page.type("#records-to", "2012-02-07")
    page.press("#delete-records button")
    used = "Enter a day before February 7, 2012: the records of that day are in use"
    assert page.text("#records-to-error").endswith(used) and not page.is_shown("#confirm")
    page.calls("at_first")
    page.type("#records-to", DAY)
    page.press("#delete-records button")
    page.asks()
    asked = "Delete 2 records?\nPayments of this browser on February 6, 2012."
    assert page.question().startswith(asked) and page.text("#confirm-yes") == "Delete 2 records"
    assert page.run("return window.at_first") == ["true", "confirm-no"]
    page.pictured("records_question")
    page.press("#confirm-no")
    assert kept(page) == [1, 2, 3]
    page.calls("deleting")
    page.press("#delete-records button")
    page.press("#confirm-yes")
    page.waits_for("nothing was changed", "#notices")
    assert kept(page) == [1, 2, 3] and "own words" not in page.text()
    page.run("IDBCursor.prototype.delete = window.realDelete")
    page.press("#delete-records button")
    page.press("#confirm-yes")
    page.waits_for("2 records are deleted.", "#notices")
    above, below = page.calls("room")
    assert above >= 4 and abs(above - below) <= 1, "as much room below Close as above it"
    page.run("document.querySelector('#notices .notice').style.minHeight = 0")
    above, below = page.calls("room")
    assert below < above - 1, "control: without the least height of a notice"
    page.waits_for("1 record is kept.", "#records-kept")
    assert kept(page) == [3]
    page.pictured("records")
    page.reload()
    page.go("interest")
    page.waits_for("1 record is kept.", "#records-kept")
    for ticket, cents, is_known in ((1, K, False), (3, M, True)):
        page.look_up(ticket)
        page.is_paid(ticket, cents)
        assert (LACKS not in page.text("#ticket")) == is_known
        assert any(money in page.text("#ticket") for money in ("$0.57", "$24.00")) == is_known
