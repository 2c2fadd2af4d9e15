"""No money moves by a press that was meant for something else, and what is confirmed is what is paid: questions that rest, sums, bonds that were paid meanwhile, the next customer, refusals."""

import pytest
from ee_counter_client.testing.gate import response
from tests.browser.bank import DAY, TOO_YOUNG, UNISSUED, Bank, bond
from tests.browser.browser import Keys
from tests.browser.page import DOUBT, EARLIER, VALUES, Page, dollars
from tests.clients.conftest import NewPage

pytestmark = [pytest.mark.browser, pytest.mark.nginx]
L, K, M = VALUES["L"], VALUES["K"], VALUES["M"]
ROW = "return document.querySelector(`[data-serial='${arguments[0]}']`).closest('tr').innerText"

# ---- double clicks
#: Windows in pixels of the screen, and zooms. A window that is zoomed in has fewer pixels of the page.
WINDOWS = (
    *((1920, 1080), (1440, 900), (1366, 768), (1280, 1024), (1024, 768), (820, 1180)),
    *((768, 1024), (412, 915), (360, 740), (360, 568)),
)
ZOOMS = (1, 1.5, 2)
#: Windows of phones that lie, or have a keyboard on their screen, and the narrowest that a page must work in.
LOW = ((412, 500), (360, 480), (568, 320), (320, 568), (320, 256))
COUNTS = (1, 3, 12, 60)


def windows() -> list[tuple[int, int]]:
    zoomed = {(round(x / zoom), round(y / zoom)) for x, y in WINDOWS for zoom in ZOOMS}
    return sorted({(x, y) for x, y in zoomed if x >= 300 and y >= 250} | set(LOW))


def has_lists(bank: Bank) -> None:
    bank.begin([])
    for count in COUNTS:
        serials = [f"L{1000 * count + place}EE" for place in range(count)]
        bank.registers(*(bond(serial, 50, "2010-11", 1000 + count) for serial in serials))


def choose_all(page: Page, count: int) -> None:
    page.resize(1100, 820)
    page.show_sheet(1000 + count)
    page.press("#choose-all")
    page.waits_for(f"{count} bond", "#chosen")


@pytest.mark.slow
def test_double_clicks(bank: Bank, new_page: NewPage) -> None:
    """A double click on Pay pays in no window, with no list and at no zoom; and the question's button never lies where the pointer was, wherever that is."""
    has_lists(bank)
    page = new_page(day=DAY)
    for count in COUNTS:
        choose_all(page, count)
        for width, height in windows():
            page.resize(width, height)
            near, tried = page.calls("near")
            assert near == [] and tried > 0, (count, width, height)
            page.double_click("#pay-button")
            page.asks()
            page.run("document.getElementById('confirm').close('no')")
        assert bank.gate.bodies == [], count
    page.sleep(2)
    assert bank.gate.bodies == []


def test_presses_of_a_resting_button(bank: Bank, page: Page) -> None:
    """Eight presses, one each 0.4 seconds, confirm nothing: each starts the rest anew. After its rest it pays."""
    page.chooses(7, "L7EE")
    page.ask_to_pay()
    page.calls("presses")
    assert page.is_shown("#confirm") and bank.gate.bodies == []
    page.press("#confirm-yes")
    page.is_paid(1, L)
    assert len(bank.gate.bodies) == 1


def test_an_unguarded_double_click_is_found(bank: Bank, new_page: NewPage) -> None:
    """Control: on a page without the rest and without the choice of a place a double click pays."""
    has_lists(bank)
    bank.change_page(
        "question.js",
        ("const REST = 1500;", "const REST = 0;"),
        ("    if (isApart()) return;", "    return;"),
        ('yes.setAttribute("aria-disabled", "true");', ""),
    )
    page = new_page(day=DAY)
    sizes = ((60, 360, 480), (60, 360, 568), (12, 683, 384), (12, 720, 450), (60, 720, 450))
    for count, width, height in sizes:
        choose_all(page, count)
        page.resize(width, height)
        page.double_click("#pay-button")
        page.sleep(2)
        if bank.gate.bodies:
            return
        page.run("document.getElementById('confirm').close('no')")
    raise AssertionError("no double click paid")


# ---- sums
def test_changed_month(bank: Bank, page: Page) -> None:
    """A sheet of February, then a day in August: nothing of February's sum can be confirmed."""
    page.chooses(7, "L7EE", "K7EE")
    page.shows_sum(2, L + K)
    page.closes()
    page.go("pay")
    assert page.text("#sheet") == "" and not page.is_shown("#pay-bonds"), "it goes with the day"
    page.show_sheet(7, "2012-02")
    page.waits_for("No business day is open, so nothing can be chosen here.", "#sheet")
    assert not any(box.is_enabled() for box in page.all("#sheet input"))
    bank.opens("2012-08-06")
    page.joins("2012-08-06")
    page.go("pay")
    assert page.text("#sheet") == "" and page.value("#month") == "2012-08", "and with another day"
    page.show_sheet(7, "2012-02")
    boxes = page.all("#sheet input")
    assert len(boxes) == 3 and not any(box.is_enabled() for box in boxes)
    of_august = "bonds are paid at their values in August 2012, the month of the open day."
    page.waits_for(f"Nothing can be chosen here: {of_august}", "#sheet")
    assert not page.is_shown("#pay-bonds")
    page.press("#sheet button")
    page.waits_for("Customer 7 · August 2012", "#folded")
    page.choose("L7EE", "K7EE")
    lines = bank.ask("GET", "/inventory/7/2012-08")[1].splitlines()
    values = {line.split()[0]: round(100 * float(line.split()[9])) for line in lines[1:-1]}
    cents = values["L7EE"] + values["K7EE"]
    assert cents != L + K
    assert f"Pay {dollars(cents)} to customer 7?" in page.pay()
    page.is_paid(1, cents)
    assert "total isn't" not in page.text()
    assert bank.books().tickets() == [(7, 2, cents)]


def test_bonds_added(bank: Bank, page: Page) -> None:
    """Bonds added by serial number and owner: with their values, in the sum that is confirmed, and never twice."""
    bank.registers(TOO_YOUNG)
    page.chooses(7, "K7EE")
    page.add(9, "K9EE")
    page.shows_sum(2, 2 * K)
    assert f"K9EE, owner 9: {dollars(K)}" in page.text("#others")
    none = "isn't among the unpaid bonds that customer 9 owns."
    wrong = [("K9EE", "is already chosen."), ("L11EE", none), ("C12EE", none)]
    young = ("N7EE", "can't be paid in February 2012: it is less than 12 months old.")
    for serial, why in [*wrong, young]:
        words, owner = f"Bond {serial} {why}", 7 if serial == "N7EE" else 9
        page.ask_to_add(owner, serial)
        page.waits_for(words, "#notices")
        assert len(page.all("#others li")) == 1
    page.add(7, "L7EE")
    assert page.box("L7EE").is_selected() and len(page.all("#others li")) == 1
    page.choose("L7EE")
    page.waits_for("2 bonds, valued", "#chosen")
    page.add(11, "K11EE")
    page.press("#others li:nth-child(2) button")
    page.waits_for("2 bonds, valued", "#chosen")
    assert f"Pay {dollars(2 * K)} to customer 8?" in page.pay(8)
    line = ["$75", "issued 10/2010", dollars(K)]
    assert page.asked == [["K7EE", *line], ["K9EE", *line]]
    page.is_paid(1, 2 * K)
    assert bank.books().tickets() == [(8, 2, 2 * K)], "two owners' bonds, to their coowner"


def test_sum_differs(bank: Bank, page: Page) -> None:
    """A sheet that isn't the counter's own, as another program might give it: the ticket's total is what was paid, and the page says so."""
    later = bank.ask("GET", "/inventory/7/2012-08")[1].encode()
    with bank.gate.changes("/inventory/7/", lambda text: response(b"200 OK", b"text/plain", later)):
        page.chooses(7, "K7EE")
    assert dollars(K) not in page.pay(), "another sum was confirmed"
    page.is_paid(1, K)
    page.waits_for("Ticket 1 is paid, but its total isn't the sum that was confirmed.", "#notices")
    page.waits_for(f"The total, {dollars(K)}, is what was paid: pay out that.", "#notices")
    page.takes_keyboard(".notice.refused")


def test_selected_all(bank: Bank, page: Page) -> None:
    """All bonds that can be paid are chosen at once, and the page says their total before; a ticket's 100 are the most."""
    bank.registers(TOO_YOUNG, bond("P7EE", 1000, "2006-03", 7), UNISSUED)
    bank.registers_many(60, 120)
    page.show_sheet(7)
    payable = ["K7EE", "L7EE", "M7EE", "P7EE"]
    lines = [line.split() for line in bank.ask("GET", "/inventory/7/2012-02")[1].splitlines()]
    cents = sum(round(100 * float(line[9])) for line in lines if line[0] in payable)
    assert f"4 of 6 can be paid: {dollars(cents)}" in page.text("#facts")
    foot = [row.text for row in page.all("#sheet tfoot tr")]
    assert dollars(cents) in foot[0] and dollars(cents) not in foot[1]
    page.press("#choose-all")
    page.shows_sum(4, cents)
    chosen = [box for box in page.all("#sheet input") if box.is_selected()]
    assert sorted(box.get_attribute("data-serial") for box in chosen) == payable
    page.press("#choose-all")
    page.waits_for("No bond is chosen.", "#chosen")
    page.show_sheet(60)
    page.add(7, "K7EE")
    page.press("#choose-all")
    page.shows_sum(100, 99 * L + K)
    assert page.text("#choose-all") == "Select none"
    page.pay(7)
    page.refuses("The payee is neither the owner nor the coowner")


# ---- paid meanwhile
def test_paid_meanwhile(bank: Bank, page: Page) -> None:
    """A bond that another desk paid: the row says so, can't be chosen, and isn't counted."""
    page.chooses(7, "K7EE")
    page.add(9, "K9EE")
    bank.pays(7, "K7EE")
    page.pay(8)
    page.refuses("Bond K7EE was paid already, on ticket 1.")
    assert "Paid, ticket 1" in page.run(ROW, "K7EE").replace("\n", " ")
    assert not page.box("K7EE").is_selected() and not page.box("K7EE").is_enabled()
    assert f"2 of 2 can be paid: {dollars(L + M)}" in page.text("#facts")
    assert dollars(L + M) in page.text("#sheet tfoot")
    page.shows_sum(1, K)
    page.hears("Bond K7EE was paid already, on ticket 1.")
    page.press("#choose-all")
    page.shows_sum(3, L + M + K)
    assert not page.box("K7EE").is_selected()
    page.press("#choose-all")
    bank.pays(9, "K9EE")
    page.pay(8)
    page.refuses("Bond K9EE was paid already, on ticket 2.")
    page.waits_for("No bond is chosen.", "#chosen")
    assert "Remove K9EE" not in page.text("#others")
    page.choose("L7EE", "M7EE")
    page.pay(7)
    page.is_paid(3, L, M)
    assert bank.books().tickets("payee, total") == [(7, K), (9, K), (7, L + M)]


# ---- the next customer
def awaited(bank: Bank, page: Page) -> None:
    """Pays; the reply is lost, and no later sending gets through while there are faults."""
    bank.gate.faults = ["lost answer", *["lost request"] * 20]
    page.pay()
    page.waits_for("sent again in 4 seconds", "#progress")


def test_next_customer(bank: Bank, page: Page) -> None:
    """What is chosen and typed for the next customer while a reply is awaited stays as it comes."""
    page.chooses(7, "L7EE")
    awaited(bank, page)
    page.chooses(9, "K9EE", "M9EE")
    page.type("#serial", "L-11")
    bank.gate.faults = []
    page.refuses("Ticket 1 is paid.")
    assert [page.value(field) for field in ("#customer", "#payee", "#serial")] == ["9", "9", "L-11"]
    assert page.is_shown("#pay") and page.focused() == "serial"
    page.shows_sum(2, K + M)
    assert f"Pay out {dollars(L)} to customer 7." in page.text("#notices")
    page.press("#notices p > button")
    page.is_paid(1, L)
    page.go("pay")
    page.shows_sum(2, K + M)
    page.pay()
    page.is_paid(2, K, M)
    page.go("pay")
    assert page.text("#sheet") == "" and page.value("#payee") == "", "nothing was typed meanwhile"
    page.chooses(11, "L11EE")
    awaited(bank, page)
    page.choose("K11EE")
    bank.gate.faults = []
    page.refuses("Ticket 3 is paid.")
    page.shows_sum(1, K)
    assert "Paid, ticket 3" in page.run(ROW, "L11EE").replace("\n", " ")


# ---- doubts
def test_doubts_asked(bank: Bank, new_page: NewPage) -> None:
    """Before a payment: Back sends nothing, and a bond that fits isn't asked about."""
    bank.begin([7], day="2013-06-03")
    bank.write_own(today="2013-06-03")
    bank.registers({**UNISSUED, "serial": "R7EE"})
    page = new_page(day="2013-06-03")
    page.chooses(7, "M7EE", "R7EE", "L7EE")
    page.calls("watch_rests")
    page.press("#pay-button")
    page.asks()
    letter = "M7EE: the letter M means $1,000, and the denomination here is $10,000."
    late = "R7EE: issued 05/2012, and paper was sold only until 12/2011."
    assert all(words in page.question() for words in (DOUBT, letter, late))
    assert "L7EE" not in page.question()
    page.has_rested()
    page.press("#confirm-no")
    page.sleep(2)
    assert not page.is_shown("#confirm") and bank.gate.bodies == []
    page.choose("M7EE", "R7EE")
    page.press("#pay-button")
    page.asks()
    assert DOUBT not in page.question()
    page.press("#confirm-no")
    page.choose("M7EE")
    assert "to customer 7?" in page.pay()
    page.refuses("Ticket 1 is paid.")
    assert len(bank.gate.bodies) == 1


def titles(page: Page) -> list[str]:
    """The titles of all questions before a payment, each of which is confirmed but the last."""
    found: list[str] = []
    page.asks()
    while not found or "to customer" not in found[-1]:
        page.until(lambda: page.text("#confirm-title") not in ["", *found[-1:]], "it asks again")
        found.append(page.text("#confirm-title"))
        if "to customer" not in found[-1]:
            page.press("#confirm-yes")
    page.press("#confirm-no")
    return found


def walks_in(page: Page) -> None:
    page.go("walkin")
    page.add_walk_in("X21EE", "10,000", "02/2011")
    page.type("#walkin-owner", "21")
    page.press("#walkin-button")


def test_right_day_and_sum(bank: Bank, new_page: NewPage) -> None:
    """On a day that isn't of today's month, joining, a payment and a walk-in are asked about, and so is a sum above the bank's; else neither is."""
    bank.begin([7])
    bank.write_own(today="2012-03-01", ask_above=5000)
    page = new_page()
    page.join_day(DAY)
    page.asks()
    day = "Is February 6, 2012 the right day?"
    said = "The open day is in February 2012; today is March 1, 2012. Bonds are then paid at their values in February 2012."
    assert page.question().startswith(f"{day}\n{said}")
    page.press("#confirm-no")
    page.until(lambda: not page.is_shown("#confirm"), "Back leads back")
    assert page.journal()["day"] is None
    page.joins()
    page.chooses(7, "L7EE")
    page.press("#pay-button")
    assert titles(page) == [day, f"Pay {dollars(L)} to customer 7?"]
    page.choose("M7EE")
    page.press("#pay-button")
    asked = [day, DOUBT, f"Is {dollars(L + M)} right?", f"Pay {dollars(L + M)} to customer 7?"]
    assert titles(page) == asked
    walks_in(page)
    last = f"Register 1 bond, and pay {dollars(M)} to customer 21?"
    assert titles(page) == [day, f"Is {dollars(M)} right?", last]
    bank.write_own(ask_above=10_000)
    page.reload()
    walks_in(page)
    assert titles(page) == [last], "control: of this month, and not above the sum"


# ---- refusals of the true counter
def refused(page: Page, words: str, code: int) -> None:
    page.refuses(words, f"code {code}. Nothing was changed.")


def test_refused_days(bank: Bank, new_page: NewPage) -> None:
    bank.begin([7], day=None)
    page = new_page()
    page.open_day(DAY)
    page.waits_for("February 6, 2012 is open.")
    page.press("#leave-day button")
    page.open_day("2012-02-07")
    refused(page, "A business day is open already.", 40)
    page.joins("2012-02-03")
    page.close_day()
    refused(page, "A different business day is open.", 43)
    page.joins(DAY)
    page.closes()
    page.open_day(DAY)
    refused(page, "This day, or a later one, is closed already.", 41)
    page.join_day(DAY)
    page.waits_for("February 6, 2012 is closed. This is its batch.")
    page.joins("2012-02-08")
    page.close_day()
    refused(page, "No business day is open.", 42)
    assert page.complaints() == []


def test_refused_payments(bank: Bank, page: Page) -> None:
    """The page lets nobody choose a bond that can't be paid; so it is given false sheets here, and the counter refuses what they let choose."""
    bank.registers(TOO_YOUNG, UNISSUED)
    true = bank.ask("GET", "/inventory/7/2012-02")[1].encode()
    later = bank.ask("GET", "/inventory/7/2013-06")[1].encode()
    for serial, owner, sheet, words, code in (
        ("A1EE", 7, true.replace(b"L7EE", b"A1EE"), "Bond A1EE isn't registered.", 50),
        ("L9EE", 9, true, "The payee is neither the owner nor the coowner of bond L9EE.", 51),
        ("Q7EE", 7, later, "Bond Q7EE isn't issued yet in the month of the open day.", 53),
        ("N7EE", 7, later, "Bond N7EE is less than 12 months old.", 54),
    ):
        false = response(b"200 OK", b"text/plain", sheet)
        with bank.gate.changes("/inventory/7/", lambda text: false):
            page.go("pay")
            page.add(owner, serial)
            page.pay(7)
            refused(page, words, code)
            page.press("#others button")
    page.add(9, "L9EE")
    bank.pays(9, "L9EE")
    page.pay(9)
    refused(page, "Bond L9EE was paid already, on ticket 1.", 52)
    assert page.text("#others") == "", "a bond that was paid is no longer chosen"
    page.ask_to_add(9, "12EE")
    assert page.find("#serial").get_attribute("aria-invalid") == "true"
    assert page.text("#serial-error").endswith("Enter a serial number (such as C12EE)")
    page.ask_to_add("9x", "K9EE")
    assert page.text("#owner-error").endswith("Enter a customer number (1 to 9 digits)")
    page.add(9, "k-0009-ee")
    page.waits_for("1 bond, valued in", "#chosen")
    assert "K9EE" in page.text("#others"), "one spelling"
    page.press("#others button")
    assert not page.is_shown("#pay-bonds"), "without a bond there is nothing to press"
    assert page.complaints() == []


# ---- the keyboard alone
def test_keyboard_alone(bank: Bank, new_page: NewPage) -> None:
    """A whole payment with Tab, Space, Enter and typing; no pointer."""
    bank.begin([7])
    page = new_page(None)
    page.waits_for("Choose a desk")
    page.tab_to("#desk")
    page.keys("5", Keys.ENTER)
    page.waits_for("Desk 5,", "#state")
    page.tab_to("#join-date")
    page.keys("02", "06", "2012", Keys.ENTER)
    page.waits_for("This desk joined February 6, 2012")
    page.tab_to("nav a[href='#pay']", back=True)
    page.keys(Keys.ENTER)
    page.until(lambda: page.is_shown("#pay"), "the view of payments")
    assert page.has_keyboard("#pay h1"), "a view's heading has the keyboard as it is entered"
    page.tab_to("#customer")
    page.keys("7", Keys.ENTER)
    page.waits_for("Unpaid bonds of customer 7", "#sheet")
    page.tab_to("input[aria-label='Pay bond L7EE']")
    page.keys(Keys.SPACE)
    page.shows_sum(1, L)
    page.tab_to("#payee")
    page.keys(Keys.ENTER)
    page.asks()
    page.keys(Keys.ENTER)
    page.until(lambda: not page.is_shown("#confirm"), "Enter on “Back” goes back")
    assert bank.gate.bodies == []
    page.keys(Keys.ENTER)
    page.asks()
    page.tab_to("#confirm-yes")
    page.rested("#confirm-yes")
    page.keys(Keys.ENTER)
    page.is_paid(1, L)
    page.takes_keyboard("#ticket .print")
    assert EARLIER not in page.text()
