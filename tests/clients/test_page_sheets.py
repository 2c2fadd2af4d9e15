"""The bonds in a teller's hand, and their sheet: one field takes serial numbers, typed or scanned; the way to Pay by the keyboard; long sheets, which stop nothing; the filter; what is heard."""

import os
import tomllib
from typing import Callable

import pytest

from tests.browser.bank import DAY, TOO_YOUNG, Bank
from tests.browser.browser import Keys
from tests.browser.page import VALUES, Page, dollars
from tests.clients.conftest import NewPage
from tests.conftest import TOP

pytestmark = [pytest.mark.browser, pytest.mark.nginx]
L, K, M = VALUES["L"], VALUES["K"], VALUES["M"]


def test_in_hand(bank: Bank, page: Page) -> None:
    """Bonds that are chosen, that aren't there, that can't be paid, and what is no serial number."""
    bank.registers(TOO_YOUNG)
    page.show_sheet(7)
    page.press("#in-hand")
    page.scan("l-7-ee")
    chosen = f"L7EE is chosen: $50, issued 11/2010, {dollars(L)}."
    page.waits_for(chosen, "#hand-last")
    page.hears(f"{chosen} {dollars(L)}. 1 bond")
    assert page.box("L7EE").is_selected() and page.value("#in-hand") == ""
    page.scan("L7EE")
    page.waits_for("Bond L7EE is already chosen.", "#hand-last")
    page.shows_sum(1, L)
    page.scan("K9EE", "N7EE", "7EE", "K7EE M7EE", "K9EE")
    page.shows_sum(3, L + K + M)
    assert [line.text for line in page.all("#missed li > span")] == [
        "Bond K9EE isn't among the unpaid bonds that customer 7 owns.",
        "Bond N7EE can't be paid in February 2012: it is less than 12 months old.",
        "“7EE” isn't a serial number (such as C12EE).",
    ]
    assert page.text("#missed h2") == "Not chosen: 3"
    page.press("#missed li button")
    assert page.value("#serial") == "K9EE" and page.focused() == "owner", "under another owner"
    page.keys("9", Keys.ENTER)
    page.waits_for("K9EE, owner 9", "#others")
    assert len(page.all("#missed li")) == 2
    page.press("#others li button")
    keys_lead_to_pay(page)
    bank.pays(7, "M7EE")
    page.pay(7)
    page.refuses("Bond M7EE was paid already, on ticket 1.")
    page.press("#in-hand")
    page.scan("M7EE")
    page.waits_for("Bond M7EE was paid already, on ticket 1.", "#missed")
    page.press("#missed > button")
    assert page.all("#missed li") == [] and page.focused() == "in-hand"


def keys_lead_to_pay(page: Page) -> None:
    """From a box too; a scanner's second Enter leads nowhere; and its letters reach the field from anywhere."""
    page.run("document.querySelector('input[data-serial=L7EE]').focus()")
    page.keys(Keys.ENTER)
    assert page.focused() == "pay-button"
    page.choose("K7EE")
    page.run("document.getElementById('pay-button').focus()")
    page.scan("K7EE" + Keys.ENTER)
    page.waits_for("K7EE is chosen", "#hand-last")
    assert page.focused() == "in-hand" and not page.is_shown("#confirm")
    page.sleep(0.5)
    page.run("document.getElementById('payee').value = ''")
    page.keys(Keys.ENTER)
    assert page.focused() == "payee", "without a payee, Enter leads there first"


def test_headings_seen(bank: Bank, page: Page) -> None:
    """The headings of a long sheet stay in sight, below a notice too; and cover nothing that has the keyboard."""
    bank.registers_many(60, 200)
    page.resize(1280, 800)
    page.show_sheet(60)
    for part in (0.2, 0.5, 0.9):
        page.calls("scroll_to", part)
        assert page.calls("headings_on_top") == 6
    page.choose("S100EE")
    page.pay(99)
    page.refuses("neither the owner nor the coowner")
    page.calls("scroll_to", 0.5)
    assert page.calls("headings_on_top") == 6, "below a notice"
    page.press(".notice .close")
    page.run("document.querySelector('input[data-serial=S120EE]').focus()")
    under = "return document.activeElement.getBoundingClientRect().top < document.querySelector('#sheet thead th').getBoundingClientRect().bottom"
    for _ in range(20):
        page.tab(back=True)
        assert not page.run(under), "what has the keyboard is under the headings"
    page.run("document.querySelector('#sheet thead').style.position = 'static'")
    page.calls("scroll_to", 0.5)
    assert page.calls("headings_on_top") == 0, "control: if they didn't stick"


# ---- long sheets
#: Nothing may stop the page longer than this, in milliseconds, on a machine whose processors have nothing else to do.
LIMIT = 200
IS_WRITTEN = "return document.querySelector('table.sheet')?.ariaBusy === 'false' && document.querySelector('table.sheet').caption.textContent.includes(arguments[0])"


def long_sheet(text: bytes) -> bytes:
    """A sheet of 5,000 bonds like S1EE, with the heading of the counter's own answer."""
    heading = text.decode().split("\r\n\r\n")[1].split("\n")[0]
    line = "{:13} EE         50 11/2010 03/2012 11/2040        25.00           0.16  0.60%          25.16 P5"
    rows = [line.format(f"S{place}EE") for place in range(1, 5001)]
    price, interest, value = (f"{cents * 50}.00" for cents in (2500, 16, 2516))
    total = f"{'Total':51} {price:>12} {interest:>14}        {value:>14}"
    body = "\n".join([heading, *rows, total, ""]).encode()
    head = b"HTTP/1.1 200 OK\r\nContent-Type: text/plain\r\nConnection: close\r\n"
    return head + b"Content-Length: %d\r\n\r\n%s" % (len(body), body)


def limit() -> float:
    """On this machine, as busy as it is now."""
    return LIMIT * max(1, os.getloadavg()[0] / (os.cpu_count() or 1))


def longest_stop(page: Page, act: Callable[[], object]) -> float:
    """The longest stop of the page in milliseconds while it does `act`: the least of some tries, since other work has the machine's processors too."""
    found: list[float] = []
    while len(found) < 3 and (not found or found[-1] >= limit()):
        page.calls("watch")
        act()
        found.append(page.run("return window.longest"))
    return min(found)


def written(page: Page, owner: int) -> None:
    page.until(lambda: page.run(IS_WRITTEN, f"customer {owner} "), "all rows are written")


def shows(page: Page, owner: int) -> None:
    page.run("document.getElementById('sheet').replaceChildren()")
    page.calls("type", "#customer", str(owner), True)
    written(page, owner)


def filters(page: Page, owner: int) -> None:
    for text in ("11/2010", "S9", "S99", ""):
        page.calls("type", "#filter", text, False)
        written(page, owner)


def chooses(page: Page, owner: int) -> None:
    page.calls("type", "#in-hand", "S999EE", True)
    page.sleep(0.3)


def stops(page: Page, owner: int) -> list[float]:
    page.go("pay")
    found = [longest_stop(page, lambda: act(page, owner)) for act in (shows, filters, chooses)]
    assert "S999EE" in page.text("#hand-last")
    return found


def test_sheet_of_a_thousand(bank: Bank, page: Page) -> None:
    """Everything works as on a short sheet, and nothing stops the page for 0.2 seconds."""
    bank.registers_many(60, 1000)
    page.resize(1280, 800)
    found = stops(page, 60)
    print(f"{page.name}: a sheet, a filter, a scan stop it for {[round(one) for one in found]} ms")
    assert max(found) < limit()
    shows(page, 60)
    page.press("#in-hand")
    page.scan("S998EE")
    page.shows_sum(1, L)
    assert page.calls("rows") == [1000, True, 1002]
    given = page.engine.rows()
    assert given is None or 52 <= given <= 1002, "a screen reader is given"
    assert page.box("S998EE").is_selected()
    page.calls("scroll_to", 0.7)
    assert page.calls("headings_on_top") == 6
    page.run("document.querySelector('input[data-serial=S998EE]').focus()")
    keys = {Keys.ARROW_DOWN: 999, Keys.ARROW_UP: 998, Keys.PAGE_UP: 978, Keys.HOME: 1}
    keys |= {Keys.END: 1000}
    for key, place in keys.items():
        page.keys(key)
        assert page.run("return document.activeElement.dataset.serial") == f"S{place}EE"
    page.keys(Keys.SPACE)
    page.shows_sum(2, 2 * L)
    page.keys(Keys.ENTER)
    assert page.focused() == "pay-button"
    bank.pays(60, "S1000EE")
    page.pay(60)
    page.refuses("Bond S1000EE was paid already, on ticket 1.")
    page.shows_sum(1, L)
    page.run("document.querySelector('.legend').scrollIntoView({ block: 'center' })")
    page.waits_for("Paid, ticket 1", "#sheet tbody:last-of-type")
    assert f"999 of 999 can be paid: {dollars(999 * L)}" in page.text("#facts")
    page.pay(60)
    page.is_paid(2, L)


def test_sheet_of_five_thousand(bank: Bank, page: Page, new_page: NewPage) -> None:
    """A sheet of the gate's doesn't stop the page either. Control: on a page that makes all rows at once, and lays all of them out, it does."""
    page.resize(1280, 800)
    with bank.gate.changes("/inventory/", long_sheet):
        assert max(stops(page, 61)) < limit()
        page.close()
        bank.change_page("sheet_table.js", ("GROUPS_AT_ONCE = 2;", "GROUPS_AT_ONCE = 1000;"))
        bank.change_page("style.css", ("content-visibility: auto;", ""))
        slow = new_page(6, day=DAY)
        slow.resize(1280, 800)
        slow.go("pay")
        assert longest_stop(slow, lambda: shows(slow, 61)) > limit()


# ---- the filter
SHOWN = "return [...document.querySelectorAll('#sheet tbody th')].map((one) => one.textContent)"


def test_filtered(bank: Bank, page: Page) -> None:
    """By serial number, denomination and issue month; what is chosen stays chosen, and the button chooses what is shown."""
    bank.registers(TOO_YOUNG)
    page.go("pay")
    assert not page.is_shown("#filter"), "without a sheet there is none"
    page.show_sheet(7)
    filters = tomllib.loads((TOP / "tests/clients/page.toml").read_text())["filters"]
    for typed, wanted in filters.items():
        page.type("#filter", typed)
        assert page.run(SHOWN) == wanted, typed
    page.type("#filter", "L7")
    page.hears("1 of 4 bonds shown.")
    assert page.text("#filter-count") == "1 of 4 bonds shown."
    page.press("#choose-all")
    page.shows_sum(1, L)
    page.type("#filter", "75")
    assert page.text("#filter-count") == "1 of 4 bonds shown. Chosen, but not shown: 1."
    assert page.text("#sum") == dollars(L)
    (foot,) = [row.text for row in page.all("#sheet tfoot tr")]
    assert foot.startswith("Total shown") and dollars(K) in foot
    page.keys(Keys.ENTER)
    assert page.run("return document.activeElement.dataset.serial") == "K7EE"
    page.keys(Keys.SPACE, Keys.ENTER)
    assert page.focused() == "pay-button"
    page.shows_sum(2, L + K)
    page.press("#in-hand")
    page.scan("M7EE")
    page.shows_sum(3, L + K + M)
    assert "Chosen, but not shown: 2." in page.text("#filter-count")
    page.pay()
    assert [serial for serial, *_ in page.asked] == ["L7EE", "K7EE", "M7EE"]
    page.is_paid(1, L, K, M)


def test_sheets_heard(bank: Bank, page: Page) -> None:
    """A screen reader hears of each sheet that came whose it is, how many bonds can be paid, and their sum; and no longer what was said before."""
    bank.registers(TOO_YOUNG)
    page.show_sheet(7)
    whose = "Unpaid bonds of customer 7 in February 2012."
    page.hears(f"{whose} 3 of 4 can be paid: {dollars(L + K + M)}")
    page.choose("L7EE")
    page.hears(f"{dollars(L)}. 1 bond, valued in February 2012")
    page.show_sheet(7, "2012-08")
    page.hears("Unpaid bonds of customer 7 in August 2012. Nothing can be chosen here")
    page.show_sheet(99, "2012-02")
    page.hears("Customer 99 owns no unpaid bonds.")
