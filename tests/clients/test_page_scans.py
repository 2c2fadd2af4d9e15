"""Scans: none is lost and none presses a button, wherever the keyboard is. Each failed scan is named and heard. A bond takes few keys besides the scanner's own."""

import threading
import time

import pytest

from tests.browser.bank import DAY, Bank, bond
from tests.browser.browser import Keys
from tests.browser.page import VALUES, Page, dollars
from tests.clients.conftest import NewPage
from tests.clients.test_page_faults import held

pytestmark = [pytest.mark.browser, pytest.mark.nginx]
L, K, M = VALUES["L"], VALUES["K"], VALUES["M"]
FOCUS = "document.querySelector(arguments[0]).focus()"


def scan_in_question(page: Page, button: str, serial: str) -> None:
    page.rested("#confirm-yes")
    page.run(FOCUS, button)
    page.scan(serial)


def test_scans_in_questions(bank: Bank, page: Page) -> None:
    """A scan answers no question, with either button under the keyboard: it is named and heard, and is chosen once the teller goes back."""
    page.calls("watch_beeps")
    page.show_sheet(7)
    page.press("#in-hand")
    page.scan("L7EE")
    page.ask_to_pay()
    for count, (button, serial) in enumerate(
        [("#confirm-yes", "K7EE"), ("#confirm-no", "M7EE"), ("#confirm-yes", "K 9-EE")], 1
    ):
        scan_in_question(page, button, serial + Keys.ENTER)
        names = ", ".join(["K7EE", "M7EE", "K9EE"][:count])
        said = f"Scanned, and not in this question: {names}."
        assert page.is_shown("#confirm") and page.text("#confirm-scanned") == said
        assert page.find("#confirm-yes").get_attribute("aria-disabled"), "it rests anew"
        assert page.beeps() == count
    page.keys(Keys.ESCAPE)
    assert page.is_shown("#confirm"), "its keys are dead for a moment"
    page.sleep(0.6)
    page.run(FOCUS, "#confirm-no")
    page.keys(Keys.ENTER)
    page.shows_sum(3, L + K + M)
    assert page.text("#missed h2") == "Not chosen: 1" and bank.gate.bodies == []
    assert "Bond K9EE isn't among" in page.text("#notices"), "and told where it is seen"
    question = page.ask_to_pay()
    assert question.startswith(f"Pay {dollars(L + K + M)} to customer 7?\n3 of 4 scans. Not in")
    assert "Bond K9EE isn't among the unpaid bonds" in question
    assert f"3 bonds on Monday, February 6, 2012, {dollars(L + K + M)} in all:" in question
    page.press("#confirm-no")
    page.ask_to_close()
    scan_in_question(page, "#confirm-yes", "K9EE")
    assert page.is_shown("#confirm") and bank.gate.bodies == []
    page.press("#confirm-no")
    page.waits_for("Scanned: K9EE. It waits for a customer's sheet.", "#scanned")
    page.show_sheet(9)
    page.shows_sum(1, K)


def test_a_scan_that_answers_is_found(bank: Bank, new_page: NewPage) -> None:
    """Control: on a page whose keys aren't dead after a letter, the Enter of a scan pays."""
    bank.begin([7])
    bank.change_page("scans.js", ("const NEXT = 500;", "const NEXT = 0;"))
    page = new_page(day=DAY)
    page.chooses(7, "L7EE")
    page.ask_to_pay()
    scan_in_question(page, "#confirm-yes", "K7EE")
    page.is_paid(1, L)


def test_scans_wait(bank: Bank, page: Page) -> None:
    """For a sheet: on each view, in a field for something else, and while the counter is asked, half of a scan too."""
    page.calls("count_prints")
    page.calls("watch_beeps")
    page.go("day")
    page.scan("L7EE")
    page.go("pay")
    page.scan("K7EE")
    page.waits_for("Scanned: L7EE, K7EE. They wait for a customer's sheet.", "#scanned")
    page.press("#customer")
    page.keys("7")
    page.scan("M7EE")
    assert page.value("#customer") == "7" and page.beeps() == 0
    event = threading.Event()
    with bank.gate.changes("/inventory/7/", lambda text: held(event, text)):
        page.sleep(0.4)
        page.keys(Keys.ENTER)
        page.scan("K9EE")
        page.keys("L", "9")
        event.set()
        page.takes_keyboard("#in-hand")
        page.keys("EE", Keys.ENTER)
    page.shows_sum(3, L + K + M)
    missed = [line.text.split()[1] for line in page.all("#missed li")]
    assert missed == ["K9EE", "L9EE"] and page.beeps() > 0 and not page.is_shown("#scanned")
    assert page.value("#customer") == "7" and page.value("#in-hand") == ""
    page.pay()
    page.is_paid(1, L, K, M)
    page.takes_keyboard("#ticket .print")
    page.sleep(0.6)
    beeps = page.beeps()
    page.scan("K11EE", "7EE")
    assert page.run("return window.prints") == 0 and page.is_shown("#ticket .print")
    page.waits_for("“7EE” isn't a serial number", "#notices")
    assert page.beeps() == beeps + 1
    page.show_sheet(11)
    page.shows_sum(1, K)
    page.waits_for("“7EE” isn't a serial number", "#missed")
    page.go("tickets")
    page.scan("L11EE")
    page.press("#forget-scans")
    assert not page.is_shown("#scanned")


def jumps(page: Page) -> int:
    """Scans bonds at the end of a long sheet, with the keyboard in the field and elsewhere: how often the page goes back to the field."""
    page.resize(1366, 768)
    page.show_sheet(60)
    page.scan("S50EE")
    page.waits_for("1 bond", "#chosen")
    page.calls("watch_jumps")
    for count, number in enumerate((60, 42, 58), 2):
        page.scan_in_steps(f"S{number}EE")
        page.waits_for(f"{count} bonds", "#chosen")
        assert page.calls("in_window", f"input[data-serial='S{number}EE']")
        if count == 3:
            page.run("document.activeElement.blur()")
    return int(page.run("return window.jumps"))


def test_a_long_sheet_scanned(bank: Bank, page: Page) -> None:
    """The page goes from bond to bond. A person who types is shown the field."""
    bank.registers_many(60, 60)
    assert jumps(page) == 0
    page.keys("S", "5")
    page.until(lambda: page.calls("in_window", "#in-hand"), "the field is shown")
    page.keys("9", Keys.ENTER)
    page.waits_for("5 bonds", "#chosen")


def test_a_jump_is_found(bank: Bank, new_page: NewPage) -> None:
    """Control: if the browser puts the letters in, the page goes to the field and back at each scan."""
    bank.begin([7])
    bank.registers_many(60, 60)
    bank.change_page("scans.js", ("if (is_seen || ", "if (true || "))
    assert jumps(new_page(day=DAY)) >= 3


def test_walk_ins_scanned(bank: Bank, page: Page) -> None:
    """A pile that is scanned first: each bond's serial number stands in its field as the one before is added."""
    page.go("walkin")
    page.run(FOCUS, "#walkin h1")
    page.scan("L21EE", "C22EE")
    for serial, denom in (("L21EE", "50"), ("C22EE", "100")):
        page.until(lambda: page.value("#walkin-serial") == serial, f"{serial} is the next")
        page.takes_keyboard("#walkin-denom")
        page.keys(denom, Keys.ENTER, "11/2010", Keys.ENTER)
    page.until(lambda: len(page.all("#walkin-bonds li")) == 2, "both are in the list")
    assert not page.is_shown("#scanned")


#: What has the keyboard while a fifth each of the bonds is scanned. Nothing has it for "".
PLACES = ("#in-hand", "#payee", "#sheet input", "#all-columns", "")


@pytest.mark.parametrize("count", [1, 60])
def test_keys_and_seconds(bank: Bank, page: Page, count: int) -> None:
    """From one customer's number to the next one's: six keys, next to the number's digits and the scanner's own, which come at full speed into anything. The seconds are printed."""
    page.calls("count_prints")
    of = {owner: [f"L{owner}{place:02}EE" for place in range(count)] for owner in ("61", "62")}
    for owner, serials in of.items():
        bank.registers(*(bond(serial, 50, "2010-11", int(owner)) for serial in serials))
    page.go("pay")
    page.run(FOCUS, "#customer")
    found = []
    for ticket, (owner, serials) in enumerate(of.items(), 1):
        keys, begun = 0, time.monotonic()

        def press(key: str) -> None:
            nonlocal keys
            keys += 1
            page.tab() if key == Keys.TAB else page.keys(key)

        page.keys(owner)
        press(Keys.ENTER)
        page.takes_keyboard("#in-hand")
        for at, place in enumerate(PLACES if count > 1 else PLACES[:1]):
            page.run(FOCUS if place else "document.activeElement.blur()", place)
            page.keys("".join(one + Keys.ENTER for one in serials[at * 12 : at * 12 + 12]))
        page.shows_sum(count, count * L)
        assert page.all("#missed li") == [] and page.value("#payee") == owner
        page.sleep(0.4)
        page.run(FOCUS, "#in-hand")
        press(Keys.ENTER)
        page.asks()
        press(Keys.TAB)
        page.rested("#confirm-yes")
        press(Keys.ENTER)
        page.is_paid(ticket, count * L)
        page.takes_keyboard("#ticket .print")
        page.sleep(0.6)
        press(Keys.ENTER)
        page.takes_keyboard("#next-customer")
        press(Keys.ENTER)
        page.takes_keyboard("#customer")
        found.append((keys, time.monotonic() - begun))
        assert page.value("#customer") == "" and page.run("return window.prints") == ticket
    (keys, _), (again, seconds) = found
    print(f"{page.name}, {count} scanned: {keys} keys, {seconds:.1f} seconds")
    assert keys == again == 6
