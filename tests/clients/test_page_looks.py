"""How the page is seen and worked: rules of accessibility in each of its states, narrow windows, what is in sight and what is covered, words that are whole, and what a screen reader is given."""

from typing import Sequence

import pytest

from tests.browser.bank import DAY, OLDER, TOO_YOUNG, USER, Bank, bond
from tests.browser.browser import Keys
from tests.browser.page import DOUBT, VALUES, Page, dollars
from tests.clients.conftest import NewPage

pytestmark = [pytest.mark.browser, pytest.mark.nginx]
L, K, M = VALUES["L"], VALUES["K"], VALUES["M"]
VIEWS = ("day", "pay", "walkin", "tickets", "batches", "interest")
#: While a question is open, only it is reached.
REACHED = "const open = document.querySelector('dialog[open]'); return [...document.querySelectorAll(arguments[0])].filter((one) => open === null || open.contains(one));"
NAMED = "button, a[href], input, dialog[open], [role=region], table, nav, progress"


def unnamed(page: Page) -> list[str]:
    elements = [element for element in page.run(REACHED, NAMED) if element.is_displayed()]
    return [one.get_attribute("outerHTML")[:120] for one in elements if one.accessible_name == ""]


# ---- the rules
#: By name: 720 by 450 is 1440 by 900 at 200 %.
WINDOWS = {
    **{"1440": (1440, 900), "1024": (1024, 768), "768": (768, 1024), "360": (360, 740)},
    "zoomed": (720, 450),
}


def right(page: Page, state: str) -> None:
    """The rules hold in each window, and all that a screen reader is given has a name."""
    for name, size in WINDOWS.items():
        page.resize(*size)
        page.pictured(f"state_{state}_{name}")
        assert page.calls("broken_rules") == {}, (state, name)
    page.resize(1100, 820)
    assert unnamed(page) == [] and page.calls("least_contrast") >= 4.5, state


def test_rules(bank: Bank, new_page: NewPage) -> None:
    bank.begin([7, 9])
    page = new_page(None)
    page.waits_for("Choose a desk")
    right(page, "desk")
    page.choose_desk(5)
    for view in ("day", "pay"):
        page.go(view)
        right(page, f"no_day_{view}")
    page.joins()
    page.chooses(7, "L7EE")
    page.add(9, "K9EE")
    page.go("walkin")
    page.add_walk_in("L21EE", "50")
    for view in VIEWS:
        page.go(view)
        right(page, f"view_{view}")
    page.scan("L9EE")
    page.waits_for("Scanned: L9EE.", "#scanned")
    right(page, "scan_waits")
    page.show_sheet(7)
    page.waits_for("Not chosen: 1", "#missed")
    right(page, "not_chosen")
    page.press("#all-columns")
    right(page, "all_columns")
    roles = "return ['table', 'rowgroup', 'row', 'columnheader', 'rowheader', 'cell'].map((role) => document.querySelectorAll(`#sheet [role=${role}]`).length)"
    for width in (1100, 320):
        page.resize(width, 820)
        assert page.run(roles) == [1, 3, 5, 11, 4, 40], "a table with headings for a screen reader"
    page.press("#change")
    for width, least in ((320, 2), (1100, 3)):
        page.resize(width, 820)
        page.tab_to("#month")
        page.tab_to("#customer", back=True)
        (style, thick), (other, _) = page.calls("outlines")
        assert (style, other) == ("solid", "none") and thick >= least, "what has the keyboard"
    page.show_sheet(7, "2012-08")
    page.waits_for("Nothing can be chosen here", "#sheet")
    right(page, "other_month")
    page.press("#sheet button")
    page.waits_for("Customer 7 · February 2012", "#folded")
    page.ask_to_add("x", "y")
    page.until(lambda: len(page.all(".error")) == 2, "both fields are marked")
    right(page, "marked")
    bank.nginx.regroup(USER, "office")
    page.reload()
    page.waits_for("This user may not pay bonds", "#pay-barred")
    right(page, "barred_pay")
    page.go("day")
    right(page, "barred_day")


def test_rules_of_payments(bank: Bank, page: Page) -> None:
    page.chooses(7, "L7EE", "M7EE")
    page.press("#pay-button")
    page.asks()
    assert page.text("#confirm-title") == DOUBT
    right(page, "doubt")
    page.press("#confirm-no")
    page.choose("M7EE")
    page.press("#in-hand")
    page.scan("K9EE")
    page.ask_to_pay()
    page.scan("K7EE")
    page.waits_for("Scanned, and not in this question: K7EE.", "#confirm-scanned")
    right(page, "question")
    dialog = page.find("#confirm")
    assert dialog.accessible_name == page.text("#confirm-title")
    assert dialog.get_attribute("aria-describedby") == "confirm-text confirm-scanned"
    page.press("#confirm-no")
    page.choose("K7EE")
    bank.gate.faults = ["lost request"] * 4
    page.calls("hold", 2000)
    page.pay(99)
    page.waits_for("sent again in 2 seconds", "#progress")
    page.hears("no reply yet. Nothing may be paid out yet.")
    right(page, "retry")
    page.press("#send-now")
    not_payee = "The payee is neither the owner nor the coowner of bond L7EE."
    page.waits_for(not_payee, "#notices")
    page.hears(not_payee)
    right(page, "refusal")
    page.pay(7)
    page.is_paid(1, L)
    right(page, "ticket")
    page.press("#next-customer")
    page.takes_keyboard("#customer")
    right(page, "next_customer")
    page.go("walkin")
    page.add_walk_in("L21EE", "50")
    page.type("#walkin-owner", "21")
    page.press("#walkin-button")
    page.asked_without_doubt()
    right(page, "walk_in_question")
    page.press("#confirm-no")
    page.ask_to_close()
    right(page, "close")
    page.press("#confirm-yes")
    page.waits_for("Tickets of February 6, 2012", "#batch")
    page.settled()
    right(page, "batch")
    page.go("interest")
    page.type("#interest-day", DAY)
    page.press("#ask-interest-day button")
    page.waits_for("$", "#interest-of")
    right(page, "interest")
    before = page.new_tab()
    page.open(bank.url)
    page.waits_for("another tab", "#waiting")
    right(page, "second_tab")
    page.close_tab(before)


def test_each_broken_rule_is_found(new_page: NewPage) -> None:
    """Control: the page is changed so that it breaks one rule after another."""
    page = new_page()
    for name in page.calls("rules"):
        page.reload()
        page.until(lambda: page.is_shown("nav"), "the page has started")
        page.calls("break_rule", name)
        assert name in page.calls("broken_rules")


# ---- windows
TAP = "const cell = document.querySelector(`input[data-serial='${arguments[0]}']`).closest('tr').querySelector('.of-issued'); cell.scrollIntoView({ block: 'center' }); return cell;"


def test_narrow_window(bank: Bank, page: Page) -> None:
    """320 pixels, and a window zoomed to 200 %: nothing is cut or goes over the edge, what can be pressed is 44 pixels, a bond is a card, and a payment is made."""
    bank.registers(TOO_YOUNG)
    for size in ((320, 800), (640, 450), (820, 1100)):
        page.resize(*size)
        page.chooses(7, "L7EE")
        for view in VIEWS:
            page.go(view)
            assert page.calls("broken_rules") == {}, (size, view)
    page.resize(320, 640)
    page.go("pay")
    first = page.calls("first_cells")
    assert first == ["of-box", "of-serial", "of-value"], "a card begins with these"
    for serial, is_chosen in (("K7EE", True), ("N7EE", False)):
        page.run(TAP, serial).click()
        assert page.box(serial).is_selected() == is_chosen, "a card is tapped as a whole"
    page.shows_sum(2, L + K)
    page.choose("K7EE")
    page.shows_sum(1, L)
    page.pay()
    page.is_paid(1, L)
    assert page.calls("broken_rules") == {}, "the ticket"


@pytest.mark.parametrize("count", [3, 60])
def test_notices_in_sight(bank: Bank, page: Page, count: int) -> None:
    """At 1366 x 768, with the teller at the button Pay, on a short sheet and on a long one."""
    page.resize(1366, 768)
    bank.registers_many(60, 60)
    owner, serial = (7, "L7EE") if count == 3 else (60, "S60EE")
    page.chooses(owner, serial)
    bank.gate.faults = ["lost request"] * 3
    page.pay(99)
    page.waits_for("sent again in 2 seconds", "#progress")
    assert page.calls("in_window", "#progress") and page.focused() == "progress-text"
    top, bottom = page.calls("edges", "#pay-bonds button")
    assert top < 768 and bottom > 0, "nothing was scrolled away"
    page.refuses("neither the owner nor the coowner")
    page.takes_keyboard(".notice.refused")
    assert page.calls("in_window", ".notice")
    page.run("scrollTo(0, document.documentElement.scrollHeight)")
    assert page.calls("in_window", ".notice")
    page.run("document.querySelector('#told').style.position = 'static'")
    assert count == 3 or not page.calls("in_window", ".notice"), "control: if it didn't stick"
    page.run("document.querySelector('#told').style.position = ''")
    page.press(".notice .close")
    assert page.all(".notice") == [] and page.has_keyboard("#pay-bonds button")


def covered_by_tab(page: Page) -> list[str]:
    """What is covered of what has the keyboard, on a way by Tab through the whole view and back."""
    found = []
    for back in (False, True):
        for _ in range(20):
            page.tab(back)
            if page.calls("covered"):
                # A browser may scroll a little later.
                page.sleep(0.5)
                found.append(page.calls("covered"))
    return [one for one in found if one]


def test_notices_in_a_narrow_window(page: Page) -> None:
    """320 pixels: a notice takes half of the window at most, hides nothing that has the keyboard, and can be closed."""
    page.resize(320, 640)
    page.sends(7, "L7EE", payee=99)
    page.refuses("neither the owner nor the coowner")
    page.takes_keyboard(".notice.refused")
    assert page.calls("in_window", "#told")
    top, bottom = page.calls("edges", "#told")
    assert bottom - top <= 0.5 * 640 + 1
    assert page.run("return document.documentElement.scrollWidth") <= 320
    assert covered_by_tab(page) == []
    page.run("document.documentElement.style.scrollPadding = 0")
    assert covered_by_tab(page) != [], "control: if no room were kept"
    page.run("document.documentElement.style.scrollPadding = ''")
    page.tab_to(".notice .close", back=True)
    page.keys(Keys.ENTER)
    assert page.all(".notice") == []


# ---- the sum
def test_sum_beside_pay(bank: Bank, page: Page) -> None:
    """The sum stands large beside Pay, and both in view, however long the sheet is and wherever it is scrolled. The button names sum and payee."""
    bank.registers_many(60, 60)
    for size in ((1280, 800), (820, 1100), (360, 740)):
        page.resize(*size)
        page.chooses(60, "S1EE", "S60EE")
        for part in (0, 0.3, 0.6, 1):
            page.calls("scroll_to", part)
            in_sight = [page.calls("in_window", one) for one in ("#sum", "#pay-button")]
            assert in_sight == [True, True], (size, part)
    page.run("scrollTo(0, 0); document.querySelector('#pay-bonds').style.position = 'static'")
    assert not page.calls("in_window", "#pay-button"), "control: if the bar didn't stick"
    page.run("document.querySelector('#pay-bonds').style.position = ''")
    of_sum, *others = page.calls("sizes_of_letters", "#sum", "#sheet td", "#chosen")
    assert of_sum >= 1.5 * max(others)
    page.resize(1280, 800)
    two = dollars(2 * L)
    assert page.text("#pay-button") == f"Pay {two} to customer 60"
    page.type("#payee", "61")
    assert page.text("#pay-button") == f"Pay {two} to customer 61"


# ---- texts that are whole
#: The widest texts of a bond: those of 10,000 dollars at 20 % with a serial number of ten digits.
WIDEST = {
    **{"serial": "Z9999999999EE", "value": "$21,345.60", "denom": "$10,000", "issued": "10/2010"},
    **{"price": "$5,000.00", "interest": "$16,345.60", "rate": "20.00%", "next": "03/2012"},
    "final": "10/2040",
}
#: 683 by 384 is a window of 1366 by 768 at 200 %, and 641 the narrowest whose cards have five columns.
CARDS = (
    *((1440, 900), (1088, 768), (1024, 768), (768, 1024), (683, 384), (641, 900), (640, 900)),
    (360, 740),
)
OWNER = 900_000_001
LARGE = [bond(f"Z{9_999_999_900 + place}EE", 10000, "2005-05", OWNER) for place in range(1, 61)]


def test_widest_texts(bank: Bank, page: Page) -> None:
    """No text of the widest bond is broken, as a table and as a card, and nothing is beside the window; none lies over another; and a question has a line for every bond."""
    page.show_sheet(7)
    for _ in range(2):
        for width in (1280, 1100, 1080, 948, 820, 360):
            page.resize(width, 800)
            assert page.calls("broken_cells", WIDEST) == [], width
        page.press("#all-columns")
    page.press("#all-columns")
    page.resize(1100, 800)
    loose = "{ overflowWrap: 'anywhere', width: '50rem' }"
    page.run(f"Object.assign(document.querySelector('table.sheet').style, {loose})")
    assert page.calls("broken_cells", WIDEST) != [], "control: if words could be broken anywhere"
    bank.registers(*LARGE)
    page.show_sheet(OWNER)
    for width, height in (*CARDS, *CARDS):
        page.resize(width, height)
        page.sleep(0.3)
        assert page.calls("meeting_cells") == [], width
        if (width, height) == CARDS[-1]:
            page.press("#all-columns")
    page.resize(683, 384)
    equal = "auto repeat(4, 6rem)"
    columns = f"(row) => {{ row.style.gridTemplateColumns = '{equal}'; }}"
    page.run(f"document.querySelectorAll('.sheet tbody tr').forEach({columns})")
    assert page.calls("meeting_cells") != [], "control: with narrower columns"
    page.resize(1440, 900)
    page.press("#choose-all")
    page.ask_to_pay()
    assert page.calls("lines_of_a_bond") == 1
    first, columns = "'#confirm .bonds li:first-child'", "'8.5rem 4.5rem 3rem auto'"
    page.run(f"document.querySelector({first}).style.gridTemplateColumns = {columns}")
    assert page.calls("lines_of_a_bond") > 1, "control: if the month has less room"


def test_columns(bank: Bank, page: Page) -> None:
    """The cells of a column stand below one another, with a note and without one."""
    bank.registers(OLDER)
    page.show_sheet(7)
    for width in (1440, 1024, 768, 660):
        page.resize(width, 800)
        assert page.calls("edges_of_a_column") == 1, width
    page.run("document.querySelector('.of-note:empty').style.display = 'none'")
    assert page.calls("edges_of_a_column") > 1, "control: without the cell of a note"


#: By the window's size, 720 x 450 being 1440 x 900 at 200 %: the least number of whole bonds in view as a sheet is shown.
ROOM = {(1366, 768): 12, (1024, 768): 6, (720, 450): 6, (360, 740): 3}


def test_room_for_bonds(bank: Bank, page: Page) -> None:
    """The form folds into one line, and so does the bar of Pay: the widest bonds have the room. The columns that a payment doesn't need come on demand."""
    bank.registers(*LARGE)
    for size, least in ROOM.items():
        page.resize(*size)
        page.show_sheet(OWNER)
        assert page.focused() == "in-hand" and page.calls("in_window", "#in-hand")
        found = page.calls("whole_bonds")
        page.scan("Z9999999901EE")
        page.waits_for("1 bond", "#chosen")
        assert min(found, page.calls("whole_bonds")) >= least, (size, found)
        bar = page.run("return document.querySelector('#pay-bonds').offsetHeight")
        assert bar < 70 or size[0] < 640, (size, bar)
    page.resize(1366, 768)
    facts = f"Customer {OWNER} · February 2012 · 60 of 60 can be paid: $"
    assert page.text("#facts").startswith(facts)
    headings = "return [...document.querySelectorAll('#sheet thead th')].filter((one) => one.checkVisibility()).length"
    assert page.run(headings) == 6
    page.press("#all-columns")
    assert page.run(headings) == 11
    page.press("#change")
    assert page.focused() == "customer"
    assert page.calls("whole_bonds") < 12, "control: with the whole form"


# ---- questions and notices
WIDTHS = ((1440, 900), (1024, 768), (768, 1024), (360, 740), (320, 640))


def seen(page: Page, root: str, least: int | None, name: str) -> None:
    """At each width no word is broken, and at least `least` buttons are in sight; None is for a paper, which scrolls."""
    for width, height in WIDTHS:
        page.resize(width, height)
        page.sleep(0.3)
        assert page.calls("broken_words", root) == [], (name, width)
        hidden, count = page.calls("unseen_acts", root)
        assert least is None or (hidden == [] and count >= least), (name, width)
        page.pictured(f"{name}_{width}")
    page.resize(1100, 820)


def given(page: Page, name: str, said: Sequence[str], buttons: list[str], items: int = 0) -> None:
    """The question that is open has this title and these buttons. A screen reader is given that its title names it and its text describes it, and nothing beside it. `said` are parts of its description."""
    assert page.text("#confirm-title") == name
    assert [button.text for button in page.all("#confirm .buttons button")] == buttons
    found = page.engine.dialog()
    if found is None:
        assert page.name == "firefox"
        return
    within = [("heading", name), *[("listitem", "")] * items]
    within += [("list", name)] * bool(items) + [("button", button) for button in buttons]
    assert found[0] == name and found[2] and sorted(found[3]) == sorted(within)
    assert all(part in found[1] for part in said) and found[4] == buttons


COLORS = "return ['#day-open .buttons a', '#close-day button'].map((one) => getComputedStyle(document.querySelector(one)).backgroundColor)"


def test_questions(bank: Bank, page: Page) -> None:
    """Each question: before a payment, before a day is opened and closed, and about the year."""
    bank.registers(*LARGE)
    page.show_sheet(OWNER)
    page.press("#choose-all")
    page.ask_to_pay()
    seen(page, "#confirm", 2, "large_payment")
    page.resize(360, 740)
    style = "document.querySelector(arguments[0]).style.cssText = arguments[1]"
    page.run(style, "#confirm h2", "width: 4rem; word-break: break-all")
    assert page.calls("broken_words", "#confirm") != [], "control: words that are broken are found"
    page.run(style, "#confirm h2", "")
    page.run(style, "#confirm .buttons", "position: fixed; top: 200vh")
    assert page.calls("unseen_acts", "#confirm")[0] != [], "control: buttons out of sight too"
    page.run(style, "#confirm .buttons", "")
    page.resize(1100, 820)
    page.press("#confirm-yes")
    page.waits_for("Ticket 1", "#ticket h2")
    page.settled()
    seen(page, "#ticket .paper", None, "large_ticket")
    page.resize(320, 640)
    page.run(style, "#ticket .receipt tbody tr", "grid-template-columns: 10rem 10rem")
    assert page.calls("broken_words", "#ticket .paper") != [], "control: a sum that leaves too"
    page.go("walkin")
    page.add_walk_in("X9999999997EE", "10,000", "05/2005")
    seen(page, "#walkin-bonds", None, "large_walk_in")
    page.resize(320, 640)
    assert page.calls("broken_rules") == {}, "the form is as wide as the window"
    page.chooses(7, "L7EE", "K7EE")
    page.ask_to_pay()
    both = dollars(L + K)
    said = f"2 bonds on Monday, February 6, 2012, {both} in all: L7EE $50 issued 11/2010 {dollars(L)} K7EE $75 issued 10/2010 {dollars(K)}"
    buttons = ["Back", f"Pay {both} to customer 7"]
    given(page, f"Pay {both} to customer 7?", [said], buttons, 2)
    page.press("#confirm-yes")
    page.is_paid(2, L, K)
    seen(page, "#ticket", None, "ticket")
    page.go("day")
    main, plain = "rgb(23, 66, 107)", "rgb(255, 255, 255)"
    assert page.run(COLORS) == [main, plain], "to pay is the main act of an open day"
    page.ask_to_close()
    seen(page, "#confirm", 2, "close")
    total = page.text("#confirm-yes").removeprefix("Close the day with ")
    said = f"Paid so far, at all desks: 2 tickets, 62 bonds, {total}. No desk can pay on it any more, and it can't be opened again."
    buttons = ["Back", f"Close the day with {total}"]
    given(page, f"Close Monday, February 6, 2012 with {total}?", [said], buttons)
    page.press("#confirm-yes")
    page.waits_for("Tickets of February 6, 2012", "#batch")
    page.settled()
    seen(page, "#batch", None, "batch")
    page.ask_to_open("2121-02-06")
    seen(page, "#confirm", 2, "open")
    distance = "Thursday, February 6, 2121: 39,812 days after the last closed day, Monday, February 6, 2012."
    given(page, "Open February 6, 2121?", [distance], ["Back", "Continue"])
    page.press("#confirm-yes")
    again = "Open the day in 2121"
    page.until(lambda: page.text("#confirm-yes") == again, "it asks again")
    page.rested("#confirm-yes")
    seen(page, "#confirm", 2, "year")
    said = "Bonds are then paid at their values in February 2121, and no earlier day can ever be opened again. If the year or the day is mistyped, choose Back."
    given(page, "Is the year 2121 right?", [distance, said], ["Back", again])


def test_notices_whole(bank: Bank, page: Page) -> None:
    """A retry, refusals with and without a ticket's button, and a look-up without an answer."""
    page.chooses(7, "L7EE")
    bank.gate.faults = ["lost answer", *["no gateway"] * 4]
    page.calls("hold", 8000)
    page.pay()
    page.waits_for("sent again in 8 seconds", "#progress")
    seen(page, "#progress", 1, "retry")
    page.press("#send-now")
    page.is_paid(1, L)
    page.chooses(7, "K7EE", "M7EE")
    bank.pays(7, "M7EE")
    page.pay()
    page.refuses("Bond M7EE was paid already, on ticket 2.")
    seen(page, "#notices", 2, "refusal_with_ticket")
    page.pay(99)
    page.refuses("neither the owner nor the coowner")
    seen(page, "#notices", 1, "refusal")
    page.press("#notices .close")
    with bank.gate.changes("/inventory/", lambda text: b""):
        page.press("#change")
        page.press("#ask-sheet button")
        page.waits_for("The counter didn't answer", "#notices")
    seen(page, "#notices", 1, "no_answer")


# ---- fields and dates
KINDS = "return ['open-date', 'join-date', 'batch-day', 'month'].map((id) => document.getElementById(id)).map((e) => [e.type, e.getAttribute('type')])"


def test_fields(bank: Bank, new_page: NewPage) -> None:
    """Native days and months; errors that stay until the field is right, and are tied to it."""
    bank.begin([7], day=None)
    page = new_page()
    kinds = page.run(KINDS)
    assert [kind for kind, _ in kinds[:3]] == ["date"] * 3 and kinds[3][1] == "month"
    label = str(page.find("label[for=month]").get_attribute("textContent"))
    assert kinds[3][0] == "month" or "YYYY-MM" in label, "without a native field"
    page.run("document.getElementById('open-date').value = ''")
    page.press("#open-day button")
    assert page.text("#open-date-error").endswith("Enter a day from May 1, 2005 on")
    page.go("pay")
    page.type("#customer", "x")
    page.press("#ask-sheet button")
    field = page.find("#customer")
    assert field.get_attribute("aria-invalid") == "true" and page.focused() == "customer"
    assert field.get_attribute("aria-describedby") == "customer-error"
    page.type("#customer", "7x")
    page.sleep(6)
    assert page.is_shown("#customer-error"), "it stays while the field is wrong"
    page.type("#customer", "7")
    assert page.all("#customer-error") == [] and field.get_attribute("aria-invalid") is None
    assert not field.get_attribute("aria-describedby")
    assert bank.gate.bodies == []
    page.show_sheet(7, "November 2011" if kinds[3][0] == "text" else "2011-11")
    assert "November 2011" in page.caption(), "no month is cut as it is typed"
