"""A customer who walks in with bonds that aren't registered: typed from the paper, registered and paid in one go, once, whatever happens between."""

import json

import pytest
from ee_counter_client.testing.gate import JSON, response
from tests.browser.bank import DAY, USER, Bank, bond
from tests.browser.browser import Keys
from tests.browser.page import DOUBT, EARLIER, VALUES, Page
from tests.clients.conftest import NewPage
from tests.clients.test_page_days import DAY_BUTTONS

pytestmark = [pytest.mark.browser, pytest.mark.nginx]
#: What a teller types of each bond, and what it is in February 2012, by hand: 25 dollars of denomination are worth 12.58 if the bond is of November 2010 (25.16 for 50 dollars, docs/FIRST_DAY.md), 12.69 if of
#: October (38.07 for 75), and 12.56 if of February 2011 (5,024.00 for 10,000).
FIVE = {
    ("c-1-ee", "100", "11/2010"): ["C1EE", "$100", "issued 11/2010", "$50.32"],
    ("R2EE", "$200", "10-2010"): ["R2EE", "$200", "issued 10/2010", "$101.52"],
    ("d 3 ee", "500", "February 2011"): ["D3EE", "$500", "issued 02/2011", "$251.20"],
    ("V4EE", "5,000", "2/2011"): ["V4EE", "$5,000", "issued 02/2011", "$2,512.00"],
    ("X5EE", "10000", "2011-02"): ["X5EE", "$10,000", "issued 02/2011", "$5,024.00"],
}
SUM, SUM_SHOWN = 793904, "$7,939.04"
#: Two bonds of $100 and $500 of November 2010: 50.32 and 251.60.
TWO = 5032 + 25160


def type_two(page: Page, owner: int) -> None:
    page.go("walkin")
    page.add_walk_in(f"C{owner}EE", "100")
    page.add_walk_in(f"D{owner}EE", "500")


def walk_in(page: Page, owner: int, coowner: int | str = "", payee: int | str = "") -> str:
    for name, text in (("owner", owner), ("coowner", coowner), ("payee", payee)):
        page.type(f"#walkin-{name}", str(text))
    page.press("#walkin-button")
    return page.asked_without_doubt()


def test_walk_in(bank: Bank, page: Page) -> None:
    """Five bonds by the keyboard alone."""
    page.go("walkin")
    keys = 0
    page.run("document.getElementById('walkin-serial').focus()")
    for count, texts in enumerate(FIVE, 1):
        for text, key in zip(texts, (Keys.ENTER, Keys.TAB, Keys.ENTER)):
            page.keys(text, key)
            keys += len(text) + 1
        page.until(lambda: len(page.all("#walkin-bonds li")) == count, f"{count} bonds")
    assert bank.gate.bodies == [] and page.text("#walkin-sum") == SUM_SHOWN
    keys += page.tab_to("#walkin-owner")
    page.keys("7", Keys.TAB, "8", Keys.ENTER)
    page.asks()
    what = f"Register 5 bonds, and pay {SUM_SHOWN} to customer 7?\n"
    who = "Owner: customer 7. Coowner: customer 8. A registered bond can't be changed."
    assert page.question().startswith(what + who)
    assert page.calls("bonds_asked") == list(FIVE.values()) and page.focused() == "confirm-no"
    page.keys(Keys.TAB)
    page.rested("#confirm-yes")
    page.keys(Keys.ENTER)
    page.is_paid(1, SUM)
    assert keys + 6 < 120 and bank.gate.posts() == ["/bonds", "/redeem"]
    assert "5 bonds were registered." in page.text("#notices") and EARLIER not in page.text()
    lines = [row.text.split() for row in page.all("#ticket .paper tbody tr")]
    assert len(lines) == 5 and {"C1EE", "$100", "11/2010"} <= {*lines[0]}
    page.go("walkin")
    assert page.text("#walkin-bonds") == "" and not page.is_shown("#pay-walkin")
    books = bank.books()
    assert books.tickets() == [(7, 5, SUM)]
    assert books.one("SELECT count(*) FROM answers WHERE desk = 5") == 2


# ---- what goes wrong between
FAULTS = ("lost answer", "killed after", "failed after", "lost request", "other page")
SAYS = (
    "Registering 2 bonds of customer {}: no reply yet. Nothing may be paid out yet. The bonds may be registered already.",
    "Paying 2 bonds to customer {}: no reply yet. Nothing may be paid out yet. The payment may have been made already.",
)
ONCE = ("while they were registered: that was done once.", f"{EARLIER} This was paid once.")


@pytest.mark.slow
@pytest.mark.parametrize("reloads", [False, True], ids=["stays", "reloads"])
def test_walk_in_interrupted(bank: Bank, page: Page, reloads: bool) -> None:
    """A fault at the registration (0) or at the payment (1): what is said is true, and the rest follows by itself."""
    rounds = [(place, fault) for place in (0, 1) for fault in FAULTS]
    bank.server.pause = 1.5 if reloads else 0.3
    for ticket, (place, fault) in enumerate(rounds, 1):
        owner, sent = 1000 + ticket, len(bank.gate.bodies)
        type_two(page, owner)
        walk_in(page, owner)
        bank.gate.passes, bank.gate.faults = place, [fault, *["lost request"] * reloads]
        page.calls("watch_steps")
        if reloads:
            page.calls("hold", 500)  # So it is loaded again in the middle of the first pause.
        page.press("#confirm-yes")
        page.has_said(SAYS[place].format(owner))
        if reloads:
            page.reload()
        page.is_paid(ticket, TWO)
        page.waits_for(ONCE[place], "#notices")
        bodies = bank.gate.bodies[sent:]
        assert len(bodies) >= 3 and len(set(bodies)) == 2, bodies
    assert len(page.calls("receipts")) == len(rounds)
    books = bank.books()
    assert books.tickets("bonds, total") == [(2, TWO)] * len(rounds)
    assert books.one("SELECT count(*) FROM answers WHERE desk = 5") == 2 * len(rounds)


def test_walk_in_once(bank: Bank, page: Page) -> None:
    """A double click, and a second tab that takes over between the two requests."""
    type_two(page, 7)
    page.type("#walkin-owner", "7")
    page.double_click("#walkin-button")
    page.asks()
    page.sleep(2)
    assert bank.gate.bodies == []
    bank.gate.passes, bank.gate.faults = 1, ["lost answer"] * 2 + ["lost request"] * 20
    page.press("#confirm-yes")
    page.waits_for("Paying 2 bonds to customer 7: no reply yet.", "#progress")
    assert not any(button.is_enabled() for button in page.all("#walkin fieldset.acts button"))
    first = page.new_tab()
    page.open(bank.url)
    page.waits_for("The counter is open in another tab")
    assert not page.is_shown("nav"), "it waits, and shows no view"
    page.close_tab(first)
    bank.gate.faults = []
    page.is_paid(1, TWO)
    for name in (b'"bonds"', b'"payee"'):
        assert len({body for body in bank.gate.bodies if name in body}) == 1
    books = bank.books()
    assert books.tickets() == [(7, 2, TWO)]
    assert books.one("SELECT count(*) FROM answers WHERE desk = 5") == 2


# ---- refusals
def confirm(page: Page) -> None:
    page.press("#walkin-button")
    page.asks()
    page.press("#confirm-yes")


def test_walk_in_refused(bank: Bank, page: Page) -> None:
    """A refused registration pays nothing, and names the bond. A refused payment leaves the bonds registered, and says so."""
    type_two(page, 7)
    page.add_walk_in("L9EE", "50")
    bank.pays(9, "L9EE")
    walk_in(page, 7)
    page.press("#confirm-yes")
    other = "Bond L9EE is registered with a different denomination, issue month, owner or coowner."
    nothing = "No bond was registered, and nothing was paid."
    page.refuses(other, nothing, "SerialConflict, code 31. Nothing was changed.")
    assert bank.gate.posts() == ["/bonds"] and len(page.all("#walkin-bonds li")) == 3
    page.press("#walkin-bonds li:nth-child(3) button")
    bank.gate.faults = ["forbidden"]
    confirm(page)
    page.refuses("This user may not register bonds. Nothing was done.", "Ask a registrar.", nothing)
    bank.gate.passes, bank.gate.faults = 1, ["forbidden"]
    confirm(page)
    two = "2 bonds were registered. None of them was paid."
    assert "Nothing was" not in page.refuses("This user may not pay bonds.", two)
    bank.pays(7, "D7EE")
    page.add_walk_in("R7EE", "200")
    confirm(page)
    one = "1 bond was registered, and 2 were registered before. None of them was paid."
    told = page.refuses("Bond D7EE was paid already, on ticket 2.", one)
    assert "Nothing was changed" not in told
    page.press("#walkin-bonds li:nth-child(2) button")
    confirm(page)
    page.is_paid(3, 5032, 10064)
    page.refuses("Ticket 3 is paid.", "0 bonds were registered, and 2 were registered before.")
    assert bank.books().tickets("bonds, total") == [(1, VALUES["L"]), (1, 25160), (2, 15096)]


# ---- who may
BARRED = "This user may not both register and pay bonds: ask a user who may."


def test_walk_in_offered(bank: Bank, new_page: NewPage) -> None:
    """A walk-in is offered to a user of both groups that it takes, and to all if the proxy doesn't tell the groups. nginx still decides."""
    bank.begin([7])
    page = new_page()
    some = ("teller supervisor registrar", "teller supervisor office", "registrar", "")
    for groups in (*some, "registrar teller"):
        bank.nginx.regroup(USER, groups)
        page.reload()
        # Once the page knows the groups, by the order of the day's buttons.
        first = [["Open the day" if "supervisor" in groups else "Join the day", True]]
        offers = {"teller", "registrar"} <= set(groups.split())
        page.until(lambda: page.run(DAY_BUTTONS)[:1] == first, f"{groups}: the page knows them")
        link = "nav a[href='#walkin']"
        page.until(lambda: page.is_shown(link) == offers, f"{groups}: it is offered, or isn't")
    page.joins()
    type_two(page, 7)
    bank.nginx.regroup(USER, "teller")
    page.reload()
    page.until(lambda: page.is_shown("#walkin-barred"), "the page says that the user may not")
    assert page.text("#walkin-barred") == BARRED
    assert not page.is_shown("#add-walkin") and not page.is_shown("#pay-walkin")
    rows = {"desk": 902, "number": 1, "bonds": [bond("C7EE", 100, "2010-11", 7)]}
    refused = bank.nginx.ask(USER, "POST", "/bonds", rows)
    assert (refused.status, refused.text) == (403, '{"forbidden":"group"}')
    page.pictured("walkin_barred")


def test_walk_in_of_unknown_groups(bank: Bank, new_page: NewPage) -> None:
    """Control: without a path /user it is offered to all, and no name is shown."""
    bank.begin([7])
    bank.front("other", {"location = /user {": "location = /other {"})
    page = new_page(6, day=DAY)
    page.go("walkin")
    shown = [page.is_shown(part) for part in ("#add-walkin", "#walkin-barred", "#user")]
    assert shown == [True, False, False]


# ---- typing
#: Genuine paper that this counter can't pay: a serial number, an issue month, and what the page says.
EARLIER_PAPER = "This counter can't pay a bond that was issued before May 2005"
OTHER_PAPER = "If the paper isn't of Series EE, this counter can't pay it"
NOT_HERE = [
    *(("C7EE", month, EARLIER_PAPER) for month in ("11/2004", "04/2005", "May 1995")),
    *((serial, "11/2010", OTHER_PAPER) for serial in ("C-12,345,678-I", "D12HH", "Q1234567E")),
]


def test_walk_in_typed(bank: Bank, page: Page) -> None:
    """A bond that can't be read or paid is named at once, and so are customers that don't fit."""
    page.go("walkin")
    page.type_walk_in("12EE", "60", "2010")
    assert len(page.all("#add-walkin .error")) == 3
    for serial, issued, words in NOT_HERE:
        page.type_walk_in(serial, "100", issued)
        assert words in page.text("#add-walkin") and "FS Form 1522" in page.text("#add-walkin")
    said = page.find("#walkin-customer-help").get_attribute("textContent")
    assert "POD is a beneficiary: leave it empty" in str(said)
    type_two(page, 7)
    page.type_walk_in("C7EE", "100", "11/2010")
    page.waits_for("Bond C7EE is already in the list.", "#notices")
    page.type_walk_in("C8EE", "100", "09/2011")
    young = "it is less than 12 months old."
    page.waits_for(f"Bond C8EE can't be paid in February 2012: {young}", "#notices")
    no_rate = response(b"409 Conflict", JSON, b'{"code":30,"refused":"NoRate"}')
    with bank.gate.changes("/value/", lambda text: no_rate):
        page.type_walk_in("C8EE", "100", "10/2011")
        missing = "No rate is entered for the month in which a bond was issued."
        page.waits_for(missing, "#notices")
    assert len(page.all("#walkin-bonds li")) == 2 and bank.gate.bodies == []
    for coowner, payee, name in (("7", "", "coowner"), ("8", "9", "payee"), ("", "8", "payee")):
        for field, text in (("owner", "7"), ("coowner", coowner), ("payee", payee)):
            page.type(f"#walkin-{field}", text + Keys.DELETE)
        page.press("#walkin-button")
        (error,) = page.all("#pay-walkin .error")
        assert error.get_attribute("id") == f"walkin-{name}-error"
    assert not page.is_shown("#confirm")
    asked = walk_in(page, 7, 8, 8)
    assert "to customer 8?" in asked and "Owner: customer 7. Coowner: customer 8." in asked
    page.press("#confirm-yes")
    page.is_paid(1, TWO)
    assert "customer 8" in page.text("#ticket dl")
    wanted = [bond(s, d, "2010-11", 7, coowner=8) for s, d in (("C7EE", 100), ("D7EE", 500))]
    assert json.loads(bank.gate.bodies[0])["bonds"] == wanted
    page.closes()
    page.go("walkin")
    assert page.is_shown("#walkin-no-day") and not page.is_shown("#add-walkin")


def test_walk_in_beside(bank: Bank, page: Page) -> None:
    """The sheet of another customer, under Pay, stays; a sheet that is shown while the reply is awaited stays in view."""
    page.chooses(7, "L7EE")
    type_two(page, 21)
    walk_in(page, 21)
    page.press("#confirm-yes")
    page.is_paid(1, TWO)
    page.go("pay")
    page.shows_sum(1, VALUES["L"])
    type_two(page, 22)
    walk_in(page, 22)
    bank.gate.passes, bank.gate.faults = 1, ["lost answer"] + ["lost request"] * 20
    page.press("#confirm-yes")
    page.waits_for("sent again in 2 seconds", "#progress")
    page.show_sheet(9)
    bank.gate.faults = []
    page.refuses("Ticket 2 is paid.", "Pay out $301.92 to customer 22.")
    assert page.is_shown("#pay")
    page.go("walkin")
    assert page.text("#walkin-bonds") == ""


def test_doubts_of_walk_in(bank: Bank, page: Page) -> None:
    """A denomination that is typed wrong is asked about before anything is registered."""
    page.go("walkin")
    page.add_walk_in("L21EE", "5,000")
    page.type("#walkin-owner", "21")
    page.press("#walkin-button")
    page.asks()
    wrong = "L21EE: the letter L means $50, and the denomination here is $5,000."
    assert wrong in page.question()
    page.pictured("doubts")
    page.press("#confirm-no")
    page.sleep(2)
    assert bank.gate.bodies == [] and len(page.all("#walkin-bonds li")) == 1
    page.press("#walkin-bonds li button")
    page.add_walk_in("L21EE", "50")
    page.press("#walkin-button")
    page.asks()
    assert DOUBT not in page.question()
    page.press("#confirm-yes")
    page.is_paid(1, VALUES["L"])
    query = "SELECT denom FROM bonds WHERE owner = 21"
    assert bank.books().rows(query) == [(50,)]
