"""The browser's storage, and what the page is made of: writings that fail, a database that is gone, storage that isn't kept, a browser that is too old, files that don't come."""

import time

import pytest

from tests.browser.bank import DAY, Bank
from tests.browser.page import EARLIER, VALUES, Page, dollars
from tests.clients.conftest import NewPage

pytestmark = [pytest.mark.browser, pytest.mark.nginx]
L, K = VALUES["L"], VALUES["K"]

# ---- writings that fail
QUOTA = "This browser has no room left for the journal of this page."
UNWRITTEN = "This browser couldn't write the journal of this page."


def test_storage_fails(bank: Bank, page: Page) -> None:
    """Before a sending, between two, after the reply: what the page says is true, the page goes on by itself, and the bond is paid once."""
    page.calls("unhandled")
    page.calls("failing", 0, 1, "QuotaExceededError")
    page.sends(7, "L7EE")
    page.refuses(f"{QUOTA} Nothing was sent, and nothing was changed.")
    assert bank.gate.bodies == [] and page.text("#sum") == dollars(L)
    assert all(button.is_enabled() for button in page.all("fieldset.acts button"))
    page.calls("failing", 1, 4, "QuotaExceededError")
    page.pay()
    page.waits_for("the request is open. It wasn't sent.", "#progress")
    assert QUOTA in page.text("#progress") and bank.gate.bodies == []
    page.is_paid(1, L)
    assert len(bank.gate.bodies) == 1 and EARLIER not in page.text("#notices")
    page.calls("failing", 2, 4, "UnknownError")
    page.sends(7, "K7EE")
    page.waits_for("the reply has come.", "#progress")
    assert UNWRITTEN in page.text("#progress")
    assert page.text("#ticket h2").startswith("Ticket 2"), "the reply is shown"
    page.settled()
    assert len(bank.gate.bodies) == 2 and page.journal()["last"] == 2, "and sent no more"
    page.chooses(9, "L9EE")
    bank.gate.faults = ["lost answer"]
    page.calls("failing", 2, 4, "QuotaExceededError")
    page.pay()
    may = "Nothing may be paid out yet. The payment may have been made already."
    page.waits_for(f"the request is open. {may}", "#progress")
    assert len(bank.gate.bodies) == 3, "nothing is sent that isn't written down first"
    page.is_paid(3, L)
    assert EARLIER in page.text("#notices") and len(set(bank.gate.bodies[2:])) == 1
    assert page.run("return window.unhandled") == [] and "own words" not in page.text()
    assert bank.books().tickets() == [(7, 1, L), (7, 1, K), (9, 1, L)]


def test_receipt_unstored(bank: Bank, page: Page) -> None:
    """The browser can't write the record of a payment: the page says that the reply has come, and keeps the request until the record is written."""
    page.calls("failing", 0, 2, "QuotaExceededError", "payments")
    page.sends(7, "L7EE")
    page.waits_for("the reply has come.", "#progress")
    assert page.journal()["open"] is not None and page.calls("receipts") == []
    page.settled()
    bond = {"serial": "L7EE", "denom": 50, "issued": "2010-11", "price": "2500", "value": "2516"}
    assert [one["bonds"] for one in page.calls("receipts")] == [[bond]]
    assert len(bank.gate.bodies) == 1


def test_not_done_unstored(bank: Bank, page: Page) -> None:
    """That nothing was done is shown once the request is dropped from the journal: a page that is killed before sends it again."""
    page.chooses(7, "L7EE")
    bank.gate.faults = ["forbidden"]
    page.calls("failing", 2, 3, "QuotaExceededError")
    page.pay()
    page.waits_for("the reply has come.", "#progress")
    assert page.journal()["open"] is not None and "Nothing was done" not in page.text()
    page.refuses("This user may not pay bonds. Nothing was done.")
    assert len(bank.gate.bodies) == 1


def test_no_numbers_left(bank: Bank, page: Page) -> None:
    """JavaScript counts to 2^53 - 1: no request, and none that follows a registration, gets a number from which it can't count on."""
    page.write_journal("(record) => ({ ...record, next: Number.MAX_SAFE_INTEGER - 1 })")
    page.reload()
    page.go("walkin")
    page.add_walk_in("C21EE", "100")
    page.type("#walkin-owner", "21")
    page.press("#walkin-button")
    page.asks()
    page.press("#confirm-yes")
    page.waits_for("Something in this page went wrong.", "#notices")
    assert bank.gate.posts() == ["/bonds"]
    page.write_journal("(record) => ({ ...record, open: null })")
    page.reload()
    page.sends(7, "L7EE")
    page.waits_for("Something in this page went wrong.", "#notices")
    assert bank.gate.posts() == ["/bonds"] and page.journal()["open"] is None


def test_storage_closed(bank: Bank, page: Page) -> None:
    """The browser closes the journal's database while the page works: it is opened again, and the payment goes on."""
    before = page.journal()
    page.calls("closing")
    page.pays(1, 7, "L7EE")
    after = page.journal()
    assert page.run("return window.is_closed")
    assert (after["desk"], after["next"], after["last"]) == (5, before["next"] + 1, 1)
    assert len(bank.books().tickets()) == 1


def test_changes_at_once(new_page: NewPage) -> None:
    """Changes of the journal that overlap are all kept, in their order."""
    record = new_page().calls("changes")
    assert (record["desk"], record["day"], record["last"]) == (5, "2012-02-07", 5)


# ---- storage that isn't kept
FORGETS = "This browser may forget an open payment"
PUT = "IDBObjectStore.prototype.put = function () { throw new DOMException('no', '%s'); };"
#: A browser whose storage isn't kept, or works otherwise than it should, by a script that runs before the page's own; and what the page says beside the bonds.
STORAGES = {
    "StorageManager.prototype.persist = StorageManager.prototype.persisted = async () => false;": FORGETS,
    "StorageManager.prototype.persisted = async () => false; StorageManager.prototype.persist = async () => { throw new TypeError('no'); };": FORGETS,
    PUT % "QuotaExceededError": f"{QUOTA} Make room on this machine's disk.",
    PUT % "UnknownError": UNWRITTEN,
}
KEEPS = "StorageManager.prototype.persist = StorageManager.prototype.persisted = async () => true;"
ASKS = "StorageManager.prototype.persisted = async () => false; StorageManager.prototype.persist = () => new Promise((resolve) => { window.allow = resolve; });"
BLOCKED = "IDBFactory.prototype.open = () => { throw new DOMException('no', 'SecurityError'); };"
OLD = '<script src="old.js"'


def runs_before(bank: Bank, script: str) -> None:
    if not (bank.teller / "before.js").exists():
        bank.change_page("index.html", (OLD, f'<script src="before.js"></script>\n{OLD}'))
    (bank.teller / "before.js").write_text(script)


def test_storage_unkept(bank: Bank, new_page: NewPage) -> None:
    """Storage that won't be kept is said beside the bonds, before the first payment; a browser that asks its user for it is waited for by nobody."""
    bank.begin([7])
    runs_before(bank, KEEPS)
    page = new_page(day=DAY)
    page.go("pay")
    page.sleep(1)
    assert not page.is_shown("#unkept"), "of storage that is kept nothing is said"
    for script, words in STORAGES.items():
        runs_before(bank, script)
        page.reload()
        page.go("pay")
        page.waits_for(words, "#unkept")
    runs_before(bank, ASKS)
    page.reload()
    page.go("pay")
    page.waits_for(FORGETS, "#unkept")
    page.run("window.allow(true)")
    page.until(lambda: not page.is_shown("#unkept"), "the user has allowed it")
    runs_before(bank, BLOCKED)
    page.reload()
    page.waits_for("This page can't start.", "#notices")
    assert "a browser that may store data for this page" in page.text("#notices")
    assert bank.gate.bodies == []


# ---- files
def loads(bank: Bank) -> int:
    log = (bank.nginx.folder / "log/access.log").read_text()
    return log.count('"GET /teller/ HTTP')


def stays(bank: Bank, page: Page) -> None:
    before = loads(bank)
    page.sleep(5)
    assert loads(bank) == before
    assert len([text for text in page.text("main").splitlines() if text.strip()]) == 1


def test_old_browser(bank: Bank, new_page: NewPage) -> None:
    """A browser that lacks what the page needs, and a file that can't be read, get one sentence and no reload. Without a file the page is loaded again by itself, after 3 seconds and after 6 more, and sends what is open as soon as the file is there."""
    bank.begin([], day=None)
    runs_before(bank, "delete AbortSignal.any;\n")
    page = new_page(None)
    page.waits_for("This browser is too old for this page: use one of 2024 or later.")
    stays(bank, page)
    runs_before(bank, "")
    sheet = (bank.teller / "sheet.js").read_text()
    (bank.teller / "sheet.js").write_text(sheet[: len(sheet) // 2])
    page.reload()
    page.waits_for("A file of this page can't be read")
    stays(bank, page)
    (bank.teller / "sheet.js").write_text(sheet)
    page.reload()
    page.choose_desk(5)
    bank.gate.faults = ["lost answer", *["lost request"] * 20]
    page.open_day(DAY)
    page.waits_for("no reply yet", "#progress")
    (bank.teller / "sheet.js").unlink()
    before, begun = loads(bank), time.monotonic()
    page.reload()
    page.waits_for("The page didn't load completely. It tries again by itself.")
    page.until(lambda: loads(bank) - before >= 3, "it tries again")
    assert loads(bank) - before == 3 and time.monotonic() - begun > 9
    (bank.teller / "sheet.js").write_text(sheet)
    bank.gate.faults = []
    page.waits_for("February 6, 2012 is open.")
    assert EARLIER in page.text()
