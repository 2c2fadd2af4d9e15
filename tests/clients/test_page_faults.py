"""What goes wrong around a request: answers that don't come, or come from others, kills of the counter and of the browser, numbers that were used. Each request is done once, and its one reply is shown."""

import json
import threading
import time
from typing import Callable

import pytest
from ee_counter_client.testing.gate import AFTER, BEFORE
from tests.browser.bank import DAY, RATE, USER, Bank, Front
from tests.browser.gate import Relay
from tests.browser.page import EARLIER, VALUES, Page, dollars
from tests.clients.conftest import NewPage
from tests.conftest import at_once

pytestmark = [pytest.mark.browser, pytest.mark.nginx]
SUM = sum(VALUES.values())
FAULTS = [fault for fault in AFTER + BEFORE if fault not in ("silent", "dripping")]
ONE_TICKET = "SELECT count(*) FROM tickets"


# ---- days of faults
def interrupted(
    bank: Bank, page: Page, fault: str, reloads: bool, act: Callable[[], object], shown: str
) -> None:
    """One step of a day that meets a fault: the page tells that there is no reply, sends the same bytes again, and shows the one reply."""
    sent = len(bank.gate.bodies)
    bank.server.pause = 1.5 if reloads else 0.3
    bank.gate.faults = [fault, *(["lost request"] if reloads else [])]
    act()
    page.waits_for("no reply yet. ", "#progress")
    if reloads:
        page.reload()
    page.waits_for(shown)
    page.waits_for(EARLIER, "#notices")
    page.settled()
    bodies = bank.gate.bodies[sent:]
    assert len(bodies) >= 2 and len(set(bodies)) == 1, bodies


@pytest.mark.slow
@pytest.mark.parametrize("reloads", [False, True], ids=["stays", "reloads"])
def test_interrupted_days(bank: Bank, new_page: NewPage, reloads: bool) -> None:
    """For each fault a day on which each of three steps meets it, and between each two of them the counter is killed too."""
    bank.begin(range(1000, 1000 + len(FAULTS)), day=None)
    page = new_page()
    for place, fault in enumerate(FAULTS):
        day, owner, words = f"2012-02-{1 + place:02}", 1000 + place, f"February {1 + place}, 2012"
        interrupted(bank, page, fault, reloads, lambda: page.open_day(day), f"{words} is open.")
        bank.server.kill()
        page.chooses(owner, f"K{owner}EE", f"L{owner}EE", f"M{owner}EE")
        interrupted(bank, page, fault, reloads, page.pay, f"Ticket {place + 1}")
        page.is_paid(place + 1, SUM)
        bank.server.kill()
        interrupted(bank, page, fault, reloads, page.close_day, f"Batch of {words}")
        assert dollars(SUM) in page.text("#batch")
        bank.server.kill()
    assert bank.server.kills >= 3 * len(FAULTS)
    books = bank.books()
    assert books.tickets("bonds, total") == [(3, SUM)] * len(FAULTS)
    assert books.one("SELECT count(*) FROM answers WHERE desk = 5") == 3 * len(FAULTS)


def test_browser_killed(bank: Bank, page: Page, new_page: NewPage) -> None:
    """The browser's process is killed with a request open, as by a loss of power, and started again: it sends its request by itself."""
    bank.gate.faults = ["lost answer", *["lost request"] * 20]
    page.sends(7, "L7EE")
    page.waits_for("no reply yet", "#progress")
    page.engine.kill()
    bank.gate.faults = []
    again = new_page(None, profile=page.profile)
    again.is_paid(1, VALUES["L"])
    again.waits_for(EARLIER)
    assert len(set(bank.gate.bodies)) == 1
    assert bank.books().one(ONE_TICKET) == 1


def test_two_desks(bank: Bank, page: Page, new_page: NewPage) -> None:
    """Two pages on two desks, paying the same bond at once; then one of them while the other's answer is lost."""
    pages = [page, new_page(6, day=DAY)]
    for one in pages:
        one.chooses(7, "L7EE")
    at_once(lambda number: pages[number].pay(), 2)
    already = "was paid already, on ticket 1"
    for one in pages:
        is_answered = lambda: "Ticket 1 is paid." in one.text() or already in one.text()
        one.until(is_answered, "an answer comes")
    assert sorted(already in one.text() for one in pages) == [False, True]
    other = next(one for one in pages if already in one.text())
    other.press("#notices button")
    other.is_paid(1, VALUES["L"])
    for one in pages:
        one.chooses(9, "K9EE")
    first, second = pages
    bank.gate.faults = ["lost answer", "lost request"]
    first.pay()
    first.waits_for("sent again in 1 second", "#progress")
    second.pay()
    second.waits_for("was paid already, on ticket 2")
    first.is_paid(2, VALUES["K"])
    first.waits_for(EARLIER)
    assert bank.books().tickets("ticket, total") == [(1, VALUES["L"]), (2, VALUES["K"])]


def test_numbers_used(bank: Bank, page: Page) -> None:
    """Numbers that this desk has used: the request goes on under a higher one, by doubling steps, with a lost answer and a new load on the way."""
    number = page.journal()["next"]
    for used in range(number, number + 10):
        words = {"desk": 5, "number": used, "day": DAY, "payee": 7, "serials": ["A1EE"]}
        bank.expect(409, "/redeem", words)
    bank.gate.faults = ["lost answer", "lost request"]
    page.sends(7, "L7EE")
    page.waits_for("no reply yet", "#progress")
    page.reload()
    page.is_paid(1, VALUES["L"])
    sent = [json.loads(body)["number"] - number for body in bank.gate.bodies if b"L7EE" in body]
    assert sent == [0, 0, 0, 1, 3, 7, 15]
    assert page.journal()["next"] == number + 16
    query = "SELECT number FROM answers WHERE desk = 5 AND act LIKE '%L7EE%'"
    assert bank.books().rows(query) == [(number + 15,)]


def test_silent_counter(bank: Bank, new_page: NewPage) -> None:
    """An answer that doesn't come: no other request can be made, and after the time limit the page sends again."""
    bank.begin([7], day=None)
    page = new_page()
    bank.gate.faults = ["silent"]
    page.calls("watch_steps")
    page.open_day(DAY)
    begun = time.monotonic()
    page.waits_for("sent, waiting for the reply", "#progress")
    acts = [button for button in page.all("fieldset.acts button") if button.is_displayed()]
    assert acts and not any(button.is_enabled() for button in acts)
    page.has_said("no response within 40 seconds")
    page.waits_for("February 6, 2012 is open.")
    assert time.monotonic() - begun < 60 and EARLIER in page.text()


# ---- an answer to one sending
NO_CERTIFICATE = "This browser sent no certificate of the staff, or it was revoked or has run out."
NOTHING = "This says nothing about the earlier attempts."
RESENT = {
    "not json": f"The counter can't read the request: it isn't JSON. {NOTHING}",
    "forbidden": f"This user may not pay bonds. Ask a teller. {NOTHING}",
    "no gateway": "The counter didn't answer: it is starting, or has too much to do.",
    "proxy page": "The counter didn't answer: something else did (status 403).",
    "redirect": "The counter didn't answer: the request was redirected.",
    "too many": "The counter didn't answer: too many requests.",
    "no certificate": NO_CERTIFICATE,
    "failed after": "The counter's store failed, so the request may or may not have been done.",
}


MAY_BE = "no reply yet. Nothing may be paid out yet. The payment may have been made already."
#: No pause of these milliseconds ends but by its button.
PAUSES = (500, 1000, 2000, 4000, 8000, 15000)


def sends_now(page: Page) -> None:
    page.until(lambda: page.is_shown("#send-now"), "the page waits")
    page.press("#send-now")


def test_faults_on_resend(bank: Bank, page: Page) -> None:
    """A payment whose answer is lost after the commit; each resend meets a fault; then the true reply comes. So it does if nginx misses a certificate on the first sending."""
    bank.registers_many(60, 2)
    page.calls("hold", *PAUSES)
    rounds = {"lost answer": list(RESENT), "no certificate": ["no certificate"]}
    for ticket, (first, faults) in enumerate(rounds.items(), 1):
        sent = len(bank.gate.bodies)
        bank.gate.faults = [first, *faults]
        page.sends(60, f"S{ticket}EE")
        for place, fault in enumerate(faults, 2):
            sends_now(page)
            page.until(lambda: len(bank.gate.bodies) == sent + place, "it is sent again")
            page.waits_for(RESENT[fault], "#progress")
            assert MAY_BE in page.text("#progress") and "Nothing was done" not in page.text()
            still = page.journal()["open"]
            assert still["fields"]["serials"] == [f"S{ticket}EE"] and still["shown"] == "2516"
        sends_now(page)
        page.is_paid(ticket, VALUES["L"])
        page.waits_for(f"Ticket {ticket} is paid.")
        assert f"{EARLIER} This was paid once." in page.text()
        assert len(set(bank.gate.bodies[sent:])) == 1
    assert bank.books().one(ONE_TICKET) == len(rounds)


def test_first_sendings(bank: Bank, page: Page) -> None:
    """On the first sending a fault, and the proxy's word on the user, are final: nothing was done, and the page goes on."""
    for fault, words, code in (
        ("not json", "The counter can't read the request: it isn't JSON.", "BadJson, code 64."),
        ("forbidden", "This user may not pay bonds. Nothing was done.", ""),
    ):
        page.chooses(7, "L7EE")
        sent = len(bank.gate.bodies)
        bank.gate.faults = [fault]
        page.pay()
        notice = page.refuses(words, f"{code} Log entry ".strip(), "othing was done.")
        assert len(bank.gate.bodies) == sent + 1, notice
        page.takes_keyboard(".notice.refused")
    bank.gate.faults = ["forbidden"]
    page.close_day()
    page.refuses("This user may not close a day. Nothing was done.", "Ask a supervisor.")
    assert page.journal()["day"] == DAY
    page.press("#leave-day button")
    bank.gate.faults = ["forbidden"]
    page.open_day("2012-02-07")
    page.refuses("This user may not open a day. Nothing was done.")
    assert page.journal()["day"] is None
    assert bank.books().one(ONE_TICKET) == 0


# ---- a connection that breaks
#: Connections are kept, and repeats of a POST passed on.
KEPT = {**RATE, "keepalive_timeout 0": "keepalive_timeout 60s"}
REPEATED = {**KEPT, "limit_req zone=sendings;": ""}


def reset_while_paying(
    bank: Bank, nginx: Front, page_at: NewPage, desk: int, serial: str, then: list[str]
) -> Page:
    relay = Relay(nginx.port)
    bank.port, bank.gate.cut = relay.port, relay.cut
    page = page_at(desk, day=DAY)
    page.chooses(7, serial)
    bank.gate.bodies.clear()
    bank.gate.faults = ["lost answer", *then]
    page.pay()
    return page


def still_open(bank: Bank, nginx: Front, new_page: NewPage, serial: str, ticket: int) -> None:
    """Each answer is that to a sending of the page's own, and the request stays open until its ticket is there."""
    page = reset_while_paying(bank, nginx, new_page, ticket, serial, ["not json"])
    page.waits_for(NOTHING, "#progress")
    assert page.journal()["open"]["sent"] == 2
    page.is_paid(ticket, VALUES[serial[0]])
    assert bank.ask("GET", f"/ticket/{ticket + 1}")[0] == 404
    page.close()


def test_connection_reset(bank: Bank, new_page: NewPage) -> None:
    bank.begin()
    still_open(bank, bank.nginx, new_page, "L7EE", 1)
    nginx = bank.front("kept", KEPT)
    still_open(bank, nginx, new_page, "K7EE", 2)
    repeats = [entry for entry in nginx.log() if entry["status"] == "429"]
    assert len(repeats) >= 1 and all(entry["counter"] == "" for entry in repeats)


def test_repeats_passed_on_are_found(bank: Bank, new_page: NewPage) -> None:
    """Control: a browser repeats a payment by itself. If nginx passes that on, the page takes the fault of the repeat for nothing done."""
    bank.begin()
    nginx = bank.front("repeated", REPEATED)
    page = reset_while_paying(bank, nginx, new_page, 5, "L7EE", ["not json"] * 3)
    page.refuses("The counter can't read the request: it isn't JSON.")
    assert len(bank.gate.bodies) > 1 and bank.ask("GET", "/ticket/1")[0] == 200


# ---- certificates
def test_revoked_while_paying(bank: Bank, page: Page, new_page: NewPage) -> None:
    """The user's certificate is revoked while a teller works: the page says so, and keeps the request and what was typed. With another certificate it is paid, once."""
    page.waits_for(f"Teller {USER}", "#user")
    page.chooses(7, "L7EE")
    page.type("#serial", "K-9")
    bank.nginx.staff.dismiss(USER)
    bank.nginx.reload()
    page.pay()
    page.waits_for(NO_CERTIFICATE, "#progress")
    page.waits_for("sent again in 4 seconds", "#progress")
    assert "Put in your card" in page.text("#progress")
    assert bank.gate.bodies == [] and page.value("#serial") == "K-9"
    assert page.box("L7EE").is_selected()
    still = page.journal()["open"]
    assert still["fields"]["serials"] == ["L7EE"] and still["sent"] > 1
    page.press("#change")
    page.press("#ask-sheet button")
    page.waits_for(NO_CERTIFICATE, "#notices")
    assert "Nothing was done." in page.text("#notices")
    page.close()
    bank.nginx.staff.hire(USER)
    bank.certificate = bank.nginx.exported(USER)
    again = new_page(None, profile=page.profile)
    again.is_paid(1, VALUES["L"])
    assert len(bank.gate.bodies) == 1
    assert bank.books().one(ONE_TICKET) == 1


# ---- look-ups
def held(event: threading.Event, text: bytes) -> bytes:
    assert event.wait(60)
    return text


def test_silent_look_up(bank: Bank, page: Page) -> None:
    """A look-up without an answer can be ended, and leaves the sheet that is shown, with what is chosen on it. One that was overtaken wipes nothing."""
    page.chooses(7, "L7EE", "K7EE")
    event = threading.Event()
    with bank.gate.changes("/inventory/9/", lambda text: held(event, text)):
        page.show_sheet_begun(9)
        page.until(lambda: page.is_shown("#asking"), "the page says that it asks")
        assert "customer 7 " in page.caption()
        page.press("#stop-asking")
        page.until(lambda: not page.is_shown("#asking"), "the look-up is ended")
        page.shows_sum(2, VALUES["L"] + VALUES["K"])
        assert "customer 7 " in page.caption() and page.value("#payee") == "7"
        page.show_sheet_begun(9)
        page.until(lambda: page.is_shown("#asking"), "the page asks again")
        page.chooses(11, "L11EE")
        event.set()
        page.sleep(2)
        page.shows_sum(1, VALUES["L"])
        assert "customer 11 " in page.caption()
    page.show_sheet(9)


def test_chosen_twice(bank: Bank, page: Page) -> None:
    """A bond is chosen once, however it is chosen: on the sheet, added, added again while the first look-up is under way, and on the sheet that comes later."""
    page.chooses(7, "L7EE")
    page.ask_to_add(7, "l-7-ee")
    page.waits_for("Bond L7EE is already chosen.", "#notices")
    page.add(9, "K9EE")
    event = threading.Event()
    with bank.gate.changes("/", lambda text: held(event, text)):
        page.ask_to_add(9, "L9EE")
        page.press("#add-bond button")
        page.ask_to_add(7, "K7EE")
        page.choose("K7EE")
        event.set()
    page.until(lambda: page.value("#serial") == "", "the bond is added")
    page.sleep(1)
    page.shows_sum(3, VALUES["L"] + 2 * VALUES["K"])
    page.ask_to_pay(8)
    assert sorted(serial for serial, *_ in page.calls("bonds_asked")) == ["K7EE", "K9EE", "L7EE"]
    page.press("#confirm-no")
    others = page.text("#others")
    assert "K7EE" not in others and others.count("K9EE:") + others.count("K9EE, owner") == 1
    page.chooses(9, "K9EE")
    page.shows_sum(1, VALUES["K"])
    page.pay(8)
    page.is_paid(1, VALUES["K"])
    assert [json.loads(body)["serials"] for body in bank.gate.bodies] == [["K9EE"]]
