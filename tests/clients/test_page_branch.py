"""Four desks behind one address, as in a branch whose router translates addresses: each counts a day of many tickets and pays, over the limits of samples/nginx."""

import time
from concurrent.futures import Future, ThreadPoolExecutor

import pytest

from tests.browser.bank import DAY, PAGE, Bank, Front, bond
from tests.browser.page import VALUES, dollars
from tests.clients.conftest import NewPage
from tests.fence.site import Texts

pytestmark = [pytest.mark.browser, pytest.mark.nginx, pytest.mark.slow]
TICKETS = 900
#: The pace of clients/teller/latest.js: the number of look-ups at once, and then the seconds between two. After a 429 a look-up waits.
AT_ONCE, SPACE, BUSY = 100, 0.125, 2
Working = Future[tuple[int, int]]
OTHERS = {name: "teller" for name in ("anna", "dora", "emil")}


def work(nginx: Front, user: str, desk: int, seconds: float) -> tuple[int, int]:
    """Behaves as the page does: it loads the page's files, counts the tickets, and pays bonds meanwhile. How many it counted, and its answers 429."""
    until, counted, waits = time.monotonic() + seconds, 0, 0

    def ask(method: str, path: str, value: object = None) -> int | None:
        nonlocal waits
        while time.monotonic() < until:
            status = nginx.ask(user, method, path, value).status
            if status != 429:
                return status
            waits += 1
            time.sleep(0.5 if method == "POST" else BUSY)
        return None

    for file in sorted(PAGE.iterdir()):
        ask("GET", f"/teller/{file.name}")
    asked_from = time.monotonic() - AT_ONCE * SPACE
    for number in range(1, TICKETS + 1):
        asked_from = max(asked_from, time.monotonic() - AT_ONCE * SPACE) + SPACE
        time.sleep(max(0, asked_from - time.monotonic()))
        if ask("GET", f"/ticket/{number}") != 200:
            break
        counted = number
        if number % 200 == 0:
            paid = {"payee": 60, "serials": [f"S{desk * 1000 + number}EE"]}
            ask("POST", "/redeem", {"desk": desk, "number": number, "day": DAY, **paid})
    return counted, waits


def busy(nginx: Front) -> int:
    lines = (nginx.folder / "log/access.log").read_text().splitlines()
    return sum('" 429 ' in line for line in lines)


def branch(bank: Bank, seconds: float, changed: Texts = {}) -> tuple[Front, list[Working]]:
    """Tickets of one bond each, nginx with four users, and three of the four desks at work."""
    bank.begin([7])
    bank.registers_many(60, TICKETS)
    numbers = [desk * 1000 + at for desk in (11, 12, 13) for at in range(200, TICKETS + 1, 200)]
    bank.registers(*(bond(f"S{number}EE", 50, "2010-11", 60) for number in numbers))
    for number in range(1, TICKETS + 1):
        bank.pays(60, f"S{number}EE")
    nginx, pool = bank.front("branch", changed, OTHERS), ThreadPoolExecutor(len(OTHERS))
    desks = enumerate(OTHERS, 11)
    return nginx, [pool.submit(work, nginx, user, desk, seconds) for desk, user in desks]


def test_four_desks(bank: Bank, new_page: NewPage) -> None:
    """One page in a browser and three clients that behave as it does, from one address: each counts 900 tickets and pays, and none is told to wait."""
    nginx, desks = branch(bank, 1200)
    page = new_page(day=DAY)
    page.waits_for("Counting the tickets:", "#all-sum")
    page.sends(7, "L7EE")
    page.refuses("is paid.")
    page.go("day")
    page.until(lambda: dollars(VALUES["L"]) in page.text("#desk-sum"), "the desk's sum", 900)
    page.until(lambda: "tickets, " in page.text("#all-sum"), "the day is counted", 900)
    assert [desk.result() for desk in desks] == [(TICKETS, 0)] * 3
    paid = [entry["status"] for entry in nginx.log() if entry["route"] == "/redeem"]
    assert busy(nginx) == 0 and paid == ["200"] * (1 + 3 * 4)
    assert page.journal()["tally"]["through"] >= TICKETS
    asked = len(bank.gate.heads)
    page.reload()
    page.go("day")
    page.until(lambda: "tickets, " in page.text("#all-sum"), "the day is counted")
    assert len(bank.gate.heads) - asked < 40, "what was counted isn't asked for again"


def test_a_limit_by_address_is_found(bank: Bank) -> None:
    """Control: with a limit by address alone, three of the desks are answered 429."""
    by_address = {"limit_req_zone $staff": "limit_req_zone $binary_remote_addr"}
    nginx, desks = branch(bank, 45, by_address)
    assert sum(desk.result()[1] for desk in desks) > 0 < busy(nginx)
