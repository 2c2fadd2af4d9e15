"""A bank and its page for tellers in a browser; a desk of the Python client, and the counter itself."""

from __future__ import annotations

from pathlib import Path
from typing import TYPE_CHECKING, Any, Callable, Iterator

import pytest

from ee_counter_client.testing import FakeCounter, Gate
from tests.browser.bank import DAY, Bank
from tests.clients.desk import Desk, TrueCounter

if TYPE_CHECKING:
    from tests.browser.page import Page
    from tests.clients.calculator import Calculator


@pytest.fixture
def bank(program: Path, folder: Path) -> Iterator[Bank]:
    made = Bank(program, folder)
    yield made
    made.end()


@pytest.fixture(params=["chromium", pytest.param("firefox", marks=pytest.mark.slow)])
def browser(request: pytest.FixtureRequest) -> str:
    return str(request.param)


NewPage = Callable[..., "Page"]
Calculators = Callable[[str], "Calculator"]


@pytest.fixture
def new_page(bank: Bank, browser: str) -> Iterator[NewPage]:
    """Starts a browser on the page, or at another address: at a desk, if it isn't None, that has joined a day, if one is named. It ends with the test. The same `profile` again is a browser that was there before."""
    from tests.browser.page import Page

    made: list[Page] = []

    def make(desk: int | None = 5, day: str | None = None, *, url: str = "", **own: Any) -> Page:
        page = Page(browser, url or bank.url, bank.folder, certificate=bank.certificate, **own)
        made.append(page)
        if desk is not None:
            page.choose_desk(desk)
        if day is not None:
            page.joins(day)
        return page

    yield make
    for page in made:
        page.close()


@pytest.fixture
def page(bank: Bank, new_page: NewPage) -> Page:
    """The page at a desk that has joined February 6, 2012. Customers 7, 9 and 11 have three bonds each."""
    bank.begin()
    return new_page(day=DAY)


@pytest.fixture
def desk(folder: Path) -> Iterator[Desk]:
    with FakeCounter() as fake, Gate(fake) as gate:
        yield Desk(folder, fake, gate)


@pytest.fixture
def true(program: Path, folder: Path) -> Iterator[TrueCounter]:
    made = TrueCounter(program, folder)
    yield made
    made.end()


@pytest.fixture(scope="module")
def calculators(tmp_path_factory: pytest.TempPathFactory) -> Iterator[Calculators]:
    """One browser of each name, which the tests of a file share."""
    from tests.clients.calculator import Calculator

    made: dict[str, Calculator] = {}

    def of(name: str) -> Calculator:
        if name not in made:
            made[name] = Calculator(name, tmp_path_factory.mktemp(name))
        return made[name]

    yield of
    for one in made.values():
        one.close()


@pytest.fixture
def calc(calculators: Calculators, browser: str, folder: Path) -> Iterator[Calculator]:
    """A browser for the calculator's page. Each page that a test serves has an address, and so a storage, of its own."""
    one = calculators(browser)
    one.begins(folder)
    yield one
    one.ends()
