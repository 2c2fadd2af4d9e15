"""The page's words: all in one file, over which the bank's own lie; and dates as an American bank writes them."""

import re
import shutil
from pathlib import Path

import pytest

from tests.browser.bank import DAY, TOO_YOUNG, Bank
from tests.browser.page import Page
from tests.clients.conftest import NewPage

pytestmark = [pytest.mark.browser, pytest.mark.nginx]
#: What stands outside of brackets and is no word: serial numbers, badges, the user, the bank, log entries.
NO_WORDS = r"\b(?:[A-Z]\d+EE|P5|NE|NI|MA|nora|First Bank of Testing|Main Street|[0-9a-f]{32})\b"


def outside(text: str) -> re.Match[str] | None:
    while (shorter := re.sub("\u27e6[^\u27e6\u27e7]*\u27e7", "", text)) != text:
        text = shorter
    return re.search(r"[A-Za-z]{2,}", re.sub(NO_WORDS, "", text))


def test_words_in_one_file(bank: Bank, new_page: NewPage) -> None:
    """With each word of words.js in brackets, by bank.js alone, no word of the page stands outside of them."""
    first = (bank.teller / "words.js").read_text()
    (bank.teller / "words_first.js").write_text(first)
    alone = ('import * as bank from "./bank.js";', "const bank = {};")
    bank.change_page("words_first.js", alone, ("const OURS = ", "export const OURS = "))
    shutil.copy(Path(__file__).parent / "other_language.js", bank.teller / "bank.js")
    bank.begin([7, 9])
    bank.registers(TOO_YOUNG)
    page = new_page(None)
    page.until(lambda: page.is_shown("#start"), "the page has started")
    found: list[str] = []
    press = page.press

    def looks_and_presses(selector: str) -> None:
        found.extend(page.calls("loose"))
        press(selector)

    setattr(page, "press", looks_and_presses)
    page.type("#desk", "5")
    page.press("#start button")
    page.joins()
    page.chooses(7, "L7EE")
    page.add(9, "K9EE")
    page.ask_to_add("x", "x")
    page.ask_to_pay()
    bank.gate.faults = ["lost request"] * 3
    page.press("#confirm-yes")
    page.waits_for("no reply yet", "#progress")
    found += page.calls("loose")
    page.waits_for("neither the owner", "#notices")
    page.go("walkin")
    page.type_walk_in("D12EE", "50", "11/2010")
    page.until(lambda: page.all("#walkin-bonds li") != [], "the bond is in the list")
    page.type("#walkin-owner", "12")
    page.press("#walkin-button")
    page.asks()
    page.asked_without_doubt()
    page.press("#confirm-no")
    page.go("pay")
    page.press("#others button")
    page.pay(7)
    page.waits_for("Ticket 1", "#ticket h2")
    page.settled()
    page.ask_to_close()
    page.press("#confirm-yes")
    page.waits_for("Tickets of", "#batch")
    page.ask_to_open("2121-02-06")
    page.press("#confirm-no")
    page.go("interest")
    page.type("#interest-day", DAY)
    page.press("#ask-interest-day button")
    page.until(lambda: page.all("#interest-of table") != [], "the interest of the day")
    found += page.calls("loose")
    assert sorted({text.strip() for text in found if outside(text)}) == [] and len(found) > 300
    assert page.run("return document.documentElement.lang") == "xx"
    assert page.calls("unknown") == [], "the page knows each of the bank's words"


def test_a_loose_word_is_found() -> None:
    """Control: a word outside of the brackets."""
    assert outside("\u27e6Pay\u27e7 more") and not outside("\u27e6Pay\u27e7 7 K7EE")


def test_words_of_bank(bank: Bank, new_page: NewPage) -> None:
    """The bank's own words lie over the page's. A word that the page doesn't have changes nothing, and is named. A file of release 1.0.0 has no words, and serves as it is."""
    own = dict[str, object](FORMATS={"months": ["x"]}, SHEET={"notes": {"XX": "x"}})
    own |= dict[str, object](PAY={"paid": "x"}, OTHER={"pay": "x"}, NOTICES="x")
    bank.write_own(own | {"TEXTS": {"pays": "x", "name": "Bond window"}})
    page = new_page()
    assert page.text(".name") == "Bond window"
    assert page.text("nav a[href='#pay']") == "Pay", "the page's own beside it"
    named = page.calls("unknown")
    wanted = "TEXTS.pays PAY.paid FORMATS.months SHEET.notes.XX OTHER NOTICES".split()
    assert sorted(named) == sorted(f"WORDS.{name}" for name in wanted)
    if page.name == "chromium":
        told = page.complaints()
        assert all(any(name in line for line in told) for name in named), "in the console too"
    bank.write_own(None)
    page.reload()
    page.waits_for("Desk 5,", "#state")
    assert page.text(".name") == "Savings bond counter"
    assert page.calls("unknown") == []


MONTHS = "January|February|March|April|May|June|July|August|September|October|November|December"
DAY_FIRST = rf"\b\d{{1,2}} (?:{MONTHS})\b"


def test_dates(page: Page) -> None:
    """No day stands before its month, on the page and on its paper; and the desk can't be read with the day as one number."""
    assert page.text("#state") == "Desk 5, February 6, 2012"
    page.pays(1, 7, "L7EE")
    texts = []
    for view in ("day", "pay", "tickets", "batches"):
        page.go(view)
        page.sleep(1)
        texts.append(page.run("return document.body.textContent"))
    texts.append(page.ask_to_close())
    assert sum("February 6, 2012" in text for text in texts) >= 3
    assert [re.findall(DAY_FIRST, text) for text in texts] == [[]] * 5
    assert re.search(DAY_FIRST, "Desk 5. 6 February 2012"), "control: such a date is found"
