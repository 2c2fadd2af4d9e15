"""The page for tellers, as a teller works it."""

import time
from typing import Any, Callable

from selenium.webdriver.common.action_chains import ActionChains

from tests.browser.browser import SCRIPTS, Browser, Keys

#: Dollars of the bonds of `bank.bonds_of` in February 2012, by the published rates, in cents.
VALUES = {"L": 2516, "K": 3807, "M": 502400}
DOUBT = "Do these bonds agree with the paper?"
#: What is in the title of a question about what may be wrong.
DOUBTS = (DOUBT, " the right day?", " right?")
#: What a reply that came late or twice adds.
EARLIER = "The connection was interrupted."


def dollars(cents: int) -> str:
    return f"${cents // 100:,}.{cents % 100:02}"


class Page(Browser):
    #: The bonds of the last question, as `bonds_asked` has them.
    asked: list[list[str]]

    # ---- what it keeps

    def journal(self) -> dict[str, Any]:
        return dict(self.calls("journal"))

    def write_journal(self, change: str) -> None:
        """Changes the journal behind the page's back, by a function in JavaScript."""
        self.run(f"{SCRIPTS['write_journal']}\nreturn write_journal({change});")

    def settled(self) -> None:
        """Nothing is open, and no step is shown."""
        self.until(lambda: self.journal().get("open") is None, "the request is settled")
        is_shown = lambda: self.find("#progress").get_attribute("class") == ""
        self.until(is_shown, "no step of the request is shown")

    def hears(self, words: str) -> None:
        is_so = lambda: words in str(self.find("#live").get_attribute("textContent"))
        self.until(is_so, f"a screen reader hears: {words}")

    def refuses(self, *words: str) -> str:
        """What the notices say, once they say these words and no request is open."""
        for one in words:
            self.waits_for(one, "#notices")
        self.settled()
        return self.text("#notices")

    def has_said(self, words: str) -> None:
        """Since `watch_steps`."""
        steps = "return window.steps.some((step) => step.includes(arguments[0]))"
        self.until(lambda: self.run(steps, words), f"the page says: {words}")

    # ---- views

    def answered(self, holds: Callable[[], Any], what: str, again: str, patience: float) -> None:
        """Presses that button again if a look-up wasn't answered: the page gives up after some seconds, and a counter that was killed may take longer to come back."""

        def is_so() -> Any:
            if "The counter didn't answer" in self.text("#notices"):
                self.press("#notices .close")
                self.press(again)
            return holds()

        self.until(is_so, what, patience)

    def choose_desk(self, desk: int) -> None:
        self.waits_for("Choose a desk")
        self.type("#desk", str(desk))
        self.press("#start button")
        self.waits_for(f"Desk {desk},", "#state")

    def go(self, view: str) -> None:
        link = f"nav a[href='#{view}']"
        self.until(lambda: self.is_shown(link), f"the page offers the view {view}")
        self.press(link)
        self.until(lambda: self.is_shown(f"#{view}"), f"the view {view}")

    # ---- the day

    def ask_to_open(self, day: str) -> str:
        self.go("day")
        self.type("#open-date", day)
        self.press("#open-day button")
        self.asks(again="#open-day button")
        return self.question()

    def open_day(self, day: str) -> None:
        """Confirms it, and once more if the page asks again."""
        self.ask_to_open(day)
        is_asked_again = self.text("#confirm-yes") == "Continue"
        self.press("#confirm-yes")
        if is_asked_again:
            again = lambda: self.text("#confirm-yes").startswith("Open the day in")
            self.until(again, "the page asks again")
            self.press("#confirm-yes")

    def join_day(self, day: str) -> None:
        self.go("day")
        self.type("#join-date", day)
        self.press("#join-day button")

    def joins(self, day: str = "2012-02-06", desk: int | None = None) -> None:
        """At a desk, if one is to be chosen, until the day is joined. The page asks about one of another month than the server's."""
        if desk is not None:
            self.choose_desk(desk)
        self.join_day(day)
        joined = "This desk joined"
        is_found = lambda: self.is_shown("#confirm") or joined in self.text("#notices")
        self.until(is_found, "the day is found")
        if self.is_shown("#confirm"):
            self.press("#confirm-yes")
        self.waits_for(joined)

    def ask_to_close(self, patience: float = 60) -> str:
        self.go("day")
        self.press("#close-day button")
        self.asks("#close-day button", patience)
        return self.question()

    def close_day(self, patience: float = 60) -> None:
        self.ask_to_close(patience)
        self.press("#confirm-yes")

    def closes(self, words: str = "Batch of February 6, 2012") -> None:
        self.close_day()
        self.waits_for(words, "#batch h2")
        self.settled()

    # ---- payments

    def show_sheet_begun(self, customer: int, month: str | None = None) -> None:
        self.go("pay")
        if self.is_shown("#folded"):
            self.press("#change")
        self.type("#customer", str(customer))
        if month is not None:
            self.type("#month", month)
        self.press("#ask-sheet button")

    def show_sheet(self, customer: int, month: str | None = None) -> None:
        self.go("pay")
        mark = "(one) => one.classList.add('earlier')"
        self.run(f"document.querySelectorAll('#sheet > *').forEach({mark})")
        self.show_sheet_begun(customer, month)

        def is_new() -> bool:
            texts = self.text("#folded") + self.text("#sheet")
            return not self.all("#sheet .earlier") and f"ustomer {customer} " in texts

        self.answered(is_new, "the sheet", "#ask-sheet button", 60)

    def caption(self) -> str:
        """Whose sheet is shown, and of which month."""
        return str(self.run("return document.querySelector('.sheet').caption.textContent"))

    def shows_sum(self, count: int, cents: int, month: str = "February 2012") -> None:
        """The sum beside Pay, and of how many bonds it is."""
        self.waits_for(f"{count} bond{'s' if count > 1 else ''}, valued in {month}", "#chosen")
        self.waits_for(dollars(cents), "#sum")

    def choose(self, *serials: str) -> None:
        for serial in serials:
            self.press(f"input[data-serial='{serial}']")

    def box(self, serial: str) -> Any:
        return self.find(f"input[data-serial='{serial}']")

    def ask_to_add(self, owner: int | str, serial: str) -> None:
        self.type("#serial", serial)
        self.type("#owner", str(owner))
        self.press("#add-bond button")

    def add(self, owner: int, serial: str) -> None:
        self.ask_to_add(owner, serial)
        self.until(lambda: self.value("#serial") == "", f"{serial} is added")

    def ask_to_pay(self, payee: int | None = None) -> str:
        if payee is not None:
            self.type("#payee", str(payee))
        self.press("#pay-button")
        return self.asked_without_doubt()

    def pay(self, payee: int | None = None) -> str:
        question = self.ask_to_pay(payee)
        self.asked = self.calls("bonds_asked")
        self.press("#confirm-yes")
        return question

    def is_paid(self, ticket: int, *cents: int) -> None:
        """The ticket is shown, with its sum, and nothing is open."""
        self.waits_for(f"Ticket {ticket}", "#ticket h2")
        self.waits_for(dollars(sum(cents)), "#ticket tfoot")
        self.settled()

    def chooses(self, owner: int, *serials: str) -> None:
        self.show_sheet(owner)
        self.choose(*serials)

    def sends(self, owner: int, *serials: str, payee: int | None = None) -> str:
        """Pays bonds of a sheet, up to the sending; the texts of the question."""
        self.chooses(owner, *serials)
        return self.pay(payee)

    def pays(self, ticket: int, owner: int, *serials: str, payee: int | None = None) -> None:
        self.sends(owner, *serials, payee=payee)
        self.is_paid(ticket, *(VALUES[serial[0]] for serial in serials))

    def look_up(self, ticket: int) -> None:
        self.go("tickets")
        self.type("#ticket-number", str(ticket))
        self.press("#ask-ticket button")

    # ---- scans

    def scan(self, *texts: str) -> None:
        """As a scanner types, wherever the keyboard is: each text at once, with Enter."""
        for text in texts:
            self.keys(text + Keys.ENTER)

    def scan_in_steps(self, text: str) -> None:
        """As a scanner of a letter in 20 ms types, so that the browser paints between."""
        chain = ActionChains(self.driver)
        for letter in (*text, Keys.ENTER):
            chain = chain.send_keys(letter).pause(0.02)
        chain.perform()

    def beeps(self) -> int:
        """How many tones were begun since `watch_beeps`."""
        return int(self.run("return window.beeps"))

    # ---- walk-ins

    def type_walk_in(self, serial: str, denom: str, issued: str) -> None:
        for name, text in (("serial", serial), ("denom", denom), ("issued", issued)):
            self.type(f"#walkin-{name}", text)
        self.press("#add-walkin button:not([type])")

    def add_walk_in(self, serial: str, denom: str, issued: str = "11/2010") -> None:
        self.type_walk_in(serial, denom, issued)
        self.until(lambda: self.value("#walkin-serial") == "", f"{serial} is in the list")

    # ---- questions

    def asks(self, again: str | None = None, patience: float = 60) -> None:
        if again is None:
            self.until(lambda: self.is_shown("#confirm"), "the page asks once more", patience)
        else:
            self.answered(lambda: self.is_shown("#confirm"), "the page asks", again, patience)

    def has_rested(self) -> None:
        """The button that confirms rested for a second since `watch_rests`, and the keyboard is on Back."""
        self.until(lambda: len(self.run("return window.rests")) == 2, "the button has rested")
        (begins, first), (ends, last) = self.run("return window.rests")
        assert (begins, ends) == (True, False) and last - first > 900
        assert self.focused() == "confirm-no"

    def question(self) -> str:
        return f"{self.text('#confirm-title')}\n{self.text('#confirm-text')}"

    def asked_without_doubt(self) -> str:
        """The texts of the page's question. Before it the page asks about letters that don't fit the denomination, as many here, about issue months, the open day and large sums."""
        self.asks()
        while any(words in (title := self.text("#confirm-title")) for words in DOUBTS):
            self.press("#confirm-yes")
            again = lambda: self.is_shown("#confirm") and self.text("#confirm-title") != title
            self.until(again, "the page asks again")
        return self.question()

    def sleep(self, seconds: float) -> None:
        time.sleep(seconds)
