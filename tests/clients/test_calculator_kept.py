"""What the calculator keeps in the browser: nothing without the box, nothing written before what is there was read, two tabs, 50,000 bonds."""

import datetime
import json
from typing import Any

from tests.clients.calculator import NEEDS, Calculator, Changes, script, variants
from tests.clients.calculator_data import INVENTORY
from tests.clients.test_calculator_uses import add_pasted, put

pytestmark = NEEDS
#: A 50-dollar bond at 3.40 % is worth 50.14 at 241 months, by hand.
BY_HAND = b"from,rate,extension\n2010-05,3.40,\n"
EARLIER = {
    "inventory": f"{INVENTORY.decode()}C7EE,50,2010-05,7,\n",
    "rates": BY_HAND.decode(),
    "month": "2030-06",
}


@variants(kept_all_the_same=script("store.delete(RECORD)", "store.get(RECORD)"))
def test_kept(calc: Calculator, changes: Changes) -> None:
    with calc.serving(changes):
        assert calc.record() is None and calc.run("return localStorage.length") == 0
        for is_asked in (False, True):
            calc.open_rates(BY_HAND, alone=False)
            calc.adds("C1EE")
            calc.choose_month("2030-06")
            if is_asked:
                calc.tick()
            calc.again()
            assert len(calc.rows()) == int(is_asked) and calc.is_ticked() == is_asked
        today = datetime.date.today()
        assert calc.value("#month") == f"{today:%m/%Y}", "the month of today"
        calc.choose_month("2030-06")
        assert calc.rows()[0][9] == "50.14"
        calc.adds("C2EE")
        calc.is_written()
        calc.again()
        assert calc.serials() == ["C1EE", "C2EE"]
        calc.keeps_nothing()
        assert len(calc.rows()) == 2
        calc.again()
        assert calc.rows() == []


UNREADABLE = "stop(TEXTS.kept_unreadable(failure.message))"
OVER_IT = "is_on = true, base = { ...base, version: record.version }, tellFault(TEXTS.kept_unreadable(failure.message))"


@variants(kept_over_it=script(UNREADABLE, OVER_IT))
def test_unreadable(calc: Calculator, changes: Changes) -> None:
    """What an earlier visit kept and can't be read: the page says so, leaves it, saves it as a file, and replaces it only after a question."""
    calc.serve(changes)
    whole: dict[str, Any] = {**EARLIER, "version": "1"}
    wrong_bond = f"{INVENTORY.decode()}C7EE,60,2010-05,7,\n"
    records: list[dict[str, Any]] = [{"version": "1", "month": 3}]
    records += [{**whole, "inventory": wrong_bond}]
    records += [{**whole, "rates": "from,rate,extension\n2011-05,3.40,\n"}]
    with calc.holds_not(changes):
        for record in records:
            calc.put(record)
            calc.again()
            assert "can't read what an earlier visit kept" in calc.told()
            calc.adds("C1EE")
            calc.calls("filter")
            assert not calc.is_ticked() and calc.record() == record
            saved = calc.saved("kept.txt", "#keep-save")
            assert saved.startswith(str(record.get("inventory", "undefined")))
            calc.run("window.confirm = () => false")
            calc.click("#keep")
            calc.until(lambda: not calc.is_ticked(), "the box is unticked again")
            assert calc.record() == record
            calc.run("window.confirm = () => true")
            calc.tick()
            assert calc.kept_serials() == ["C1EE"]


@variants(forgotten=script("return found ?? earlierRecord();", "return found;"))
def test_earlier_version(calc: Calculator, changes: Changes) -> None:
    """What an earlier version of the page kept in localStorage is taken over once it is written elsewhere; a text that can't be read is left."""
    calc.serve(changes)
    put = "localStorage.setItem('savings-bond-calculator', arguments[0])"
    with calc.holds_not(changes):
        calc.run(put, "{ no JSON")
        calc.again()
        calc.adds("C1EE")
        calc.calls("filter")
        assert not calc.is_ticked() and calc.record() is None
        got = "return localStorage.getItem('savings-bond-calculator')"
        assert calc.run(got) == "{ no JSON"
        calc.run(put, json.dumps(EARLIER))
        calc.again()
        calc.choose_month("2030-06")
        assert [(row[0], row[9]) for row in calc.rows()] == [("C7EE", "50.14")]
        calc.is_written()
        assert calc.kept_serials() == ["C7EE"] and calc.run("return localStorage.length") == 0


@variants(written_whatever_is_there=script("found?.version !== version", "false"))
def test_two_tabs(calc: Calculator, changes: Changes) -> None:
    """Each has what the other added, also if both wrote at once; what differs is left and said."""
    url = calc.serve(changes)
    with calc.holds_not(changes):
        calc.adds("C1EE")
        calc.tick()
        first = calc.new_tab()
        second = calc.driver.current_window_handle
        calc.visit(url)
        assert calc.serials() == ["C1EE"]
        calc.adds("C2EE", "C3EE")
        calc.is_written()
        calc.driver.switch_to.window(first)
        calc.calls("filter")
        calc.is_written()
        assert calc.kept_serials() == ["C1EE", "C2EE", "C3EE"]
        calc.until(lambda: len(calc.rows()) == 3, "the first tab has the bonds of the second")
        both_at_once(calc, first, second)
        differing(calc, first, second)


def both_at_once(calc: Calculator, first: str, second: str) -> None:
    wanted = ["C1EE", "C3EE", "C4EE", "C5EE"]
    for tab, serial in ((first, "C4EE"), (second, "C5EE")):
        calc.driver.switch_to.window(tab)
        calc.calls("hold_databases")
        calc.adds(serial)
    calc.open_bond("C2EE")
    calc.click("#bond-remove")
    for tab in (first, second):
        calc.driver.switch_to.window(tab)
        calc.calls("let_go")
        calc.is_written()
    for tab in (first, second):
        calc.driver.switch_to.window(tab)
        calc.until(lambda: calc.serials() == wanted, "both tabs have the bonds of both")
    assert calc.kept_serials() == wanted


def differing(calc: Calculator, first: str, second: str) -> None:
    calc.driver.switch_to.window(first)
    found = calc.record() or {}
    more = f"{found['inventory']}C6EE,75,2010-05,7,\n"
    calc.put({**found, "version": "other", "inventory": more})
    calc.adds("C6EE")
    calc.is_told("Another tab of this page kept other bonds or rates")
    assert not calc.is_ticked() and "C6EE,75" in calc.inventory() and len(calc.rows()) == 5
    calc.run("new BroadcastChannel('savings-bond-calculator').postMessage('other')")
    calc.driver.switch_to.window(second)
    has = lambda: ["C6EE", "75"] in [[row[0], row[2]] for row in calc.rows()]
    calc.until(has, "the second tab has what was kept")
    calc.keeps_nothing()
    assert len(calc.rows()) == 5


@variants(no_more_than_a_file=script("), Infinity))", ")))"))
def test_many(calc: Calculator, changes: Changes) -> None:
    calc.serve(changes)
    calc.calls("many_pasted")
    is_read = lambda: "Add these 50,000" in calc.texts("#paste-add")[0]
    calc.until(is_read, "50,000 bonds are understood", 120)
    calc.run("document.querySelector('#paste-form').requestSubmit()")
    calc.until(lambda: "50,000 bonds added" in calc.told(), "50,000 bonds are added", 120)
    calc.tick()
    with calc.holds_not(changes):
        calc.again()
        has = lambda: "50,000 bonds" in calc.texts("#total-name")[0]
        calc.until(has, "50,000 bonds are there again", None if changes else 120)
        assert "50,000 bonds, kept by an earlier visit" in calc.told() and calc.is_ticked()
        assert "copy its text and paste it" in calc.texts("#save-help")[0]
        text = calc.inventory()
        assert text.count("\n") == 50_001 and len(text) > 1_048_576
        assert text.endswith("C50000EE,50,2010-05,1,\n")


@variants(removed_instead=script("stop(TEXTS.keep_failed)", "replaceRecord(base.version, null)"))
def test_full(calc: Calculator, changes: Changes) -> None:
    """A write that the browser refuses is said, and leaves what was kept before."""
    calc.serve(changes)
    calc.adds("C1EE")
    calc.tick()
    full = "throw new DOMException('full', 'QuotaExceededError');"
    calc.run(f"IDBObjectStore.prototype.put = function () {{ {full} }};")
    calc.adds("C2EE")
    with calc.holds_not(changes):
        calc.is_told("This browser refuses to keep the inventory")
        assert not calc.is_ticked() and calc.kept_serials() == ["C1EE"] and len(calc.rows()) == 2
        calc.again()
        assert calc.serials() == ["C1EE"]


ASKED = "return !window.dispatchEvent(new Event('beforeunload', { cancelable: true }))"
STOP = "stop(TEXTS.keep_ended)"


@variants(forgotten_version=script(f"base = {{ ...base, version: void 0 }};\n    {STOP}", STOP))
def test_kept_again_in_two_tabs(calc: Calculator, changes: Changes) -> None:
    url = calc.serve(changes)
    with calc.holds_not(changes):
        calc.adds("L1EE")
        calc.tick()
        first = calc.new_tab()
        calc.visit(url)
        assert calc.serials() == ["L1EE"]
        calc.keeps_nothing()
        calc.driver.switch_to.window(first)
        calc.until(lambda: not calc.is_said(), "the other tab says that nothing is kept")
        calc.tick()
        assert calc.kept_serials() == ["L1EE"]
        calc.again()
        assert calc.serials() == ["L1EE"]


@variants(never_looked=script("!await hasRecord()", "false"))
def test_cleared_data(calc: Calculator, changes: Changes) -> None:
    """The browser's data is cleared: the page says that nothing is kept, asks as it is closed, and can keep again."""
    calc.serve(changes)
    put(calc, "L1EE 50 2010-05")
    add_pasted(calc)
    calc.tick()
    assert not calc.run(ASKED)
    with calc.holds_not(changes):
        for wakes in ("dispatchEvent(new Event('focus'))", ""):
            assert calc.calls("clear") is True
            calc.run(wakes)
            calc.until(lambda: not calc.is_said(), "the page sees that nothing is kept", 15)
            assert "the browser's data was cleared" in calc.told() and calc.run(ASKED)
            calc.tick()
            assert calc.record() is not None and not calc.run(ASKED)
        calc.again()
        assert calc.serials() == ["L1EE"]
