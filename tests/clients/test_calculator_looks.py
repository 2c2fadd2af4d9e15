"""How the calculator looks and reads: 320 pixels, 200 % zoom, paper, names and contrast, and a bond's dialog."""

import datetime
import random
import time
from typing import Any

import pytest
from selenium.webdriver.common.keys import Keys

from tests.browser.engines import Chromium, said
from tests.clients.calculator import NEEDS, SIZE, Calculator, Changes, script, variants
from tests.clients.calculator_data import INVENTORY, KNOWN, inventory_file, random_bonds
from tests.clients.test_calculator_uses import put
from tests.conftest import TOP

pytestmark = NEEDS
#: Paper bonds, of which `.ci/pictures` has pictures too.
FILE = (TOP / "tests/clients/pictured.csv").read_bytes()
DETAILS = "for (const one of document.querySelectorAll('details')) one.open = true"
LONG = "Serial\tDenom\tIssued\tOwner\tCoowner\nW9999999999EE\t10000\tSeptember 2010\t999999999\t999999998\nC1EE\t50\t5/2010\t7\t\n"
SHORT = "W9999999999EE\t10000\tSeptember 2010\nC1EE\t50\t5/2010\n"


def fits(calc: Calculator) -> None:
    """Nothing goes over the edge, no cell is cut, no word and no sum is broken."""
    assert calc.calls("broken") == []
    assert calc.calls("over") == [False, []]
    assert calc.calls("cut") == []


def widest(calc: Calculator) -> None:
    """Bonds with the longest texts that a row can have: 1522468.00 at 20 %, and a serial number of 13 characters."""
    calc.remove_all()
    calc.open_rates(b"from,rate\n2005-05,20.00\n")
    longest = b"W9999999999EE,10000,2005-05,7,8\nM8888888888EE,10000,2005-06,7,\n"
    calc.open_inventory(INVENTORY + longest)
    calc.choose_month("2035-05")


WIDE = ("style.css", "max-width: 84rem;", "min-width: 30rem;")
CARDS = (
    ("style.css", "auto-fill, minmax(7.6rem, 1fr)", "auto-fill, minmax(1.8rem, 1fr)"),
    ("style.css", "  min-width: 0;\n", "  min-width: 0;\n  overflow-wrap: anywhere;\n"),
)


@variants(thirty_letters_wide=WIDE, cards_that_break_words=CARDS)
def test_narrow(calc: Calculator, changes: Changes) -> None:
    """At 320 pixels, at 200 % zoom of 1280, and with letters of twice the size; long faults and the longest rows too."""
    calc.serve(changes)
    calc.open_inventory(FILE)
    calc.choose_month("2012-02")
    with calc.holds_not(changes):
        for width in (320, 360, 640):
            calc.resize(width, 800)
            calc.run(DETAILS)
            for text in (LONG, SHORT):
                put(calc, text)
                fits(calc)
            put(calc, "")
            assert calc.calls("small") == [] and calc.calls("value_first")
            calc.open_inventory(INVENTORY + b"x" * 200 + b",50,2010-05,7,\n")
            fits(calc)
        widest(calc)
        for width in (320, 480, 700, 1000, 1060, 1110, 1280):
            calc.resize(width, 900)
            for column in ("series", "denom", "value"):
                calc.click(f"#table [data-column='{column}']")
                fits(calc)
        calc.run("document.documentElement.style.fontSize = '200%'")
        fits(calc)


PARTS = "dialog[open], dialog h2, dialog h3, dialog dt, dialog table, dialog th, dialog svg, dialog button"
#: Of bond L77031EE in February 2012, with the chart's table open: what a screen reader is given, by role and name.
AGES = ["Interest is next added", "The penalty ends, 5 years old"]
AGES += ["It is worth twice its price at least, 20 years old", "Final maturity, 30 years old"]
CHART = "The value of bond L77031EE from $25.00 in November 2010 to $53.20 in November 2040. The table has every year."
GIVEN = [
    *(("dialog", "Bond L77031EE"), ("heading", "Bond L77031EE")),
    *(("term", name) for name in ("Bond", "Value", "Rate", "Owner")),
    *(("heading", "What it will be worth"), ("table", "What it will be worth")),
    *(("columnheader", name) for name in ("When", "Month", "Value")),
    *(("rowheader", name) for name in AGES),
    *(("heading", "Its value over 30 years"), ("image", CHART), ("table", "Bond L77031EE")),
    *(("columnheader", name) for name in ("Month", "Value")),
    *(("rowheader", f"November {year}") for year in range(2010, 2041)),
    *(("button", "Close"), ("button", "Remove this bond")),
]
CHARTED = "return document.querySelector('#bond-figure svg') !== null"


def whole_dialog(calc: Calculator, serial: str) -> None:
    """It opens at its title, and nothing is cut or broken; Tab reaches what it has, and shows it."""
    calc.open_bond(serial)
    calc.until(lambda: calc.run(CHARTED), "the chart")
    assert calc.run("return document.querySelector('#bond').scrollTop") == 0
    assert calc.has_keyboard("#bond-title")
    fits(calc)
    calc.run("document.querySelector('#bond details').open = true")
    fits(calc)
    for _ in range(3):
        calc.keys(Keys.TAB)
        assert not calc.calls("outside")
    assert calc.has_keyboard("#bond-remove")
    calc.keys(Keys.ESCAPE)
    focused = "return document.activeElement.textContent"
    calc.until(lambda: calc.run(focused) == serial, "Escape gives the keyboard back")


@variants(
    opened_at_its_last_button=("index.html", ' tabindex="-1" autofocus', ""),
    table_without_a_name=script('"aria-labelledby": "ahead-title"', '"data-name": "ahead-title"'),
    words_and_sums_broken=(
        ("style.css", "  overflow-wrap: normal;", ""),
        ("style.css", "dialog .small td:last-child {", ".none {"),
    ),
)
def test_dialogs(calc: Calculator, changes: Changes) -> None:
    """In windows from 1440 to 320 pixels; a screen reader is given each part by role and name, and the dialog alone."""
    with calc.serving(changes):
        for width, height in ((1440, 900), (1024, 768), (768, 1024), (360, 640), (320, 568)):
            calc.resize(width, height)
            calc.remove_all()
            calc.click("#shipped")
            calc.open_inventory(FILE + b"C12EE,50,2012-04,7,\n")
            calc.choose_month("2012-02")
            for serial in ("L77031EE", "C12EE", "K20488EE"):
                whole_dialog(calc, serial)
            calc.open_bond("L77031EE")
            shown = [one for one in calc.all(PARTS) if one.is_displayed()]
            assert [(one.aria_role, one.accessible_name) for one in shown] == GIVEN
            found = calc.engine.dialog()
            if found is not None:
                assert found[2] and found[4] == ["Close", "Remove this bond"], "modal, and alone"
            calc.run("document.querySelector('#bond').close()")
            widest(calc)
            whole_dialog(calc, "W9999999999EE")


NOT_PRINTED = ["Add a list of bonds", "The value of a bond", "Save the inventory", "Open rates"]
NOT_PRINTED += ["Filter", "Choose"]


@pytest.mark.needs("pdftotext")
@variants(without_rules_for_paper=("style.css", "@media print", "@media speech"))
def test_paper(calc: Calculator, changes: Changes) -> None:
    """Sums, all rows under headings on each page; no field and no button."""
    calc.serve(changes)
    bonds = random_bonds(random.Random(4), 150, months=KNOWN)
    calc.open_inventory(inventory_file(bonds))
    calc.choose_month("2030-06")
    time.sleep(1)
    with calc.holds_not(changes):
        pages = calc.printed(colored=True)
        text = "\n".join(pages)
        assert [bond[0] for bond in bonds if bond[0] not in text] == []
        value = f"${float(calc.total()[9]):,.2f}"
        assert all(words in text for words in (value, "Value of the inventory", "What is proved"))
        assert [words for words in NOT_PRINTED if words in text] == []
        with_rows = [one for one in pages if any(bond[0] in one for bond in bonds)]
        assert all("Denom" in one and "Final" in one for one in with_rows)


TOTAL_ALONE = (
    ("style.css", "#curve,\n  #about {\n    break-inside", "#curve {\n    break-inside"),
    script("this.foot.prepend(last)", "last"),
)


@pytest.mark.needs("pdftotext")
@variants(total_alone=TOTAL_ALONE)
def test_last_pages(calc: Calculator, changes: Changes) -> None:
    """Of inventories of different lengths no page begins with the total or has less than four lines, and the first one has the date."""
    calc.serve(changes)
    today = datetime.date.today()
    with calc.holds_not(changes):
        for count in (1, 5, 11, 20, *range(27, 33)):
            calc.remove_all()
            lines = "".join(f"C{place + 1}EE,50,2010-05,7,\n" for place in range(count))
            calc.open_inventory(INVENTORY + lines.encode())
            calc.choose_month("2026-11")
            time.sleep(0.5)
            pages = [
                [line for line in text.splitlines() if line.strip()]
                for text in calc.printed(colored=True)
            ]
            assert f"Printed {today:%B} {today.day}, {today.year}" in pages[0][2]
            for printed in pages:
                has_total = any(line.startswith("Total") for line in printed)
                has_bonds = any(line.startswith("C") and "EE" in line for line in printed)
                assert len(printed) > 3 and (has_bonds or not has_total), (count, printed[:4])
            assert len(calc.rows()) == count, "the table has its rows again"


WANTED = [[0] * 6, 1, 0, ["told-text", "one-told"], "en"]


def reads_well(calc: Calculator) -> None:
    """Each field, button and drawing has a name, headings are in order, there are two live regions, and each text has a contrast of 4.5 to 1."""
    assert calc.calls("names") == WANTED
    count, poor = calc.calls("poor")
    assert count > 50 and poor == []


def test_reading(calc: Calculator) -> None:
    """On a dark ground too, and in Chromium what a screen reader is given: the bonds and the chart's values as tables."""
    calc.serve()
    calc.open_inventory(FILE)
    calc.choose_month("2012-02")
    calc.until(lambda: calc.all("#curve-figure svg") != [], "the chart")
    calc.run(DETAILS)
    reads_well(calc)
    calc.open_inventory(b"x\n")
    reads_well(calc)
    calc.open_bond("L77031EE")
    reads_well(calc)
    calc.run("document.querySelector('#bond').close()")
    if isinstance(calc.engine, Chromium):
        screen_reader(calc, calc.engine)
    calc.engine.dark(True)
    reads_well(calc)
    calc.engine.dark(False)
    calc.run("document.querySelector('#told-text').style.color = '#999999'")
    assert calc.calls("poor")[1] != [], "control: a pale text"
    calc.run("document.querySelector('label[for=serial]').remove()")
    assert calc.calls("names") != WANTED, "control: a field without a label"


def roles_of(engine: Chromium) -> list[Any]:
    return [said(node)[0] for node in engine.tree().values() if not node["ignored"]]


def screen_reader(calc: Calculator, engine: Chromium) -> None:
    roles, bonds = roles_of(engine), FILE.count(b"\n") - 1
    assert roles.count("columnheader") >= 11 + 2 and roles.count("table") >= 2
    assert roles.count("rowheader") >= bonds + 1 + 31
    assert {"banner", "main", "region"} <= set(roles) and {"image", "img"} & set(roles)
    calc.resize(320, 800)
    calc.run("scrollTo(0, 0)")
    assert roles_of(engine).count("rowheader") >= bonds + 1, "rows in a narrow window too"
    calc.resize(*SIZE)
