"""How the calculator is used: typing and pasting, sorting and filtering, what a bond will be worth, offline, by the keyboard alone, and nothing asked of elsewhere."""

import csv
import datetime
import itertools
import random
import tomllib
from typing import Any, Callable

import pytest
from selenium.webdriver.common.keys import Keys

from tests.browser.bank import released_in
from tests.clients.calculator import NEEDS, Calculator, Changes, Site, script, variants
from tests.clients.calculator_data import INVENTORY, KNOWN, PUBLISHED, inventory_file, random_bonds
from tests.clients.calculator_data import random_rates, rates_file
from tests.clients.calculator_lists import LETTERS
from tests.conftest import TOP

pytestmark = NEEDS
#: A 50-dollar bond at 3.40 % is worth 48.90 at 239 months, 50.00 at 240 and 50.14 at 241, by hand.
BY_HAND = b"from,rate,extension\n2010-05,3.40,\n"
TABLE = tomllib.loads((TOP / "tests/clients/pastes.toml").read_text())
LISTED = "#told-list li"


def type_bond(calc: Calculator, serial: str, denom: str, issued: str) -> None:
    empty = "for (const name of ['serial', 'issued']) document.querySelector(`#${name}`).value = ''"
    calc.run(f"{empty}; document.querySelector('#serial').focus()")
    calc.keys(*serial)
    calc.run("document.querySelector('#denom').value = arguments[0]", denom)
    calc.run("document.querySelector('#issued').focus()")
    calc.keys(*issued, Keys.ENTER)


@variants(another_denomination=script("sameBond(books.bonds.get(row.serial),", "sameBond(row,"))
def test_typing(calc: Calculator, changes: Changes) -> None:
    """Typed bonds are read by the counter's spellings; a fault takes the keyboard to its field; a bond is never there twice, and needs no serial number."""
    with calc.serving(changes):
        type_bond(calc, "C-0012-EE", "50", "05/2010")
        calc.is_told("1 bond added")
        assert [row[0] + row[3] for row in calc.rows()] == ["C12EE05/2010"]
        for serial, issued in (("C12EE", "2010-05"), ("c12ee", "5/2010"), ("C 12 EE", "May 2010")):
            type_bond(calc, serial, "50", issued)
            calc.is_told("1 bond already there")
            calc.run("document.querySelector('#told-text').textContent = ''")
        for serial, denom, issued, wanted, field in TABLE["mistyped"]:
            type_bond(calc, serial, denom, issued)
            calc.is_told(wanted)
            if field:
                assert calc.has_keyboard(f"#{field}[aria-invalid=true]")
        assert len(calc.rows()) == 1
        for count in (1, 2):
            type_bond(calc, "", "50", "2010-05")
            calc.is_told(f"1 bond added. {count + 1} in all")
        assert calc.serials() == ["C12EE", "#1", "#2"]
        saved = calc.saved("inventory.csv", "#save-inventory").encode()
        assert saved.endswith(b"#1,50,2010-05,1,\n#2,50,2010-05,1,\n")
        assert "0 bonds added. 3 bonds already there" in calc.open_inventory(saved)
        added = calc.open_inventory(INVENTORY + b"#2,75,2010-05,1,\n")
        assert "1 bond added. 4 in all" in added
        wanted_rows = [("#1", "50"), ("#2", "50"), ("#3", "75")]
        assert [(row[0], row[2]) for row in calc.rows()][1:] == wanted_rows


NAMES = "Row 1 names the columns."
NOTES = "#understood-notes li"


def put(calc: Calculator, text: str) -> str:
    calc.calls("paste", text)
    return calc.told()


def preview(calc: Calculator) -> list[list[str]]:
    return [row[1:4] for row in calc.calls("cells", "#understood-rows")]


def add_pasted(calc: Calculator) -> str:
    calc.run("document.querySelector('#paste-form').requestSubmit()")
    return calc.told()


def as_shown(bonds: str) -> list[list[str]]:
    found = [bond.split() for bond in bonds.split(", ")]
    days = [datetime.date.fromisoformat(f"{month}-01") for *_, month in found]
    return [[row[0], f"${int(row[1]):,}", f"{day:%B %Y}"] for row, day in zip(found, days)]


ADDED = "{ understand(); addRows(shown.read); return undefined; }"


@variants(
    added_without_showing=script("return understand();", ADDED),
    no_cents_of_a_denomination=script(r"(?:\.0{0,2})?(?: ?USD", "(?: ?USD"),
)
def test_pasting(calc: Calculator, changes: Changes) -> None:
    """Columns of a spreadsheet, in the spellings that spreadsheets write: what the page understands is shown before it is added."""
    count = 0
    with calc.serving(changes):
        for text, bonds, said in TABLE["pasted"]:
            told, wanted = put(calc, text), as_shown(bonds)
            assert told.startswith(f"{len(wanted)} bond") and "understood" in told, text
            assert preview(calc) == wanted, text
            assert set(calc.texts(NOTES)) == {line for line in said.split("|") if line}, text
            assert len(calc.rows()) == count, "nothing is added before it is shown"
            button = "Add this bond" if len(wanted) == 1 else f"Add these {len(wanted)} bonds"
            assert calc.texts("#paste-add") == [button]
            assert add_pasted(calc).startswith(f"{len(wanted)} bond"), text
            count += len(wanted)
            shown = [[row[2], f"{row[3][3:]}-{row[3][:2]}"] for row in calc.rows()]
            assert len(shown) == count, text
            assert all(bond.split()[1:] in shown for bond in bonds.split(", ")), text
            assert calc.value("#pasted") == "" and not calc.is_shown("#understood")
        for text, fault in TABLE["faults"].items():
            told = put(calc, text)
            assert fault in told, text
            assert len(calc.rows()) == count
        calc.run("document.querySelector('#pasted').value = 'C30EE 50 2010-05'")
        assert "1 bond understood" in add_pasted(calc) and len(calc.rows()) == count
        # A CSV file that a spreadsheet wrote.
        file = b'\xef\xbb\xbf"Serial","Denomination","Issue date"\r\nM23EE,"$1,000.00 ",May-10\r\n'
        assert "1 bond understood" in calc.open_inventory(file)
        assert preview(calc) == [["M23EE", "$1,000", "May 2010"]]
        assert "read the file as a list of a spreadsheet" in calc.texts("#told-list")[0]
        assert add_pasted(calc).startswith("1 bond added") and len(calc.rows()) == count + 1


SOLD = "Paper bonds were sold until December 2011."


def bond_line(serial: str, dollars: int, issued: str = "2011-12") -> bytes:
    return f"{serial},{dollars},{issued},7,\n".encode()


def begins(dollars: int) -> str:
    return f"Serial numbers of ${dollars:,} bonds begin with {LETTERS[dollars]}."


@variants(
    letter_of_others=script('500: "D"', '500: "M"'),
    a_month_late=script("12 * 2011 + 11", "12 * 2012"),
)
def test_remarks(calc: Calculator, changes: Changes) -> None:
    """A serial number's letter, and an issue month, that no paper bond has: the page says so as it is opened, typed and pasted, and adds the bond all the same."""
    with calc.serving(changes):
        fitting = [bond_line(f"{letter}1EE", dollars) for dollars, letter in LETTERS.items()]
        assert calc.open_inventory(INVENTORY + b"".join(fitting)) == "8 bonds added. 8 in all."
        assert calc.texts(LISTED) == []
        letters = list(LETTERS.values())
        wrong = []
        for (place, dollars), step in itertools.product(enumerate(LETTERS), range(1, 8)):
            wrong.append((f"{letters[(place + step) % 8]}{100 * place + step + 1}EE", dollars))
        for part in (wrong[:20], wrong[20:40], wrong[40:]):
            lines = b"".join(bond_line(serial, dollars) for serial, dollars in part)
            told = calc.open_inventory(INVENTORY + lines)
            assert told.startswith(f"{len(part)} bonds added.")
            assert told.endswith(f"Compare {len(part)} bonds with the paper.")
            wanted = [f"Bond {serial}: {begins(dollars)}" for serial, dollars in part]
            assert calc.texts(LISTED) == wanted
        remarked_as_typed(calc, 8 + 56)
        remarked_in_lists(calc)


def remarked_as_typed(calc: Calculator, count: int) -> None:
    calc.choose_month("2026-11")
    for name, text in (("denom", "50"), ("issued", "Apr 2012"), ("serial", "c-12-ee")):
        calc.set_field(name, text)
    words = f"{begins(50)} {SOLD}"
    assert calc.texts("#one-words")[0].endswith(words) and calc.texts("#one-value")[0] != ""
    calc.run("document.querySelector('#type-form').requestSubmit()")
    wanted = f"1 bond added. {count + 1} in all. Compare 1 bond with the paper."
    assert calc.told() == wanted and calc.texts(LISTED) == [f"Bond C12EE: {words}"]
    assert calc.texts("#one-words")[0].endswith(SOLD), "the next bond has no serial number yet"
    assert "begin with" not in calc.texts("#one-words")[0]
    calc.open_bond("C12EE")
    assert calc.calls("terms", "#bond-facts")[-1] == ["To check", words]
    calc.run("document.querySelector('#bond').close()")
    calc.open_bond("L1EE")
    assert "To check" not in dict(calc.calls("terms", "#bond-facts"))
    calc.run("document.querySelector('#bond').close()")
    calc.set_field("issued", "Dec 2011")
    assert not calc.texts("#one-words")[0].endswith(SOLD)


def remarked_in_lists(calc: Calculator) -> None:
    """A pasted list has its remarks by row before it is added; of many bonds the first 20 are listed."""
    calc.remove_all()
    text = "Serial\tDenom\tIssued\nL1EE\t50\t12/2011\nL2EE\t75\t12/2011\n\t50\t1/2012\n"
    assert put(calc, text).endswith("Compare 2 bonds with the paper.")
    assert calc.texts(NOTES) == [f"Row 3: {begins(75)}", f"Row 4: {SOLD}", NAMES]
    assert add_pasted(calc) == "3 bonds added. 3 in all. Compare 2 bonds with the paper."
    assert calc.texts(LISTED) == [f"Bond L2EE: {begins(75)}", f"Bond #1: {SOLD}"]
    lines = b"".join(bond_line(f"C{place + 10}EE", 50, "2010-05") for place in range(23))
    calc.open_inventory(INVENTORY + lines)
    listed = calc.texts(LISTED)
    assert len(listed) == 21 and listed[-1] == "Compare 3 more with the paper."


def number(text: str) -> float:
    return float(text.rstrip("%") or -1)


def month(text: str) -> tuple[str, str]:
    return (text[3:], text[:2]) if text else ("", "")


#: By column: its place in a row, and what it is sorted by.
KEYS: dict[str, tuple[int, Callable[[str], Any]]] = {
    "serial": (0, lambda text: (text[0], int(text[1:-2]))),
    **{name: (at, month) for at, name in enumerate(("issued", "next", "final"), 3)},
    **{name: (at, number) for at, name in enumerate(("price", "interest", "rate", "value"), 6)},
    "denom": (2, int),
    "note": (10, str),
}


@variants(one_way_alone=script("is_falling ? -1 : 1", "is_falling ? 1 : 1"))
def test_sorting(calc: Calculator, changes: Changes) -> None:
    """By each column both ways, and by each note: the totals are those of the rows that are shown."""
    dice = random.Random(5)
    calc.serve(changes)
    bonds = random_bonds(dice, 100)
    calc.shows_only(rates_file(random_rates(dice)), inventory_file(bonds), "2030-01")
    rows = calc.rows()
    with calc.holds_not(changes):
        for column, (at, key) in KEYS.items():
            orders = ["ascending", "descending"]
            for order in reversed(orders) if column == "serial" else orders:
                calc.click(f"#table [data-column='{column}']")
                found = [key(row[at]) for row in calc.rows()]
                assert found == sorted(found, reverse=order == "descending"), (column, order)
                assert calc.all(f"#table th.{column}[aria-sort={order}]") != []
        calc.click("#table [data-column='serial']")
        for note in ("NI", "NE", "P5", "MA", "plain"):
            calc.set_field("note", note)
            shown = [row for row in rows if row[10] == ("" if note == "plain" else note)]
            assert calc.serials() == [row[0] for row in shown]
            cents = round(sum(number(row[9]) for row in shown) * 100)
            assert calc.total()[9] == f"{cents // 100}.{cents % 100:02}", note


def units() -> dict[tuple[str, str], int]:
    with open(PUBLISHED / "published-values.csv", newline="") as file:
        rows = list(csv.DictReader(file))
    return {(row["issued"], row["redeemed"]): int(row["unit_cents"]) for row in rows}


ON_INPUT = 'addEventListener("input", showOne)'


@variants(only_when_a_bond_is_added=script(ON_INPUT, ON_INPUT.replace("input", "reset")))
def test_value_at_once(calc: Calculator, changes: Changes) -> None:
    """The published values of three bonds are shown as they are typed, above everything else, and nothing is pressed."""
    published = units()
    calc.serve(changes)
    calc.choose_month("2012-02")
    with calc.holds_not(changes):
        assert calc.texts("#one-value") == [""]
        assert "Choose a denomination" in calc.texts("#one-words")[0]
        typed = {"2010-05": (500, "May 2010"), "2006-03": (50, "3/2006")}
        for issued, (denom, text) in (typed | {"2005-05": (10000, "2005-05-01")}).items():
            calc.set_field("denom", str(denom))
            calc.set_field("issued", text)
            cents = published[issued, "2012-02"] * denom // 25
            words = calc.texts("#one-words")[0]
            assert calc.texts("#one-value") == [f"${cents // 100:,}.{cents % 100:02}"]
            assert f"A ${denom:,} bond issued in" in words and "in February 2012" in words
        calc.choose_month("Nov 2011")
        cents = published["2005-05", "2011-11"] * 400
        assert calc.texts("#one-value") == [f"${cents / 100:,.2f}"]
        calc.set_field("issued", "May 2021")
        assert calc.texts("#one-value") == [""]
        assert "There is no rate for bonds issued in May 2021" in calc.texts("#one-words")[0]
        calc.set_field("issued", "May 2011")
        assert "Note NE: under 12 months" in calc.texts("#one-words")[0] and calc.rows() == []
        for width, height in ((1440, 900), (1024, 768), (768, 1024), (360, 640)):
            calc.resize(width, height)
            calc.run("document.querySelector('#told-close').click(); scrollTo(0, 0)")
            assert calc.calls("is_above"), f"it is above everything else in {width} by {height}"


YEAR = "Math.floor(state.month / 12)"


@variants(year_that_begins_in_January=script(f"{YEAR} - 1", YEAR))
def test_interest_of_the_year(calc: Calculator, changes: Changes) -> None:
    """What the published values say, for a bond that wasn't issued in December too."""
    published = units()
    calc.serve(changes)
    bonds = b"C1EE,500,2010-05,7,\nC2EE,50,2006-03,7,\nC3EE,100,2012-01,7,\n"
    calc.open_inventory(INVENTORY + bonds)
    with calc.holds_not(changes):
        spans = {"2012-02": "from January to February", "2011-12": "from January to December"}
        for month, said in {**spans, "2012-01": "in January"}.items():
            december = f"{int(month[:4]) - 1}-12"
            calc.choose_month(month)
            cents = 0
            for issued, units_of in (("2010-05", 20), ("2006-03", 2)):
                now, then = (published.get((issued, at), 1250) for at in (month, december))
                cents += units_of * (now - then)
            shown = dict(calc.calls("terms", "#sums"))[f"Interest of {month[:4]}"]
            assert shown == f"${cents / 100:,.2f}, {said}"


def clock_of(time: str) -> Changes:
    real = f"const Real = Date; window.Date = class extends Real {{ constructor(...given) {{ super(...(given.length === 0 ? [{time!r}] : given)); }} }};"
    begin = "  var __create = Object.create;"
    return (script(begin, f"{real}\n{begin}"),)


@variants(any_clock_taken=script("!== said)", "=== null)"))
def test_clocks(calc: Calculator, changes: Changes) -> None:
    """A device whose clock is wrong: the page says so, and bonds are valued."""
    last = released_in(TOP)[:7]
    with calc.holds_not(changes):
        for clock, said, month in (
            ("1970-01-01T12:00:00", "January 1970", last),
            ("2015-03-01T12:00:00", "March 2015", last),
            ("2205-07-01T12:00:00", "July 2205", "2199-12"),
        ):
            calc.serve((*changes, *clock_of(clock)))
            assert f"clock says {said}, which can't be right" in calc.told()
            assert calc.value("#month") == f"{month[5:]}/{month[:4]}"
            assert "1 bond added" in calc.open_inventory(INVENTORY + bond_line("C1EE", 50))
        calc.serve((*changes, *clock_of(f"{last}-28T12:00:00")))
        assert (calc.told(), calc.value("#month")) == ("", f"{last[5:]}/{last[:4]}")


@variants(doubled_a_month_late=script("DOUBLES = 240", "DOUBLES = 241"))
def test_ahead(calc: Calculator, changes: Changes) -> None:
    """What a bond will be worth, against values worked out by hand; the charts' 31 yearly values as tables."""
    calc.serve(changes)
    calc.shows_only(BY_HAND, INVENTORY + b"C1EE,50,2010-05,7,8\n", "2014-06")
    with calc.holds_not(changes):
        calc.open_bond("C1EE")
        found = [row[1:] for row in calc.calls("cells", "#bond-ahead")]
        assert [row[0] for row in found] == ["July 2014", "May 2015", "May 2030", "May 2040"]
        assert found[2][1] == "$50.00"
        points = calc.calls("cells", "#bond-figure")
        assert len(points) == 31 and points[0] == ["May 2010", "$25.00"]
        assert points[20] == ["May 2030", "$50.00"]
        label = calc.find("#bond-figure svg").get_attribute("aria-label")
        assert "from $25.00 in May 2010" in str(label)
        calc.keys(Keys.ESCAPE)
        calc.until(lambda: calc.has_keyboard("#table .open"), "Escape gives the keyboard back")
        for at, value in (("2030-04", "48.90"), ("2030-06", "50.14")):
            calc.choose_month(at)
            assert calc.rows()[0][9] == value
        is_whole = lambda: len(calc.calls("cells", "#curve-figure")) == 31
        calc.until(is_whole, "the inventory's curve")
        assert calc.calls("cells", "#curve-figure") == points


@variants(worker_that_keeps_nothing=("sw.js", "With(answer(event", "With(fetch(event"))
def test_offline(calc: Calculator, changes: Changes) -> None:
    """With its server gone the page opens again, and values the bonds of samples/."""
    url = calc.serve(changes)
    controlled = "return navigator.serviceWorker.controller !== null"
    calc.until(lambda: calc.run(controlled), "the service worker has the page", 15)
    calc.sites.pop().stop()
    with calc.holds_not(changes):
        calc.visit(url)
        told = calc.open_inventory((TOP / "samples/inventory.csv").read_bytes())
        assert "3 bonds added" in told
        calc.choose_month("2026-11")
        assert calc.total()[9] == "10262.51"


LOADED = "return performance.getEntriesByType('resource').map((entry) => entry.name)"
STORED = "return document.cookie.length + Object.keys(localStorage).length + Object.keys(sessionStorage).length"


@variants(without_the_policy=("index.html", 'http-equiv="Content-Security-Policy"', 'name="none"'))
def test_fences(calc: Calculator, changes: Changes) -> None:
    """Only files of the page are loaded, no cookie and nothing kept; the page's policy stops a request elsewhere, a script and a picture of elsewhere."""
    other = Site()
    calc.sites.append(other)
    url = calc.serve(changes)
    calc.open_inventory((TOP / "samples/inventory.csv").read_bytes())
    names = calc.run(LOADED)
    assert names and all(name.startswith(url) for name in names)
    assert calc.run(STORED) == 0
    with calc.holds_not(changes):
        found = calc.calls("attempts", other.url)
        assert found == ["stopped"] * 3 and other.asked == []


def test_speed(calc: Calculator, dice: random.Random) -> None:
    calc.serve()
    bonds = random_bonds(dice, 10_000, months=KNOWN)
    assert "10,000 bonds added" in calc.open_inventory(inventory_file(bonds))
    scrolled, median = calc.calls("frames")
    assert scrolled > 100_000 and median < 100


def all_reached(calc: Calculator) -> None:
    wanted, reached = set(calc.calls("controls")), set()
    calc.run("document.querySelector('.skip').focus()")
    for _ in range(len(wanted) + 15):
        calc.keys(Keys.TAB)
        name, outline = calc.calls("outline")
        if name in ("", "skip"):
            break
        reached.add(name)
        assert outline == "solid 3px", name
    assert wanted - reached == set() and len(wanted) > 20


def test_keyboard(calc: Calculator) -> None:
    """A whole use with the keyboard alone: bonds, a month, the order, a bond's dialog, what is saved."""
    calc.serve()
    calc.keys(Keys.TAB)
    assert calc.has_keyboard(".skip"), "the first Tab offers to skip"
    calc.keys(Keys.ENTER)
    assert calc.tab_to("#denom") <= 2
    calc.keys(*"$500", Keys.TAB, *"May 2010", Keys.TAB)
    for serial in ("C-12-EE", "C13EE"):
        calc.keys(*serial, Keys.ENTER)
        calc.is_told("1 bond added")
        assert calc.has_keyboard("#serial")
    calc.tab_to("#month")
    calc.run("document.activeElement.select()")
    calc.keys(*"2012-02", Keys.ENTER)
    # Two 500-dollar bonds of May 2010 in February 2012: 40 units of the published 1277 cents.
    assert [row[2] for row in calc.rows()] == ["500", "500"] and calc.total()[9] == "510.80"
    calc.tab_to("#table [data-column='value']")
    calc.keys(Keys.ENTER)
    assert calc.has_keyboard("#table [data-column='value']")
    assert calc.all("#table th.value[aria-sort=ascending]") != []
    calc.tab_to("#table .open")
    calc.keys(Keys.DOWN)
    second = "return document.activeElement.textContent"
    assert calc.run(second) == "C13EE"
    calc.keys(Keys.ENTER)
    assert calc.run("return document.querySelector('#bond').open")
    assert "C13EE" in calc.texts("#bond-title")[0]
    calc.keys(Keys.ESCAPE)
    calc.until(lambda: calc.run(second) == "C13EE", "Escape gives the keyboard back")
    calc.tab_to("#save-inventory", back=True)
    saved = calc.downloads / "inventory.csv"
    calc.keys(Keys.ENTER)
    wanted = INVENTORY + b"C12EE,500,2010-05,1,\nC13EE,500,2010-05,1,\n"
    calc.until(lambda: saved.exists() and saved.read_bytes() == wanted, "the inventory is saved")
    all_reached(calc)
    calc.run("document.querySelector('#print').tabIndex = -1")
    with pytest.raises(AssertionError):  # control
        all_reached(calc)
