"""The calculator's table beside the published values and the program's own sheets, replies and exports, byte for byte."""

import random
import re
import shutil
from pathlib import Path

import pytest

from tests.clients.calculator import NEEDS, Calculator, Changes, Site, script, variant, variants
from tests.clients.calculator_data import INVENTORIES, INVENTORY, KNOWN, RATE_FILES, SHIPPED, Sheet
from tests.clients.calculator_data import Store, answers, inventory_file, random_bonds, sheets
from tests.conftest import TOP
from tests.shared import exact

pytestmark = NEEDS


def same_sheets(calc: Calculator, listed: list[Sheet]) -> None:
    for one in listed:
        calc.shows_only(one.rates, one.file, one.month)
        assert calc.sheet() == one.sheet


@variants(
    a_cent_more=script("value: answer.valueCents }", "value: answer.valueCents + 1 }"),
    extension_a_month_late=script("EXTENDED_FROM = 240", "EXTENDED_FROM = 241"),
    another_note=script('["", "NI", "NE", "P5", "MA"]', '["", "NI", "NE", "P6", "MA"]'),
)
def test_sheets(calc: Calculator, program: Path, changes: Changes) -> None:
    dice = random.Random(7)
    listed = sheets(program, dice, 40)
    with calc.serving(changes):
        for bits, part in ((64, listed[:20]), (32, listed[20:])):
            calc.choose_module(bits)
            same_sheets(calc, part)
        saved = calc.saved(f"sheet-{listed[-1].month}.txt", "#save-sheet")
        assert saved == listed[-1].sheet


def test_from_a_disk(calc: Calculator, program: Path, dice: random.Random) -> None:
    """The page opened from a file, by each module. Control: a page whose script a disk doesn't give."""
    folder = variant(calc.folder, ())
    calc.visit((folder / "index.html").as_uri())
    for bits in (64, 32):
        calc.choose_module(bits)
        same_sheets(calc, sheets(program, dice, 4))
    assert calc.saved("inventory.csv", "#save-inventory").encode().startswith(INVENTORY)
    # Chromium loads no module from a disk. Firefox does, so there the script is missing.
    module, missing = 'src="calculator.js" type="module"', 'src="missing.js" defer'
    other = module if calc.name == "chromium" else missing
    changes = (("index.html", '<script src="calculator.js" defer>', f"<script {other}>"),)
    with calc.holds_not(changes):
        calc.visit((variant(calc.folder, changes) / "index.html").as_uri())


def names(told: str, answer: str) -> bool:
    """The page names the fault or refusal that the program names, with its row, code and serial number. Returns False if it reads the file as a list of a spreadsheet, and adds nothing yet."""
    fault = re.fullmatch(r"file: (row [0-9]+ code [0-9]+)\n", answer)
    code = re.search(r'"code":([0-9]+),.*"refused":"([A-Za-z]+)"', answer)
    if fault:
        assert f"({fault[1]})" in told or "understood" in told, (told, answer)
        return f"({fault[1]})" in told
    elif code:
        assert f"(code {code[1]}, {code[2]})" in told, (told, answer)
        assert all(name in told for name in re.findall(r'"serial":"([A-Z0-9]+)"', answer))
    else:
        counts = re.fullmatch(r'\{"new":([0-9]+),"same":([0-9]+)\}\n', answer)
        assert counts and re.match(rf"{counts[1]} bonds? added|[0-9]+ rates? read", told), told
    return True


@variants(a_space_before_a_customer=script("/^[0-9]{1,9}$/", "/^ ?[0-9]{1,9}$/"))
def test_refusals(calc: Calculator, program: Path, changes: Changes) -> None:
    with calc.serving(changes):
        for _, file, answer in answers(program, "rates", RATE_FILES) if not changes else ():
            calc.remove_all()
            assert names(calc.open_rates(file), answer)
        calc.open_rates(SHIPPED)
        columns = ("serial", "denom", "issued", "owner", "coowner")
        named = 0
        for name, file, answer in answers(program, "inventory", INVENTORIES):
            calc.remove_all()
            told = calc.open_inventory(file)
            if not names(told, answer):
                assert calc.rows() == [], "nothing is added yet"
                continue
            named += 1
            if name.startswith("field ") and answer.startswith("file:"):
                assert any(f"The column {column} has" in told for column in columns), told
        print(f"{named} of {len(INVENTORIES)} are named as the program does")
        assert named > len(INVENTORIES) / 2


def test_round_trip(calc: Calculator, program: Path, dice: random.Random) -> None:
    """An inventory that the program exported, opened, saved and imported again: the same bonds."""
    store, bonds = Store(program, SHIPPED), random_bonds(dice, 300, months=KNOWN)
    assert store.enter("inventory", inventory_file(bonds, dice)) == '{"new":300,"same":0}\n'
    exported = store.run("export", "7")
    calc.serve()
    told, header = calc.open_inventory(exported.encode()), exported.splitlines()[0]
    assert "300 bonds added" in told, f"the calculator's reader of {header!r} (files.js): {told}"
    saved = calc.saved("inventory.csv", "#save-inventory")
    assert saved == exported
    assert store.enter("inventory", saved.encode()) == '{"new":0,"same":300}\n'
    assert "0 bonds added. 300 bonds already there" in calc.open_inventory(saved.encode())
    changed = saved.replace(bonds[0][0], "Y9876543210EE", 1)
    assert store.enter("inventory", changed.encode()) == '{"new":1,"same":299}\n', "control"


@pytest.mark.parametrize("month", ["2015-05", "2015-06"])
def test_web_page_of_five_lines(calc: Calculator, month: str) -> None:
    """ee-value.js in a web page, which loads the module beside it. Another month is the control."""
    folder = calc.folder / "five"
    (folder / "out").mkdir(parents=True)
    shutil.copy(TOP / "clients/value/ee-value.js", folder)
    shutil.copy(TOP / "clients/value/out/ee_value.wasm", folder / "out")
    text = (Path(__file__).parent / "five_lines.html").read_text()
    (folder / "index.html").write_text(text.replace("2015-05", month))
    site = Site(folder)
    calc.sites.append(site)
    calc.open(site.url)
    calc.until(lambda: calc.texts("#told")[0], "the page shows a value")
    cents = exact.cents(50, 201005, int(month.replace("-", "")), 350, 350)
    assert calc.texts("#told") == [str(cents)]
