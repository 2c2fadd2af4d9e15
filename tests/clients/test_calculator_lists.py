"""Lists of bonds in the calculator: it takes the good rows of a list, lets the others be mended in place, and shows how far it is."""

import os
import time

import pytest

from tests.clients.calculator import NEEDS, Calculator, Changes, script, variants
from tests.clients.test_calculator_uses import add_pasted, put

pytestmark = NEEDS
LIST = """Serial\tDenomination\tIssued
L1EE\t50\t05/2010
L2EE\t60\t05/2010
M3EE\t$1,000\tNov 2010
L1EE\t50\t05/2010
L4EE\t50\t05/2030
"""


@variants(rows_lost=script('bad.length === 0 ? "" : leftOver(', 'bad.length >= 0 ? "" : leftOver('))
def test_rows_are_mended_in_place(calc: Calculator, changes: Changes) -> None:
    with calc.serving(changes):
        assert "2 bonds understood" in put(calc, LIST)
        assert "3 rows need mending. Row 3: The column denom has “60”" in calc.told()
        assert len(calc.all("#mend-rows li")) == 3
        assert "2 bonds added. 2 in all. 2 rows need mending." in add_pasted(calc)
        assert calc.serials() == ["L1EE", "M3EE"]
        left = [line.split("\t")[0] for line in calc.value("#pasted").splitlines()]
        assert left == ["Serial", "L2EE", "L1EE", "L4EE"]
        for name, text in {"denom": "50", "issued": "05/2011"}.items():
            invalid = f"#mend-rows [id$={name}][aria-invalid=true]"
            wrong = calc.find(f"{invalid}, #mend-rows li:last-child [id$={name}]")
            calc.run("arguments[0].value = arguments[1]", wrong, text)
            calc.run("arguments[0].dispatchEvent(new Event('change'))", wrong)
        assert calc.texts("#paste-add") == ["Add these 3 bonds"]
        assert add_pasted(calc) == "2 bonds added. 1 bond already there. 4 in all."
        assert calc.serials() == ["L1EE", "L2EE", "L4EE", "M3EE"]
        assert calc.value("#pasted") == "" and not calc.is_shown("#mend")


@pytest.mark.parametrize(
    "text",
    [
        "L1EE 50 2010-05\nL2EE 50 2010-13\nM3EE 1,000 May 2010\n",
        "L1EE;50;2010-05\nL2EE;55;2010-05\nM3EE;1.000;2010-05\n",
        '"Serial","Denomination","Issue date"\n"L1EE","$50","May 1, 2010"\n"L2EE","$1,0000","May 1, 2010"\n',
    ],
)
def test_leftovers_are_read_as_before(calc: Calculator, text: str) -> None:
    """Rows that are left over have the same faults below a line that names their columns, whatever parts the cells."""
    calc.serve()
    faults = []
    for told in (put(calc, text), add_pasted(calc)):
        said = told.partition("mending. ")[2]
        faults.append(said.partition(": ")[2].partition(" (row")[0])
    assert faults[0] == faults[1] != ""
    assert calc.serials()[0] == "L1EE"


def test_its_own_table_opens_without_a_fault(calc: Calculator) -> None:
    calc.serve()
    put(calc, "L1EE 50 2010-05\nM3EE 1000 2010-11")
    add_pasted(calc)
    month = "-".join(reversed(calc.value("#month").split("/")))
    saved = calc.saved(f"bonds-{month}.csv", "#save-table")
    calc.again()
    assert calc.serials() == []
    assert calc.open_inventory(saved.encode()).startswith("2 bonds understood.")
    assert calc.run("return document.querySelector('#told-box').className") == "done"
    assert "read the file as a list" in calc.text("#told-list")
    assert add_pasted(calc).startswith("2 bonds added.") and calc.serials() == ["L1EE", "M3EE"]


def test_american_months_and_dollars(calc: Calculator) -> None:
    calc.serve()
    put(calc, "X3EE 10000 04/2006")
    add_pasted(calc)
    calc.choose_month("11/2026")
    cells = calc.texts("#table tbody td")
    assert cells[1:6] == ["$10,000", "04/2006", "12/2026", "04/2036", "$5,000.00"]
    assert "$5,188.00" in cells and calc.texts("#table tfoot td.value") == ["$10,188.00"]
    saved = calc.saved("bonds-2026-11.csv", "#save-table")
    assert "X3EE,EE,10000,04/2006,12/2026,04/2036,5000.00,5188.00,3.20%,10188.00," in saved
    for words in ("$10,188", "10188.00", "10,188.00"):
        calc.set_field("filter", words)
        assert calc.serials() == ["X3EE"], words


def processor_seconds() -> float:
    """How long this machine takes for a fixed sum: other work makes it slower."""
    begun = time.perf_counter()
    sum(number * number for number in range(3_000_000))
    return time.perf_counter() - begun


def test_fifty_thousand_bonds(calc: Calculator) -> None:
    """They are read and added in 3 seconds, below a bar that moves. On a machine that does other work it may take longer."""
    calc.serve()
    before = processor_seconds()
    found = calc.calls("fifty_thousand")
    assert isinstance(found, dict), found
    waiting = 3 * os.getloadavg()[0] / (os.cpu_count() or 1)
    slower = max(1.0, max(before, processor_seconds()) / 0.25, waiting)
    print(f"{found['all']:.0f} ms; the machine is {slower:.1f} times slower")
    parts = [part for part in found["seen"] if part > 0]
    assert len(set(parts)) >= 4 and parts == sorted(parts), found["seen"]
    assert found["is_hidden"] and found["all"] < 3000 * slower
