"""typed.toml: what the page, the calculator and the Python client read of what people type from a bond's paper."""

import json
import shutil
import tomllib
from pathlib import Path
from unittest import mock

import pytest

import ee_counter_client.typed as typed
from ee_counter_client import BadValue
from tests.clients.node import node
from tests.conftest import TOP

TABLE = tomllib.loads((TOP / "tests/clients/typed.toml").read_text())
LISTS, WRONG = TABLE.pop("lists"), TABLE.pop("wrong")
#: Every kind with a text, and what it is read as.
ROWS = [(kind, text, it) for kind, texts in TABLE.items() for it in texts for text in texts[it]]
REFUSED = ("series", "early", "unclear", "none")
pytestmark = pytest.mark.needs("node")


def in_node(reader: str, rows: object = ROWS, clients: Path = TOP / "clients") -> list[object]:
    given = json.dumps([str(clients), reader, rows])
    return list(json.loads(node(Path(__file__).parent / "typed.mjs", given)))


def by_python() -> list[object]:
    readers = {"serial": typed.serial_of, "denomination": typed.denom_of}
    readers |= {"issue": typed.issue_of, "month": typed.month_of}
    said = {"another series": "series", "before May 2005": "early", "write the month as": "unclear"}
    found: list[object] = []
    for kind, text, _ in ROWS:
        try:
            found.append(str(readers[kind](text)))
        except BadValue as error:
            found.append(next((why for words, why in said.items() if words in str(error)), "none"))
    return found


def test_typed() -> None:
    """Each text is read as the table says by all three, and a list of serial numbers as its parts."""
    wanted = [found for *_, found in ROWS]
    assert list(zip(ROWS, in_node("page"))) == list(zip(ROWS, wanted))
    assert list(zip(ROWS, by_python())) == list(zip(ROWS, wanted))
    values = [None if found in REFUSED else found for found in wanted]
    assert list(zip(ROWS, in_node("calculator"))) == list(zip(ROWS, values))
    assert dict(zip(LISTS, in_node("lists", list(LISTS)))) == LISTS


@pytest.mark.parametrize("what", WRONG)
def test_a_wrong_reader_is_found(what: str, tmp_path: Path) -> None:
    """Control: a reader of the page with one line changed."""
    shutil.copytree(TOP / "clients/teller", tmp_path / "teller")
    shutil.copy(TOP / "clients/package.json", tmp_path)
    file = tmp_path / "teller/typed.js"
    old, new = WRONG[what]
    text = file.read_text()
    assert text.count(old) == 1
    file.write_text(text.replace(old, new))
    assert in_node("page", clients=tmp_path) != [found for *_, found in ROWS]


def test_a_wrong_python_reader_is_found() -> None:
    """Control: years of two digits are all of this century."""
    with mock.patch.object(typed, "FIRST_SERIES_E", 100):
        assert by_python() != [found for *_, found in ROWS]
