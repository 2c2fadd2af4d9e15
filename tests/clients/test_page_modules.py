"""What the page's modules make of texts, in Node: the words of each code and reason, sheets, answers, doubts, and amounts in words."""

import itertools
import json
import re
import string
import tomllib
from email.utils import parsedate_to_datetime
from pathlib import Path
from typing import Any

import pytest

from tests.browser.bank import OLDEST, PAGE, TOO_YOUNG, UNISSUED, Bank, released_in
from tests.clients.node import node
from tests.conftest import TOP
from tests.shared.hostile import desk

pytestmark = pytest.mark.needs("node")


def in_node(name: str, *given: object) -> Any:
    """What a function of page_modules.mjs returns."""
    text = json.dumps([str(PAGE), name, given])
    return json.loads(node(Path(__file__).parent / "page_modules.mjs", text))


# ---- words
NAMES = {
    "refused": desk.NAMES,
    "fault": {
        **{60: "BadHead", 61: "HeadTooLong", 62: "BodyTooLong", 63: "BadLength", 64: "BadJson"},
        **{65: "BadField", 66: "NoRoute", 67: "BadMethod", 68: "Truncated", 69: "NotFound"},
    },
    "unserved": {1: "NoMemory", 2: "StoreFailed"},
}
UNKNOWN = "which this page doesn't know"


def test_words_of_codes() -> None:
    """Each code has a sentence of its own and something to do, and a document names it."""
    text = (TOP / "docs/STATUSES.md").read_text() + (TOP / "docs/FORMATS.md").read_text()
    documented: dict[int, str] = {69: "NotFound"}
    rows = re.findall(r"^\| ((?:\d\d)(?:, \d\d)*) \| (\w+(?:, \w+)*) \|", text, re.M)
    for codes, names in rows:
        documented.update(zip(map(int, codes.split(", ")), names.split(", ")))
    known = {**NAMES["refused"], **NAMES["fault"]}
    assert {code: name for code, name in documented.items() if code < 70} == known
    more = {"serial": "L7EE", "ticket": 12, "field": "payee"}
    answers = [
        {"kind": kind, "code": code, "name": name, "month": {22: 300}.get(code, "2012-05"), **more}
        for kind, names in NAMES.items()
        for code, name in names.items()
    ]
    found = in_node("sentences", answers)
    for says, advises in found:
        assert len(says) > 10 and len(advises) > 10 and "undefined" not in says + advises
        assert UNKNOWN not in says
    assert len({says for says, _ in found}) == len(answers)
    others = [{"kind": "refused", "code": code, "name": "Other"} for code in (99, 52)]
    assert all(UNKNOWN in says for says, _ in in_node("sentences", others))


#: nginx's reasons to pass a request on to nobody, with their statuses.
REASONS = [
    *(("certificate", 400), ("request", 400), ("request", 414), ("origin", 403), ("client", 403)),
    *(("type", 403), ("group", 403), ("chunks", 411), ("size", 413), ("host", 421)),
]


def test_words_of_nginx() -> None:
    """Each answer of nginx and of others is read as what it is, and each reason of nginx has a sentence."""
    wanted: list[tuple[int, str, list[str]]] = []
    wanted += [(status, json.dumps({"forbidden": w}), ["forbidden", w]) for w, status in REASONS]
    said = '{"forbidden":"certificate","message":"No certificate."}'
    wanted.append((400, said, ["forbidden", "certificate"]))
    wanted += [(429, json.dumps({"forbidden": w}), ["none", "busy"]) for w in ("rate", "repeated")]
    gone = '{"unavailable":"counter"}'
    wanted += [(status, gone, ["none", "unavailable"]) for status in (502, 503, 504)]
    texts = ('{"forbidden":"x"}', '{"forbidden":["group"]}', "{}", "", "null", "[]")
    others = [*((403, text) for text in texts), (200, '{"forbidden":"group"}'), (404, gone)]
    wanted += [(*other, ["none", "status"]) for other in others]
    assert in_node("answers", [row[:2] for row in wanted]) == [row[2] for row in wanted]
    sentences = in_node("forbidden", [why for why, _ in REASONS])
    assert all(len(says) > 10 and len(advises) > 10 for says, advises in sentences)
    assert len({says for says, _ in sentences}) == len(dict(REASONS))


def test_words_of_a_first_attempt() -> None:
    says, why = in_node("first_attempt")[:2]
    assert "This attempt did nothing." in says and "earlier" not in why
    assert "This browser sent no certificate of the staff, or it was revoked or has run out." in why


ENTRY = "0123456789abcdef" * 2


def test_entries() -> None:
    """Only 32 hex digits are an entry of the log; without a header there is none."""
    other = "fedcba9876543210" * 2
    texts = [None, "", "x", ENTRY[1:], ENTRY + "0", "<b>" + ENTRY, ENTRY, f"{other}, {ENTRY}"]
    found = in_node("entries", texts)
    assert found == [None] * 6 + [ENTRY] * 2


def test_amounts_and_times() -> None:
    amounts = tomllib.loads((TOP / "tests/clients/page.toml").read_text())["amounts"]
    assert dict(zip(amounts, in_node("amounts", [*amounts]))) == amounts
    times = ("12:05 AM", "9:30 AM", "12:00 PM", "11:59 PM")
    wanted = [*(f"February 6, 2012, {time}" for time in times), "December 31, 2012"]
    assert in_node("times") == wanted


def test_rows_of_sheets() -> None:
    """Up to 1,000 rows are put on sheets that have room for them, with five at least on the last."""
    splits = in_node("splits")
    for count, sizes in enumerate(splits):
        assert sum(sizes) == count and max(sizes) <= 38 and sizes[0] <= 26, (count, sizes)
        assert len(sizes) == 1 or 5 <= sizes[-1] <= 29, (count, sizes)


# ---- doubts
#: The letters of paper bonds of Series EE, by their denominations.
LETTERS = {"L": 50, "K": 75, "C": 100, "R": 200, "D": 500, "M": 1000, "V": 5000, "X": 10000}


def test_doubts() -> None:
    """Each letter with each denomination, and issue months around the last of paper."""
    pairs = list(itertools.product(string.ascii_uppercase, LETTERS.values()))
    bonds = [[(f"{letter}1EE", denom, "05/2010")] for letter, denom in pairs]
    doubts = dict(zip(pairs, in_node("doubts", bonds)))
    for (letter, denom), said in doubts.items():
        assert len(said) == (LETTERS.get(letter) != denom), (letter, denom, said)
    is_wrong = "M1EE: the letter M means $1,000, and the denomination here is $10,000."
    assert doubts["M", 10000] == [is_wrong]
    none = "no denomination has the letter S, and the denomination here is $50."
    assert doubts["S", 50] == [f"S1EE: {none}"]
    months = ("05/2005", "11/2011", "12/2011", "01/2012", "02/2012", "12/2099")
    found = in_node("doubts", [[("L1EE", 50, month)] for month in months])
    assert [len(said) for said in found] == [0, 0, 0, 1, 1, 1]
    assert found[3] == ["L1EE: issued 01/2012, and paper was sold only until 12/2011."]
    many = [(f"S{number}EE", 50, "05/2010") for number in range(1, 6)]
    assert in_node("doubts", [many]) == [[f"S1EE, S2EE, S3EE and 2 more: {none}"]]


def test_the_release_is_dated() -> None:
    """By the packages' changelog, so that both pages find a clock from before it."""
    changelog = (TOP / "packaging/debian/changelog").read_text()
    assert released_in(TOP) == dated(changelog)
    assert released_in(TOP) != dated(changelog.replace(" 2026 ", " 2027 "))  # control


def dated(changelog: str) -> str:
    date = re.search(r"^ -- .*>  (.*)$", changelog, re.M)
    assert date is not None
    return parsedate_to_datetime(date[1]).date().isoformat()


# ---- sheets
def test_sheets(bank: Bank) -> None:
    """Sheets of the true counter are read; with a byte less, a byte twice, cut, or other money they are none."""
    bank.begin([7])
    bank.registers(TOO_YOUNG, UNISSUED, OLDEST)
    for month in ("2005-05", "2010-12", "2012-02", "2025-06", "2041-02", "2199-12"):
        text = bank.ask("GET", f"/inventory/7/{month}")[1]
        rows, total, tried, read = in_node("sheets", text)
        lines = text.splitlines()[1:-1]
        notes = ["".join(re.findall("(?:NI|NE|P5|MA)$", line)) for line in lines]
        assert [row[:2] for row in rows] == [[x.split()[0], y] for x, y in zip(lines, notes)]
        assert len(lines) == 6
        assert total == sum(value for *_, value in rows)
        assert tried > 3 * len(text) and read == 0
