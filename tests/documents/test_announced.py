"""Every rate and every bond in a document, a help text, a description or a picture is one that a
bank could meet: Treasury announced the rate for that issue month (announced-rates.csv), and the page
for tellers wouldn't doubt the bond. A rate of extended maturity is called invented there."""

import csv
import re
from collections.abc import Iterator

import pytest

from ee_counter_client.plausible import LAST_PAPER, LETTERS
from tests.conftest import TOP

WHERE = (
    "*.md docs/*.md docs/openapi.json .ci/pictures tests/clients/pictured.csv samples/*.md"
    " samples/*.csv samples/*/*.md packaging/man/* packaging/*.md clients/*/*.md"
    " clients/value/ee_value/*.py clients/value/examples/* include/*"
    " clients/python/src/ee_counter_client/*.py crates/ee_cli_commands/src/rows.rt"
)
MONTH = r"(?P<month>\d{4}-\d\d|\d\d/\d{4})"
RATE = r"(?P<rate>\d{1,2}\.\d{1,2})%?"
EXTENSION = RATE.replace("rate", "extension")
SERIAL = r"(?P<serial>[A-Z]-?\d{1,10}-?EE)"
NUMBER = MONTH.replace(r"\d{4}-\d\d|", r"\d{6}|")
ANY = r"[^{}\n]*?"
#: Texts that name a rate with its month, and a bond with its denomination and issue month.
FORMS = [
    re.compile(form, re.MULTILINE)
    for form in (
        rf"\bvalue \d+ {MONTH} \S+ {RATE}(?: {EXTENSION})?",
        rf"\(\d+, ?\"{MONTH}\", ?\"[\d/-]+\", ?\"{RATE}\"(?:, ?\"{EXTENSION}\")?",
        rf"^{MONTH},{RATE}(?:,(?:{EXTENSION})?)?(?:,.*)?$",
        rf"\"from\": ?\"{MONTH}\", ?\"rate\": ?\"{RATE}\"(?:, ?\"extension\": ?\"{EXTENSION}\")?",
        rf"\"extension\": ?\"{EXTENSION}\", ?\"from\": ?\"{MONTH}\", ?\"rate\": ?\"{RATE}\"",
        rf"\"issued\": ?\"{MONTH}\"{ANY}\"rate\": ?\"{RATE}\"",
        rf"{SERIAL} +EE +(?P<denom>\d+) {MONTH} .* {RATE[:-1]} ",
        rf"\(\d+, {NUMBER}, \d{{6}}, (?P<hundredths>\d+), \d+\)",
        rf"\b{SERIAL}\"?,? ?(?P<denom>\d+), ?\"?{MONTH}",
        rf"\"denom\": ?(?P<denom>\d+){ANY}\"issued\": ?\"{MONTH}\"{ANY}\"serial\": ?\"{SERIAL}",
        rf"\"serial\": ?\"{SERIAL}\", ?\"denom\": ?(?P<denom>\d+), ?\"issued\": ?\"{MONTH}",
    )
]
#: Shows a bond that isn't issued yet in February 2012, as no bond on paper can be.
UNISSUED = {"C5EE"}
#: Rates that stand for a limit or a rule, and no bond's.
OTHERS = {"0.00", "20.00", "4.02", "8.08", "12.18", "16.32"}


def texts() -> Iterator[tuple[str, str]]:
    for pattern in WHERE.split():
        for path in sorted(TOP.glob(pattern)):
            if path.is_file():
                name = str(path.relative_to(TOP))
                yield name, f"{name}\n{path.read_text()}"


def of_month(text: str) -> str:
    return f"{text[3:]}-{text[:2]}" if "/" in text else f"{text[:4]}-{text[-2:]}"


with open(TOP / "samples/audit/announced-rates.csv", encoding="utf-8") as announced:
    ANNOUNCED = {row["from"]: f"{float(row['rate']):.2f}" for row in csv.DictReader(announced)}


def announced_for(month: str) -> str | None:
    return ANNOUNCED.get(max((start for start in ANNOUNCED if start <= month), default=""))


def doubts(found: dict[str, str | None], text: str) -> Iterator[str]:
    month = of_month(found["month"] or "")
    rate, serial, denom = (found.get(key) for key in ("rate", "serial", "denom"))
    if found.get("hundredths"):
        rate = f"{int(found['hundredths'] or 0) / 100:.2f}"
    if rate and f"{float(rate):.2f}" != announced_for(month):
        yield f"{rate} % wasn't announced for {month}: {announced_for(month)} % was"
    if found.get("extension") and "invented" not in text:
        yield f"the extension of {found['extension']} % isn't called invented"
    is_paper = LETTERS.get(int(denom or 0)) == (serial or "")[:1] and month <= LAST_PAPER
    if serial and serial not in UNISSUED and not is_paper:
        yield f"{serial} of {denom} dollars, issued in {month}, isn't as paper has it"


def read(text: str) -> list[dict[str, str | None]]:
    return [found.groupdict() for form in FORMS for found in form.finditer(text)]


def lone(text: str) -> Iterator[str]:
    """Rates and serial numbers that no announcement and no paper bond has, wherever they stand."""
    for rate in re.findall(r"(?<![\d.,])(\d{1,2}\.\d{1,2}) ?%", text):
        is_known = f"{float(rate):.2f}" in {*ANNOUNCED.values(), *OTHERS}
        if not is_known and "invented" not in text:
            yield f"{rate} % is no announced rate"
    for serial in re.findall(rf"\b{SERIAL}\b", text):
        if serial[0] not in LETTERS.values():
            yield f"{serial} has a letter that no denomination has"


def faults(text: str) -> list[str]:
    return [*(doubt for one in read(text) for doubt in doubts(one, text)), *lone(text)]


@pytest.mark.parametrize("text", [pytest.param(text, id=name) for name, text in texts()])
def test_announced(text: str) -> None:
    assert faults(text) == []


def test_all_are_read() -> None:
    """Many are found, each form among them. They are printed with their announcement."""
    rows = [(name, row) for name, text in texts() for row in read(text)]
    for name, row in rows:
        if row.get("rate"):
            print(name, row["month"], row["rate"], announced_for(of_month(row["month"] or "")))
    assert len(rows) > 100
    for form in FORMS:
        assert any(form.search(text) for _, text in texts()), form.pattern


#: Controls: examples that are wrong.
WRONG = {
    "a rate of another month": "ee_cli value 50 2010-05 2015-05 3.50",
    "a rate of a program in C": "ee_value_cents(50, 201005, 203011, 340, 340)",
    "a rate that was never announced": "a bond at 2.35 %",
    "an extension": '{"from": "2011-05", "rate": "1.10", "extension": "4.00"}',
    "a letter of another denomination": "K1EE,50,2010-11,7,",
    "a bond after the last paper": "L1EE          EE         50 05/2012 12/2026 11/2040  0.60%  27.56",
    "a letter that none has": "the bond A1EE",
}


@pytest.mark.parametrize("text", WRONG.values(), ids=WRONG)
def test_wrong_ones_are_named(text: str) -> None:
    assert faults(text) != []
