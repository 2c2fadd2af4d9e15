"""Every file that lists the refusals has them all. Their table is docs/openapi.json, from which
.ci/refusals writes some lists. The other lists are written by hand: BY_HAND has their files."""

import re
import shutil
import subprocess
from pathlib import Path

import pytest

from tests.conftest import TOP
from tests.documents.test_commands import files
from tests.shared.hostile.desk import NAMES

WRITER, TABLE = ".ci/refusals", "docs/openapi.json"
BY_WRITER = ["docs/STATUSES.md", "samples/audit/reporting/texts.py"]
BY_WRITER += ["samples/watch/watching/proxy.py"]
BY_WRITER += [f"clients/python/src/ee_counter_client/{name}.py" for name in ("errors", "__init__")]
#: The tests of an act don't know the numbers of requests; no known terms leave a value unsettled.
NO_NUMBERS, NO_TERMS = {10}, {22}
#: Files by hand, with the codes that they leave out.
BY_HAND: dict[str, set[int]] = {
    "crates/ee_desk_model/specs/Codes.antt": set(),
    "crates/ee_desk_model/specs/Refusals.antt": NO_NUMBERS,
    "crates/ee_desk_model/src/refusals.rt": set(),
    "crates/ee_desk_decide/src/checks.rt": NO_NUMBERS,
    "crates/ee_desk_texts/specs/Data.antt": set(),
    "crates/ee_desk_texts/specs/Inner/Reading.antt": set(),
    "crates/ee_desk_texts/src/refusals.rt": set(),
    "crates/ee_desk_texts/src/refusal_reading.rt": set(),
    "crates/library_tests/src/texts.rt": set(),
    "crates/store_tests/src/refusals.rt": NO_TERMS,
    "clients/teller/words.js": set(),
    "clients/python/src/ee_counter_client/testing/fake.py": set(),
    "samples/audit/reporting/desk.py": NO_NUMBERS | NO_TERMS,
    "tests/shared/hostile/desk.py": NO_TERMS,
}
#: A file that names as many lists them.
MANY = 10
NEW = {**NAMES, 99: "Unheard"}


def lacking(text: str, left_out: set[int], names: dict[int, str] = NAMES) -> list[str]:
    """The refusals of which a text has neither the name nor the code in a call."""
    calls = {code: rf"\b{name}\b|\b[Rr]efused\({code}\b" for code, name in names.items()}
    lacks = (code for code in names.keys() - left_out if not re.search(calls[code], text))
    return sorted(names[code] for code in lacks)


@pytest.mark.parametrize("name", BY_HAND)
def test_list(name: str) -> None:
    text, left_out = (TOP / name).read_text(), BY_HAND[name]
    assert lacking(text, left_out) == []
    assert lacking(text, left_out, NEW) == ["Unheard"], "control: a new refusal"
    for code in NAMES.keys() - left_out:
        without = re.sub(rf"\b{NAMES[code]}\b|\b[Rr]efused\({code}\b", "x", text)
        assert lacking(without, left_out) == [NAMES[code]], "control"


def codes_in(text: str) -> dict[int, str]:
    pairs = re.findall(r"Refusal::(\w+)(?:\([_, ]+\))? => (\d+),", text)
    return {int(code): name for name, code in pairs}


def test_codes() -> None:
    """The table has the program's names and codes, and no others."""
    text = (TOP / "crates/ee_desk_model/src/refusals.rt").read_text()
    assert codes_in(text) == NAMES
    assert f"{min(NAMES)} to {max(NAMES)}" in text
    assert codes_in(text.replace("=> 44,", "=> 45,")) != NAMES, "control: another code"


def written(top: Path) -> tuple[int, list[str]]:
    ran = subprocess.run([top / WRITER, "--check"], capture_output=True, text=True)
    return ran.returncode, ran.stdout.splitlines()


def test_written_lists(folder: Path) -> None:
    assert written(TOP) == (0, ["all lists are those of docs/openapi.json"])
    for name in (WRITER, TABLE, *BY_WRITER):
        (folder / name).parent.mkdir(parents=True, exist_ok=True)
        shutil.copy(TOP / name, folder / name)
    text = (TOP / TABLE).read_text()
    other = text.replace('      "DayFull": {\n        "type"', '      "Full": {\n        "type"')
    assert other != text
    (folder / TABLE).write_text(other)
    assert written(folder)[0] == 1 and sorted(written(folder)[1]) == sorted(BY_WRITER), "control"


def unknown_lists(known: set[str]) -> list[str]:
    """Files that name many refusals, and that no list of this file names."""
    patterns = [re.compile(rf"\b{name}\b") for name in NAMES.values()]
    others = [name for name in files() if not re.search("/proofs/|/must-fail/", name)]
    texts = {name: (TOP / name).read_text(errors="replace") for name in others if name not in known}
    found = {name: sum(bool(one.search(text)) for one in patterns) for name, text in texts.items()}
    return [name for name, count in found.items() if count >= MANY]


def test_all_lists_are_known() -> None:
    uses = {"clients/python/src/ee_counter_client/counter.py"}
    known = {TABLE, *BY_HAND, *BY_WRITER, *uses}
    assert unknown_lists(known) == []
    assert unknown_lists(known - {"docs/STATUSES.md"}) == ["docs/STATUSES.md"], "control"
