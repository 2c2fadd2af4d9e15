"""`.ci/clauses` finds every change of clauses.toml; status 1 is a contract that may be weaker."""

import shutil
import subprocess
import tomllib
from pathlib import Path
from typing import Any

import pytest

from tests.conftest import TOP
from tests.shared.counter_calls import run

TABLE: dict[str, Any] = tomllib.loads((TOP / "tests/documents/clauses.toml").read_text())
EDITS: list[dict[str, Any]] = TABLE["edit"]
CRATES = ("ee_units", "ee_keeper", "ee_desk_model", "ee_wire_framing")
MOVED = {
    "ee_desk_model/specs/Lists.antt": "ee_keeper/specs/Lists.antt",
    "ee_units/src/customers.rt": "ee_keeper/src/buyers.rt",
}
PLACES = ("ee_keeper::buyers", "ee_units::customers")
RESULT = "ensures { result ≡ in_range 1 highest_customer number }"


def git(top: Path, *words: str) -> None:
    person = ["-c", "user.name=nobody", "-c", "user.email=nobody@localhost"]
    subprocess.run(["git", "-C", str(top), *person, *words], check=True, capture_output=True)


def compared(top: Path, *words: str) -> tuple[int, str]:
    ran = run(top / ".ci/clauses", *words)
    return ran.returncode, ran.stdout


@pytest.fixture
def top(tmp_path: Path) -> Path:
    left_out = shutil.ignore_patterns("out", "proofs", "must-fail")
    for crate in CRATES:
        shutil.copytree(TOP / "crates" / crate, tmp_path / "crates" / crate, ignore=left_out)
    (tmp_path / ".ci").mkdir()
    for name in ("clauses", "contracts.py"):
        shutil.copy(TOP / ".ci" / name, tmp_path / ".ci" / name)
    git(tmp_path, "init", "-q")
    git(tmp_path, "add", "-A")
    git(tmp_path, "commit", "-q", "-m", "first")
    return tmp_path


def test_nothing_changed(top: Path) -> None:
    """Control: two equal states."""
    status, said = compared(top, "HEAD")
    assert status == 0 and "0 moved, 0 changed, 0 gone, 0 new" in said and "not read" not in said


@pytest.mark.parametrize("edit", EDITS, ids=[edit["what"] for edit in EDITS])
def test_edit(top: Path, edit: dict[str, Any]) -> None:
    file = top / "crates" / edit["file"]
    assert file.read_text().count(edit["old"]) == 1
    file.write_text(file.read_text().replace(edit["old"], edit["new"]))
    status, said = compared(top, "HEAD")
    assert status == edit["status"], said
    assert [part for part in edit["said"] if part not in said] == [], said


def test_moves(top: Path) -> None:
    """Files that move to another crate with their definitions change nothing; a clause does."""
    for old, new in MOVED.items():
        git(top, "mv", f"crates/{old}", f"crates/{new}")
    for file in (top / "crates").glob("*/specs/*.antt"):
        here = "Rattle.ee_desk_model.specs.Lists."
        file.write_text(file.read_text().replace(here, "Rattle.ee_keeper.specs.Lists."))
    git(top, "commit", "-q", "-a", "-m", "second")
    status, said = compared(top, "HEAD~", "HEAD")
    assert status == 0 and ", 0 changed, 0 gone, 0 new" in said
    assert "moved: definition ee_keeper::Lists::Rising, from ee_desk_model::Lists::Rising" in said
    moved, before = (f"{place}::impl Customer::new" for place in PLACES)
    assert f"moved: public function {moved}, from {before}" in said
    file = top / "crates/ee_keeper/src/buyers.rt"
    file.write_text(file.read_text().replace(RESULT, "ensures { ⊤ }"))
    status, said = compared(top, "HEAD~")
    assert status == 1 and f"look at: public function {moved}: ensures: changed" in said
    file.write_text("")
    status, said = compared(top, "HEAD~")
    assert status == 1 and f"look at: public function {before}: gone, with 1 clauses" in said


def test_words(top: Path) -> None:
    assert compared(top)[0] == 2 and compared(top, "no_such_commit")[0] == 2
