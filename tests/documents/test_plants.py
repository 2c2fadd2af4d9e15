"""`.ci/plant` says what refuses a wrong body: the contract, or only a kept answer."""

import shutil
import tomllib
from pathlib import Path
from typing import Any

import pytest

from tests.conftest import TOP
from tests.shared.counter_calls import run

TABLE: dict[str, Any] = tomllib.loads((TOP / "tests/documents/plants.toml").read_text())
pytestmark = [pytest.mark.needs("rt"), pytest.mark.slow]


@pytest.fixture
def top(tmp_path: Path) -> Path:
    crate = tmp_path / "crates/small"
    edits = {
        f"must-fail/{name}.edit": f"file: src/lib.rt\nold: {old}\nnew: {new}\n"
        for name, (old, new, _) in TABLE["edit"].items()
    }
    texts = {"src/lib.rt": TABLE["source"], "specs/Sums.antt": TABLE["sums"], **edits}
    texts |= {"specs/Lib.antt": "pub mod Sums\n", "proofs/capped/Answers.antt": TABLE["answers"]}
    for name, text in texts.items():
        (crate / name).parent.mkdir(parents=True, exist_ok=True)
        (crate / name).write_text(text)
    (tmp_path / "crates.txt").write_text("small:\n")
    (tmp_path / "said").write_text(TABLE["said"])
    (tmp_path / ".ci").mkdir()
    for script in ("plant", "contracts.py"):
        shutil.copy(TOP / ".ci" / script, tmp_path / ".ci" / script)
    return tmp_path


def planted(top: Path, *words: str) -> tuple[int, str]:
    ran = run(top / ".ci/plant", *words)
    return ran.returncode, ran.stdout


def test_table(top: Path) -> None:
    """Status 1, since one can't be applied."""
    status, said = planted(top, "--table", "--said", str(top / "said"))
    assert status == 1 and [lines for lines in TABLE["table"] if lines not in said] == [], said


def test_verdicts(top: Path) -> None:
    """Status 1, since a wrong body was proved."""
    status, said = planted(top, "small")
    verdicts = [verdict for _, _, verdict in TABLE["edit"].values()]
    assert status == 1 and [verdict for verdict in verdicts if verdict not in said] == [], said


def test_edit_that_isnt_there(top: Path) -> None:
    assert planted(top, "small", "no_such_edit")[0] == 2
